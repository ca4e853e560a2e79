//! Bytes and numbers that are lent to the library: inputs that end where their allocation ends, and outputs between guard
//! bytes.

use std::fmt::Debug;

use crate::rng::Rng;

/// A lent input, as the C face takes it.
#[derive(Clone, Copy)]
pub struct Input<T> {
    /// Where it starts.
    pub start: *const T,
    /// Its length.
    pub len: usize,
}

/// Lends inputs of bytes, or of numbers, for one question. Each is a copy in an allocation of exactly its length, so that a
/// memory checker sees a read past its end; an empty one goes with a null pointer or with one to nothing. Inputs are kept.
pub fn lend<T: Copy + PartialEq + Debug, const N: usize, A>(
    rng: &mut Rng,
    inputs: [&[T]; N],
    ask: impl FnOnce([Input<T>; N]) -> A,
) -> A {
    let copies = inputs.map(Box::<[T]>::from);
    let answer = ask(copies.each_ref().map(|copy| Input {
        start: if copy.is_empty() && rng.chance(2) {
            std::ptr::null()
        } else {
            copy.as_ptr()
        },
        len: copy.len(),
    }));
    for (copy, input) in copies.iter().zip(inputs) {
        assert_eq!(**copy, *input, "an input was changed");
    }
    answer
}

/// A lent output: room for a record inside a larger buffer of random bytes.
pub struct Output {
    all: Box<[u8]>,
    before: Box<[u8]>,
    at: usize,
    room: usize,
    null: bool,
}

impl Output {
    /// An output with this room and guard bytes on both sides.
    pub fn new(rng: &mut Rng, room: usize) -> Self {
        let at = rng.within(16, 40);
        let all = rng.bytes(at + room + 32).into_boxed_slice();
        let null = room == 0 && rng.chance(2);
        Output {
            before: all.clone(),
            all,
            at,
            room,
            null,
        }
    }

    /// Where the room starts; no room goes with a null pointer too.
    pub fn start(&mut self) -> *mut u8 {
        if self.null {
            return std::ptr::null_mut();
        }
        self.all[self.at..].as_mut_ptr()
    }

    /// Its length.
    pub fn room(&self) -> usize {
        self.room
    }

    /// The first bytes of the room.
    pub fn first(&self, len: usize) -> &[u8] {
        &self.all[self.at..self.at + len]
    }

    /// Whether the room starts with just these bytes, and every other byte is what it was: the rest of the room and the
    /// guard bytes around it.
    pub fn holds(&self, record: &[u8]) -> bool {
        let end = self.at + record.len();
        record.len() <= self.room
            && self.all[..self.at] == self.before[..self.at]
            && self.all[self.at..end] == *record
            && self.all[end..] == self.before[end..]
    }
}

#[cfg(test)]
mod tests {
    use super::*;

    /// Each byte of the buffer, the guards included, is looked at.
    #[test]
    fn a_changed_byte_is_seen() {
        let mut rng = Rng::new(3);
        let mut out = Output::new(&mut rng, 9);
        let record = out.first(5).to_vec();
        for at in 0..out.all.len() {
            assert!(out.holds(&[]) && out.holds(&record));
            out.all[at] ^= 1;
            assert!(!out.holds(&record), "byte {at}");
            out.all[at] ^= 1;
        }
        out.all[out.at] ^= 1;
        let changed = out.first(1).to_vec();
        assert!(out.holds(&changed) && !out.holds(&[]));
    }

    #[test]
    fn a_record_past_the_room_is_not_held() {
        let out = Output::new(&mut Rng::new(4), 3);
        let longer = out.first(4).to_vec();
        assert!(out.holds(&longer[..3]) && !out.holds(&longer));
    }

    #[test]
    fn inputs_are_lent_as_they_are() {
        let mut rng = Rng::new(5);
        let mut nulls = 0;
        for _ in 0..100 {
            lend(&mut rng, [&[1, 2, 3], &[]], |[full, empty]| {
                assert_eq!((full.len, empty.len), (3, 0));
                assert!(!full.start.is_null());
                nulls += usize::from(empty.start.is_null());
            });
        }
        assert!((1..100).contains(&nulls), "{nulls}");
    }
}
