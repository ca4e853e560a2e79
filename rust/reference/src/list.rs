//! A list of Key List Entries: a count and that many entries back to back
//! (document 01, "Key List Entry and list").

use crate::entry::{self, Entry};
use crate::{u32_at, MAX_LENGTH};

/// The length of the fixed head, which is the count.
const HEAD: usize = 4;

/// A refused list.
#[derive(Debug, Clone, Copy, PartialEq, Eq)]
pub struct Refused {
    /// The refusal's number.
    pub number: u32,
    /// The index of the entry that the refusal is given for, counted from 0; 0
    /// for a refusal of the whole list.
    pub index: u32,
}

impl Refused {
    fn whole(number: u32) -> Self {
        Refused { number, index: 0 }
    }
}

/// What one step of the walk shows.
#[derive(Debug, Clone, Copy, PartialEq, Eq)]
pub enum Step {
    /// An accepted entry.
    Entry {
        /// The entry's index, counted from 0.
        index: u32,
        /// Where the entry's first byte stands in the list.
        at: usize,
        /// What the entry shows; places count from the entry's first byte.
        entry: Entry,
        /// Where the next step stands in the list.
        next_at: usize,
        /// The index of the next step.
        next_index: u32,
    },
    /// The end of an accepted list.
    End,
}

/// Judges a whole list and tells its count.
pub fn judge(bytes: &[u8]) -> Result<u32, Refused> {
    let count = read_count(bytes)?;
    let mut at = HEAD;
    for index in 0..count {
        let (_, length) = read_entry(bytes, at).map_err(|number| Refused { number, index })?;
        at += length;
    }
    if at != bytes.len() {
        return Err(Refused::whole(22));
    }
    Ok(count)
}

/// Takes the walk's step at the place `at` in the list, for the entry with this
/// index. The walk starts at (4, 0). The end and a refusal leave the place as it
/// is, so that asking again gives them again.
pub fn step(bytes: &[u8], at: usize, index: u32) -> Result<Step, Refused> {
    let count = read_count(bytes)?;
    if index < count {
        let (entry, length) = read_entry(bytes, at).map_err(|number| Refused { number, index })?;
        return Ok(Step::Entry {
            index,
            at,
            entry,
            next_at: at + length,
            next_index: index + 1,
        });
    }
    if at != bytes.len() {
        return Err(Refused::whole(22));
    }
    Ok(Step::End)
}

/// The refusals 1 and 2 of the whole list, then its count.
fn read_count(bytes: &[u8]) -> Result<u32, Refused> {
    if bytes.len() > MAX_LENGTH {
        return Err(Refused::whole(1));
    }
    if bytes.len() < HEAD {
        return Err(Refused::whole(2));
    }
    Ok(u32_at(bytes, 0))
}

/// Reads the entry at `at` and tells its length. An entry's record is its
/// Length bytes.
fn read_entry(bytes: &[u8], at: usize) -> Result<(Entry, usize), u32> {
    let rest = bytes.get(at..).ok_or(2u32)?;
    if rest.len() < entry::HEAD {
        return Err(2);
    }
    let length = u64::from(u32_at(rest, 0));
    if length < entry::HEAD as u64 || length > rest.len() as u64 {
        return Err(3);
    }
    let length = length as usize;
    let entry = entry::read(&rest[..length])?;
    Ok((entry, length))
}

#[cfg(test)]
mod tests {
    use super::*;
    use crate::entry::Algorithm;
    use crate::{put_u32, Part};

    /// The least entry: 25 bytes, item at 20 of 4, FEK at 24 of 1.
    const LEAST: [u8; 25] = [
        25, 0, 0, 0, 20, 0, 0, 0, 1, 0, 0, 0, 24, 0, 0, 0, 0, 0, 0, 0, 4, 0, 0, 0, 0xFE,
    ];

    /// An entry of 26 bytes, FEK of 1 at 20, item of 5 at 21, AES-256.
    const TURNED: [u8; 26] = [
        26, 0, 0, 0, 21, 0, 0, 0, 1, 0, 0, 0, 20, 0, 0, 0, 1, 0, 0, 0, 0xFE, 5, 0, 0, 0, 7,
    ];

    fn list(count: u32, entries: &[&[u8]]) -> Vec<u8> {
        let mut bytes = count.to_le_bytes().to_vec();
        for entry in entries {
            bytes.extend_from_slice(entry);
        }
        bytes
    }

    fn refused(number: u32, index: u32) -> Refused {
        Refused { number, index }
    }

    /// Walks to the final answer, shows it and the number of entries before it,
    /// and asks for the final answer again.
    fn walk(bytes: &[u8]) -> (u32, Result<Step, Refused>) {
        let (mut at, mut index) = (4, 0);
        loop {
            match step(bytes, at, index) {
                Ok(Step::Entry {
                    next_at,
                    next_index,
                    ..
                }) => (at, index) = (next_at, next_index),
                last => {
                    assert_eq!(step(bytes, at, index), last);
                    return (index, last);
                }
            }
        }
    }

    fn assert_refused(bytes: &[u8], shown: u32, number: u32, index: u32) {
        assert_eq!(judge(bytes), Err(refused(number, index)));
        assert_eq!(walk(bytes), (shown, Err(refused(number, index))));
    }

    #[test]
    fn accepted_lists() {
        assert_eq!(judge(&list(0, &[])), Ok(0));
        assert_eq!(walk(&list(0, &[])), (0, Ok(Step::End)));
        let bytes = list(3, &[&LEAST, &TURNED, &LEAST]);
        assert_eq!(judge(&bytes), Ok(3));
        assert_eq!(walk(&bytes), (3, Ok(Step::End)));
    }

    #[test]
    fn steps_show_entries() {
        let bytes = list(2, &[&LEAST, &TURNED]);
        assert_eq!(
            step(&bytes, 4, 0),
            Ok(Step::Entry {
                index: 0,
                at: 4,
                entry: Entry {
                    flags: 0,
                    algorithm: Algorithm::Rsa,
                    item: Part { at: 20, len: 4 },
                    fek: Part { at: 24, len: 1 },
                },
                next_at: 29,
                next_index: 1,
            })
        );
        assert_eq!(
            step(&bytes, 29, 1),
            Ok(Step::Entry {
                index: 1,
                at: 29,
                entry: Entry {
                    flags: 1,
                    algorithm: Algorithm::Aes256,
                    item: Part { at: 21, len: 5 },
                    fek: Part { at: 20, len: 1 },
                },
                next_at: 55,
                next_index: 2,
            })
        );
        assert_eq!(step(&bytes, 55, 2), Ok(Step::End));
    }

    #[test]
    fn whole_list() {
        assert_refused(&[], 0, 2, 0);
        assert_refused(&[0; 3], 0, 2, 0);
        // The limit: 1 at 65,536 bytes, 22 at 65,535.
        assert_refused(&[0; 65_536], 0, 1, 0);
        assert_refused(&[0; 65_535], 0, 22, 0);
    }

    #[test]
    fn bytes_left() {
        assert_refused(&[0; 5], 0, 22, 0);
        assert_refused(&list(0, &[&LEAST]), 0, 22, 0);
        assert_refused(&list(1, &[&LEAST, &TURNED]), 1, 22, 0);
        assert_refused(&list(1, &[&LEAST, &[0]]), 1, 22, 0);
    }

    #[test]
    fn missing_entries() {
        assert_refused(&list(1, &[]), 0, 2, 0);
        assert_refused(&list(u32::MAX, &[]), 0, 2, 0);
        assert_refused(&list(u32::MAX, &[&LEAST, &LEAST]), 2, 2, 2);
        assert_refused(&list(2, &[&LEAST, &TURNED[..19]]), 1, 2, 1);
        // Twenty bytes remain, but Length says more.
        assert_refused(&list(2, &[&LEAST, &TURNED[..20]]), 1, 3, 1);
        assert_refused(&list(2, &[&LEAST, &TURNED[..25]]), 1, 3, 1);
    }

    #[test]
    fn entry_length() {
        let mut bytes = list(2, &[&LEAST, &LEAST]);
        for (length, number) in [(0, 3), (19, 3), (20, 6), (25, 0), (26, 3), (u32::MAX, 3)] {
            put_u32(&mut bytes, 29, length);
            if number == 0 {
                assert_eq!(judge(&bytes), Ok(2));
            } else {
                assert_refused(&bytes, 1, number, 1);
            }
        }
    }

    #[test]
    fn entry_is_its_length_bytes() {
        // The FEK of the first entry runs into the second one.
        let mut bytes = list(2, &[&LEAST, &LEAST]);
        put_u32(&mut bytes, 4 + 8, 2);
        assert_refused(&bytes, 0, 6, 0);
    }

    #[test]
    fn each_entry_is_judged() {
        let mut empty_fek = LEAST;
        put_u32(&mut empty_fek, 8, 0);
        let mut overlap = LEAST;
        put_u32(&mut overlap, 12, 23);
        assert_refused(&list(2, &[&LEAST, &empty_fek]), 1, 7, 1);
        assert_refused(&list(3, &[&LEAST, &TURNED, &overlap]), 2, 8, 2);
        // A refused entry wins over bytes left and over later entries.
        assert_refused(&list(1, &[&overlap, &[0]]), 0, 8, 0);
        assert_refused(&list(3, &[&LEAST, &empty_fek, &overlap]), 1, 7, 1);
    }

    #[test]
    fn steps_at_any_place() {
        let bytes = list(2, &[&LEAST, &TURNED]);
        // Beyond the end, at the end and just before it.
        for at in [usize::MAX, 56, 55, 36] {
            assert_eq!(step(&bytes, at, 1), Err(refused(2, 1)));
        }
        // Four bytes into the first entry: its item offset 20 is taken for the
        // Length and its FEK length 1 for the item offset.
        assert_eq!(step(&bytes, 8, 1), Err(refused(6, 1)));
        // At the list's own count.
        assert_eq!(step(&bytes, 0, 0), Err(refused(3, 0)));
        // Past the last index.
        assert_eq!(step(&bytes, 55, u32::MAX), Ok(Step::End));
        for at in [0, 4, 54, 56, usize::MAX] {
            assert_eq!(step(&bytes, at, 2), Err(refused(22, 0)));
        }
        // Whole-list refusals come first.
        assert_eq!(step(&[0; 3], 3, 7), Err(refused(2, 0)));
        assert_eq!(step(&[0; 65_536], 65_536, 7), Err(refused(1, 0)));
    }
}
