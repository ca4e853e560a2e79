//! Lists of entries.

use super::{entry, junk_with, move_end, move_numbers, Kind, LIMIT, LONG};
use crate::rng::Rng;

/// The length of the count.
const HEAD: usize = 4;

/// A list's bytes, and where its entries stood before anything was moved.
pub struct List {
    /// The bytes.
    pub bytes: Vec<u8>,
    /// Where each entry starts, and last where the list ends.
    pub places: Vec<usize>,
}

/// A list.
pub fn list(rng: &mut Rng, kind: Kind) -> List {
    match kind {
        Kind::Valid => {
            let lengths = lengths(rng, LIMIT);
            valid(rng, &lengths)
        }
        Kind::Moved => moved(rng),
        Kind::Junk => List {
            bytes: junk_with(rng, &[(0, |length| length % 3), (4, |length| length - 4)]),
            places: vec![HEAD],
        },
    }
}

/// The lengths of a list's entries: mostly a few short ones, at times as many as fill the list to its longest.
fn lengths(rng: &mut Rng, longest: usize) -> Vec<usize> {
    if !rng.chance(2 * LONG) {
        let count = rng.below(5);
        return (0..count).map(|_| entry::short_length(rng)).collect();
    }
    let mut lengths = Vec::new();
    let mut rest = longest - HEAD;
    while rest >= 1_000 {
        let short = entry::short_length(rng);
        let long = rng.within(500, rest - 500);
        let length = rng.pick(&[short, short, short, short.max(long / 8)]);
        lengths.push(length);
        rest -= length;
    }
    lengths.push(rest);
    lengths
}

/// A count and that many entries of these lengths.
fn valid(rng: &mut Rng, lengths: &[usize]) -> List {
    let mut list = List {
        bytes: (lengths.len() as u32).to_le_bytes().to_vec(),
        places: vec![HEAD],
    };
    for &length in lengths {
        list.bytes.extend(entry::valid(rng, length));
        list.places.push(list.bytes.len());
    }
    list
}

/// A valid list, then one or two things moved: the count, an entry, an entry's Length, the end.
fn moved(rng: &mut Rng) -> List {
    let lengths = lengths(rng, LIMIT + 1);
    let mut list = valid(rng, &lengths);
    for _ in 0..rng.within(1, 2) {
        match rng.below(6) {
            0 => {
                if list.bytes.len() >= HEAD {
                    move_numbers(rng, &mut list.bytes, &[0]);
                }
            }
            1 => {
                if !list.bytes.is_empty() {
                    move_end(rng, &mut list.bytes);
                }
            }
            2 => {
                let at = rng.pick(&list.places);
                if at + HEAD <= list.bytes.len() {
                    move_numbers(rng, &mut list.bytes, &[at]);
                }
            }
            _ => replace_entry(rng, &mut list),
        }
    }
    list
}

/// Puts a moved entry in the place of one of the list's.
fn replace_entry(rng: &mut Rng, list: &mut List) {
    if list.places.len() < 2 {
        return;
    }
    let index = rng.below(list.places.len() - 1);
    let (at, end) = (list.places[index], list.places[index + 1]);
    if end > list.bytes.len() {
        return;
    }
    let length = entry::short_length(rng);
    let entry = entry::moved(rng, length);
    let longer = (at + entry.len()).wrapping_sub(end);
    list.bytes.splice(at..end, entry);
    for place in &mut list.places[index + 1..] {
        *place = place.wrapping_add(longer);
    }
}

/// A place of a walk: one that the walk comes to, the end, or one of the two numbers moved.
pub fn place(rng: &mut Rng, kind: Kind, list: &List) -> (usize, u32) {
    let index = rng.below(list.places.len());
    let (at, number) = (list.places[index], index as u32);
    let any = rng.below(list.bytes.len() + 2);
    let ends = [
        0,
        HEAD,
        at + 1,
        at.wrapping_sub(1),
        list.bytes.len(),
        list.bytes.len() + 1,
        any,
        usize::MAX,
        usize::MAX - 19,
        1 << 32,
    ];
    match kind {
        Kind::Valid => (at, number),
        Kind::Moved if rng.chance(2) => (at, number),
        Kind::Moved if rng.chance(2) => (at, rng.moved(number)),
        Kind::Moved => (rng.pick(&ends), number),
        Kind::Junk => (rng.pick(&ends), rng.moved(number)),
    }
}
