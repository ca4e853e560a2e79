//! Inputs, built byte by byte from the layouts of documents 01 and 02 and then moved to boundaries.

pub mod choice;
pub mod decision;
pub mod descriptor;
pub mod efskey;
pub mod entry;
pub mod envelope;
pub mod identifier;
pub mod list;
pub mod segment;
pub mod trace;

use crate::rng::Rng;

/// The longest record or list that isn't refused with 1.
pub const LIMIT: usize = 65_535;

/// How an input is made.
#[derive(Debug, Clone, Copy, PartialEq, Eq)]
pub enum Kind {
    /// By the rules: it is accepted.
    Valid,
    /// By the rules, then one or two of its fields moved to a boundary.
    Moved,
    /// By no rule.
    Junk,
}

impl Kind {
    /// All three.
    pub const ALL: [Kind; 3] = [Kind::Valid, Kind::Moved, Kind::Junk];

    /// Draws a kind.
    pub fn draw(rng: &mut Rng) -> Self {
        rng.pick(&[
            Kind::Valid,
            Kind::Valid,
            Kind::Moved,
            Kind::Moved,
            Kind::Moved,
            Kind::Junk,
        ])
    }
}

/// How often an input is long: one time in so many.
const LONG: usize = 100;

/// The length of a valid record: mostly from `least` to `short` bytes more, at times up to the limit.
fn valid_length(rng: &mut Rng, least: usize, short: usize) -> usize {
    if rng.chance(LONG) {
        return match rng.below(3) {
            0 => LIMIT,
            1 => LIMIT - rng.below(4),
            _ => rng.within(least, LIMIT),
        };
    }
    let more = if rng.chance(10) { 20 * short } else { short };
    rng.within(least, least + more)
}

/// As `valid_length`, and at times one byte over the limit.
fn moved_length(rng: &mut Rng, least: usize, short: usize) -> usize {
    if rng.chance(LONG) {
        return LIMIT + 1;
    }
    valid_length(rng, least, short)
}

/// The number at `at`: 32-bit, little-endian.
pub fn number_at(bytes: &[u8], at: usize) -> u32 {
    u32::from_le_bytes([bytes[at], bytes[at + 1], bytes[at + 2], bytes[at + 3]])
}

/// Puts a number at `at`: 32-bit, little-endian.
pub fn put_number(bytes: &mut [u8], at: usize, number: u32) {
    bytes[at..at + 4].copy_from_slice(&number.to_le_bytes());
}

/// Moves one or two of the numbers at these places to a boundary.
fn move_numbers(rng: &mut Rng, bytes: &mut [u8], places: &[usize]) {
    for _ in 0..rng.within(1, 2) {
        let at = rng.pick(places);
        let number = number_at(bytes, at);
        put_number(bytes, at, rng.moved(number));
    }
}

/// Moves the end of the bytes: a byte less, a byte more, cut anywhere, or one over the limit.
fn move_end(rng: &mut Rng, bytes: &mut Vec<u8>) {
    let len = bytes.len();
    let moved = match rng.below(100) {
        0 => LIMIT + 1,
        1..=40 => len - 1,
        41..=70 => len + 1,
        _ => rng.below(len),
    };
    bytes.resize(moved, 0);
}

/// Bytes by no rule: of any length up to one over the limit, but mostly short; random, or nearly all zeros.
fn junk(rng: &mut Rng) -> Vec<u8> {
    let len = if rng.chance(LONG) {
        let any = rng.below(LIMIT + 1);
        rng.pick(&[any, LIMIT, LIMIT + 1])
    } else {
        rng.below(160)
    };
    if rng.chance(2) {
        return rng.bytes(len);
    }
    let mut bytes = vec![0; len];
    for _ in 0..len.min(8) {
        let at = rng.below(len);
        bytes[at] = rng.pick(&[1, 2, 4, 20, 28, 64, 255]);
    }
    bytes
}

/// A number that junk may get so as to pass a check: its place, and its value by the length of the bytes.
type Stamp = (usize, fn(u32) -> u32);

/// Junk, half of which gets these numbers, so that later checks meet junk too.
fn junk_with(rng: &mut Rng, stamps: &[Stamp]) -> Vec<u8> {
    let mut bytes = junk(rng);
    let len = bytes.len() as u32;
    if rng.chance(2) {
        for &(at, of_length) in stamps {
            if at + 4 <= bytes.len() {
                put_number(&mut bytes, at, of_length(len));
            }
        }
    }
    bytes
}

/// Room for a record of this length: enough where the input is to be accepted, else at times too little.
pub fn room(rng: &mut Rng, kind: Kind, record: usize) -> usize {
    match kind {
        Kind::Valid => {
            let more = rng.below(40);
            record + rng.pick(&[0, 1, more])
        }
        Kind::Moved => {
            let less = rng.below(record);
            rng.pick(&[record, record, record + 9, record - 1, less, 0])
        }
        Kind::Junk => rng.below(300),
    }
}

/// A code: one of the listed ones, or at times one that isn't listed.
pub fn code(rng: &mut Rng, listed: &[u32]) -> u32 {
    if rng.chance(8) {
        let number = rng.number();
        return rng.pick(&[
            5,
            6,
            255,
            256,
            257,
            258,
            65_537,
            0x8000_0001,
            u32::MAX,
            number,
        ]);
    }
    rng.pick(listed)
}
