//! Properties of the built library alone: what it answers is held against what else it answers, and the reference isn't
//! asked.

pub mod blocks;
pub mod described;
pub mod public;
pub mod replayed;
pub mod round_trips;
pub mod serving;
pub mod steps;
pub mod texts;
pub mod waiting;
pub mod walk;

use gishwarem::raw::{Identifier, Part};

use crate::subject::Subject;

/// Every property.
pub const ALL: [Subject; 18] = [
    waiting::WAITING,
    waiting::WAITING_BY_VERDICT,
    described::DESCRIBED,
    round_trips::ENTRY,
    round_trips::EFSKEY_WRITTEN,
    round_trips::EFSKEY_READ,
    round_trips::SEGMENT_WRITTEN,
    round_trips::SEGMENT_READ,
    round_trips::ENVELOPE_WRITTEN,
    round_trips::ENVELOPE_READ,
    walk::WALK,
    blocks::BLOCKS,
    public::ANYWHERE,
    texts::TEXTS,
    serving::SERVING,
    steps::STEPS,
    replayed::PARTS,
    replayed::LINES,
];

/// The bytes of a part.
fn part_of(bytes: &[u8], part: Part) -> &[u8] {
    &bytes[part.at..part.at + part.len]
}

/// Whether a map reaches the indices of an identifier: bit L2 of row L1, index 0 the most significant.
fn has_bit(rows: &[u32; 32], at: Identifier) -> bool {
    at.l1 < 32 && at.l2 < 32 && rows[at.l1 as usize] >> (31 - at.l2) & 1 == 1
}
