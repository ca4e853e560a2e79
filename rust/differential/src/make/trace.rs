//! Records of a trace, traces with their root table, and what a replay is told of those before.

use std::fmt;

use gishwarem::raw::{codes, ReplayState, Tally};

use super::decision::{self, move_one, Question};
use super::identifier::STEP;
use super::{code, junk, Kind};
use crate::hex::Hex;
use crate::rng::Rng;

/// The length of a record.
pub const LEN: usize = 37;

/// Where the flags stand: root given, rights, verdict, spare.
const FLAGS: usize = 8;

/// Where the root key stands.
const ROOT: usize = 21;

/// The flag of a root that is given, rights 3, and the spare bits.
const GIVEN: u8 = 0x80;
const RIGHTS_3: u8 = 0x60;
const SPARE: u8 = 0x0F;

/// A question as it is recorded, which is no malformed record.
fn packed(question: &Question) -> [u8; LEN] {
    let request = &question.request;
    let given = request.root_given != codes::ROOT_NONE;
    let rights = match question.rights {
        listed @ (codes::RIGHTS_PUBLIC | codes::RIGHTS_SEED) => listed as u8,
        _ => 0,
    };
    let verdict = question.verdict == codes::ACCESS_ALLOWED;

    let mut record = [0; LEN];
    record[..FLAGS].copy_from_slice(&question.clock.to_be_bytes());
    record[FLAGS] = u8::from(given) << 7 | rights << 5 | u8::from(verdict) << 4;
    for (at, index) in [(9, request.l0), (13, request.l1), (17, request.l2)] {
        record[at..at + 4].copy_from_slice(&index.to_be_bytes());
    }
    if given {
        record[ROOT..].copy_from_slice(&request.root.bytes);
    }
    record
}

/// Any fields, but for what makes a record malformed.
fn any_fields(rng: &mut Rng) -> [u8; LEN] {
    let mut record = [0; LEN];
    rng.fill(&mut record);
    record[FLAGS] &= !SPARE;
    if record[FLAGS] & RIGHTS_3 == RIGHTS_3 {
        record[FLAGS] ^= rng.pick(&[0x20, 0x40]);
    }
    if record[FLAGS] & GIVEN == 0 {
        record[ROOT..].fill(0);
    }
    record
}

/// Makes a record of whole length a malformed one.
fn spoil(rng: &mut Rng, record: &mut [u8]) {
    match rng.below(3) {
        0 => record[FLAGS] |= 1 << rng.below(4),
        1 => record[FLAGS] |= RIGHTS_3,
        _ => {
            record[FLAGS] &= !GIVEN;
            record[ROOT + rng.below(16)] |= 1 << rng.below(8);
        }
    }
}

/// A record that is read, at times with bytes behind it.
pub fn record(rng: &mut Rng, kind: Kind) -> Vec<u8> {
    let mut record = if rng.chance(2) {
        any_fields(rng)
    } else {
        packed(&decision::question(rng, Kind::Valid))
    }
    .to_vec();
    match kind {
        Kind::Valid => {}
        Kind::Moved => match rng.below(8) {
            0 => record.truncate(LEN - 1),
            1 => record.truncate(rng.below(LEN)),
            2 => record[FLAGS] ^= GIVEN,
            3 | 4 => record[rng.below(LEN)] ^= 1 << rng.below(8),
            _ => spoil(rng, &mut record),
        },
        Kind::Junk => return junk(rng),
    }
    if record.len() == LEN && rng.chance(8) {
        let behind = rng.within(1, 2 * LEN);
        record.extend(rng.bytes(behind));
    }
    record
}

/// A record that is replayed, and the root table.
pub struct Asked {
    /// The root table.
    pub table: Vec<u8>,
    /// The record.
    pub record: Vec<u8>,
}

impl fmt::Debug for Asked {
    fn fmt(&self, out: &mut fmt::Formatter<'_>) -> fmt::Result {
        write!(
            out,
            "table {:?}, record {:?}",
            Hex(&self.table),
            Hex(&self.record)
        )
    }
}

/// A record that is replayed: it is accepted if valid.
pub fn asked(rng: &mut Rng, kind: Kind) -> Asked {
    let question = decision::question(rng, kind);
    let mut record = packed(&question).to_vec();
    match kind {
        Kind::Valid => {}
        Kind::Moved => match rng.below(16) {
            0 => record.truncate(rng.below(LEN)),
            1 | 2 => spoil(rng, &mut record),
            _ => {}
        },
        Kind::Junk => {
            if rng.chance(4) {
                record = junk(rng);
            }
        }
    }
    Asked {
        table: question.table,
        record,
    }
}

/// A trace and the root table.
pub struct Trace {
    /// The root table.
    pub table: Vec<u8>,
    /// The trace.
    pub bytes: Vec<u8>,
    /// A clock near those of its records.
    pub clock: u64,
}

impl fmt::Debug for Trace {
    fn fmt(&self, out: &mut fmt::Formatter<'_>) -> fmt::Result {
        write!(
            out,
            "table {:?}, trace {:?}",
            Hex(&self.table),
            Hex(&self.bytes)
        )
    }
}

/// A trace of up to so many records: requests around one question, with clocks that go up and down around its own. If moved,
/// some are malformed; the last may be cut.
pub fn trace(rng: &mut Rng, kind: Kind, most: usize) -> Trace {
    let mut question = decision::question(rng, kind);
    let table = std::mem::take(&mut question.table);
    let clock = question.clock;
    let mut now = clock;
    let mut bytes = vec![];
    for _ in 0..rng.within(0, most) {
        let mut other = question.clone();
        if rng.chance(3) {
            move_one(rng, &mut other);
        }
        now = next_clock(rng, now, clock);
        other.clock = now;
        let mut record = packed(&other);
        match kind {
            Kind::Valid => {}
            Kind::Moved if !rng.chance(5) => {}
            Kind::Moved => spoil(rng, &mut record),
            Kind::Junk if rng.chance(3) => rng.fill(&mut record),
            Kind::Junk => {}
        }
        bytes.extend(record);
    }
    if !bytes.is_empty() && rng.chance(4) {
        bytes.truncate(bytes.len() - rng.within(1, LEN - 1));
    }
    Trace {
        table,
        bytes,
        clock,
    }
}

/// The clock behind one: mostly later, else the same, earlier, or that of the trace again.
fn next_clock(rng: &mut Rng, now: u64, clock: u64) -> u64 {
    let step = rng.pick(&[1, 1, STEP - 1, STEP, 32 * STEP]);
    match rng.below(8) {
        0 => now,
        1 => clock,
        2 | 3 => now.saturating_sub(step),
        _ => now.saturating_add(step),
    }
}

/// A count: a small one, or any that two of can be added, if valid; else often one of the last that fit.
fn count(rng: &mut Rng, kind: Kind) -> u64 {
    let small = rng.below(1_000) as u64;
    let any = rng.draw();
    match kind {
        Kind::Valid => rng.pick(&[0, small, any / 4]),
        Kind::Moved => rng.pick(&[0, small, u64::MAX, u64::MAX - 1, u64::MAX - small]),
        Kind::Junk => any,
    }
}

/// A tally, whose clocks are near this one or anywhere. If junk, whether it has clocks is told by any code.
pub fn tally(rng: &mut Rng, kind: Kind, clock: u64) -> Tally {
    let mut near = || {
        let any = rng.draw();
        let (before, behind) = (clock.saturating_sub(1), clock.saturating_add(1));
        rng.pick(&[clock, clock, before, behind, any, 0, u64::MAX])
    };
    let (first, last) = (near(), near());
    let tally = Tally {
        accepted: count(rng, kind),
        refused: count(rng, kind),
        earlier: count(rng, kind),
        first,
        last,
        clocks: codes::CLOCKS_GIVEN,
        reserved: 0,
    };
    match kind {
        Kind::Junk => Tally {
            clocks: code(rng, &[0, 1]),
            reserved: rng.number(),
            ..tally
        },
        _ if rng.chance(3) => Tally {
            clocks: codes::CLOCKS_NONE,
            first: 0,
            last: 0,
            ..tally
        },
        _ => tally,
    }
}

/// A state: at times the one that a replay starts from.
pub fn state(rng: &mut Rng, kind: Kind, clock: u64) -> ReplayState {
    if rng.chance(4) {
        return ReplayState {
            next: 1,
            tally: Tally::default(),
        };
    }
    let lines = rng.below(20) as u64;
    let any = rng.draw();
    ReplayState {
        next: match kind {
            Kind::Valid => rng.pick(&[1, 9, 10, 99, any / 2]),
            _ => rng.pick(&[1, 0, any, any, u64::MAX, u64::MAX - lines]),
        },
        tally: tally(rng, kind, clock),
    }
}
