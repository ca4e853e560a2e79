//! Questions to the GetKey decision.

use std::fmt;

use gishwarem::raw::{codes, Identifier, Request, Root};

use super::descriptor;
use super::envelope::root;
use super::identifier::{self, of_step, STEP};
use super::{code, junk, Kind};
use crate::hex::Hex;
use crate::rng::Rng;

/// The length of a table's row.
const ROW: usize = 32;

/// The most rows of a table.
const MOST_ROWS: usize = 64;

/// Boundaries of signed indices.
const INDICES: [i32; 10] = [-1, -2, 0, 1, 30, 31, 32, 33, i32::MIN, i32::MAX];

/// A question to the decision.
#[derive(Clone)]
pub struct Question {
    /// The descriptor, where that is asked by.
    pub descriptor: Vec<u8>,
    /// The verdict's code, where that is asked by.
    pub verdict: u32,
    /// The rights' code.
    pub rights: u32,
    /// The request.
    pub request: Request,
    /// The clock.
    pub clock: u64,
    /// The root table.
    pub table: Vec<u8>,
}

impl fmt::Debug for Question {
    fn fmt(&self, out: &mut fmt::Formatter<'_>) -> fmt::Result {
        write!(
            out,
            "descriptor {:?}, verdict {}, rights {}, {:?}, clock {}, table {:?}",
            Hex(&self.descriptor),
            self.verdict,
            self.rights,
            self.request,
            self.clock,
            Hex(&self.table)
        )
    }
}

/// A row of a table.
#[derive(Clone, Copy)]
struct Row {
    root: Root,
    use_start: u64,
    create: u64,
}

/// A question.
pub fn question(rng: &mut Rng, kind: Kind) -> Question {
    match kind {
        Kind::Valid => valid(rng),
        Kind::Moved => {
            let mut question = valid(rng);
            for _ in 0..rng.within(1, 2) {
                move_one(rng, &mut question);
            }
            question
        }
        Kind::Junk => Question {
            descriptor: any_descriptor(rng),
            verdict: code(rng, &[1]),
            rights: code(rng, &[1, 2, 2, 2]),
            request: Request {
                root_given: code(rng, &[0, 1]),
                l0: rng.moved(0) as i32,
                l1: rng.moved(5) as i32,
                l2: rng.moved(5) as i32,
                root: root(rng),
            },
            clock: rng.draw(),
            table: junk(rng),
        },
    }
}

/// A sound descriptor, mostly the least.
fn sound_descriptor(rng: &mut Rng) -> Vec<u8> {
    if rng.chance(4) {
        return descriptor::bytes(rng, Kind::Valid);
    }
    descriptor::LEAST.to_vec()
}

/// A descriptor beside other junk: at times junk itself, so that what is behind it is met too.
fn any_descriptor(rng: &mut Rng) -> Vec<u8> {
    if rng.chance(4) {
        return descriptor::bytes(rng, Kind::Junk);
    }
    sound_descriptor(rng)
}

/// A clock reading, now as an L2 step, and a step up to now, mostly near it.
fn times(rng: &mut Rng) -> (u64, u64, u64) {
    let kind = Kind::draw(rng);
    let clock = identifier::reading(rng, kind);
    let now = clock / STEP;
    let any = rng.below(now as usize + 1) as u64;
    let near = now.saturating_sub(rng.below(40) as u64);
    let farther = now.saturating_sub(rng.below(2_100) as u64);
    (clock, now, rng.pick(&[now, near, near, farther, any]))
}

/// A question that is accepted: with rights, a request that isn't later than now, and a suitable row.
fn valid(rng: &mut Rng) -> Question {
    let (clock, now, named) = times(rng);
    let latest = rng.chance(4);
    let given = rng.chance(2);
    let moments = [0, named * STEP, now * STEP, clock, u64::MAX];
    let mut rows = rows(rng, &moments);
    let mut wanted = root(rng);
    if (given || !latest) && rows.is_empty() {
        rows.push(row(rng, &moments));
    }
    if given {
        wanted = rng.pick(&rows).root;
    } else if !latest {
        let suits = rng.below(rows.len());
        rows[suits].use_start = rng.pick(&[0, named * STEP]);
    }
    Question {
        descriptor: sound_descriptor(rng),
        verdict: codes::ACCESS_ALLOWED,
        rights: if latest {
            rng.pick(&[codes::RIGHTS_PUBLIC, codes::RIGHTS_SEED])
        } else {
            codes::RIGHTS_SEED
        },
        request: request(
            root_code(rng, given),
            wanted,
            (!latest).then(|| of_step(named)),
        ),
        clock,
        table: table(&rows),
    }
}

/// Whether a root is given, as C has it: every value but 0.
fn root_code(rng: &mut Rng, given: bool) -> u32 {
    if given {
        rng.pick(&[
            codes::ROOT_GIVEN,
            codes::ROOT_GIVEN,
            2,
            256,
            1 << 31,
            u32::MAX,
        ])
    } else {
        codes::ROOT_NONE
    }
}

/// A request for this identifier, or for the latest.
fn request(root_given: u32, root: Root, named: Option<Identifier>) -> Request {
    let (l0, l1, l2) = named.map_or((-1, -1, -1), |at| {
        (at.l0 as i32, at.l1 as i32, at.l2 as i32)
    });
    Request {
        root_given,
        l0,
        l1,
        l2,
        root,
    }
}

/// A few rows, or none, or as many as a table may have.
fn rows(rng: &mut Rng, moments: &[u64]) -> Vec<Row> {
    let count = if rng.chance(40) {
        MOST_ROWS - rng.below(2)
    } else {
        rng.below(5)
    };
    (0..count).map(|_| row(rng, moments)).collect()
}

/// A row whose times are at, just before or just after these moments, so that ties are common.
fn row(rng: &mut Rng, moments: &[u64]) -> Row {
    let mut time = || {
        let beside = rng.pick(&[0, 0, 1, u64::MAX]);
        let any = rng.draw();
        let moment = rng.pick(moments).wrapping_add(beside);
        rng.pick(&[moment, moment, moment, any])
    };
    Row {
        use_start: time(),
        create: time(),
        root: root(rng),
    }
}

/// The rows packed, most significant byte first.
fn table(rows: &[Row]) -> Vec<u8> {
    let mut bytes = Vec::with_capacity(ROW * rows.len());
    for row in rows {
        bytes.extend_from_slice(&row.root.bytes);
        bytes.extend_from_slice(&row.use_start.to_be_bytes());
        bytes.extend_from_slice(&row.create.to_be_bytes());
    }
    bytes
}

/// Moves one part of a question.
pub fn move_one(rng: &mut Rng, question: &mut Question) {
    let request = &mut question.request;
    match rng.below(16) {
        0 => {
            question.descriptor = descriptor::bytes(rng, Kind::Moved);
            question.verdict = code(rng, &[0, 1]);
        }
        1 => question.rights = code(rng, &[0, 1, 2]),
        2 => request.root_given = code(rng, &[0, 1]),
        3 => request.root = root(rng),
        4 => request.root.bytes[rng.below(16)] ^= 1,
        5 => request.l0 = index(rng, request.l0),
        6 | 7 => request.l1 = index(rng, request.l1),
        8 | 9 => request.l2 = index(rng, request.l2),
        10 => {
            let back = rng.pick(&[1, STEP, 32 * STEP, 1_024 * STEP]);
            question.clock = question.clock.saturating_sub(back);
        }
        11 => question.table.clear(),
        12 => {
            let rows = rng.pick(&[1, MOST_ROWS, MOST_ROWS + 1]);
            question.table.resize(rows * ROW, 0xA1);
        }
        13 => {
            let bytes = rng.within(1, 40);
            question.table.extend(rng.bytes(bytes));
        }
        14 => {
            let len = question.table.len();
            question
                .table
                .truncate(len.saturating_sub(rng.within(1, 40)));
        }
        _ => {
            // No row is in use yet.
            for row in question.table.chunks_exact_mut(ROW) {
                row[16..24].fill(0xFF);
            }
        }
    }
}

/// A signed index moved to a boundary, or beside itself.
fn index(rng: &mut Rng, index: i32) -> i32 {
    match rng.below(4) {
        0 => index.wrapping_add(1),
        1 => index.wrapping_sub(1),
        _ => rng.pick(&INDICES),
    }
}
