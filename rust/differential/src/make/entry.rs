//! Key List Entries.

use super::{junk, junk_with, move_end, move_numbers, moved_length, number_at, put_number};
use super::{valid_length, Kind, LIMIT};
use crate::rng::Rng;

/// The length of the head.
const HEAD: usize = 20;

/// The least entry: a public key item of 4 bytes and a FEK of one.
const LEAST: usize = 25;

/// How much longer than the least a short entry is at most.
const SHORT: usize = 80;

/// Where Length stands.
const LENGTH: usize = 0;

/// Where the public key item's offset stands.
const ITEM_AT: usize = 4;

/// Where the FEK's length stands.
const FEK_LENGTH: usize = 8;

/// Where the FEK's offset stands.
const FEK_AT: usize = 12;

/// Where the numbers of the head stand; the last is Flags.
const NUMBERS: [usize; 5] = [LENGTH, ITEM_AT, FEK_LENGTH, FEK_AT, 16];

/// The longest unused run.
const RUN: usize = 8;

/// What stands where in an entry.
struct Plan {
    /// The lengths of the unused runs: before, between and after the items.
    runs: [usize; 3],
    /// The public key item's length.
    item: usize,
    /// The FEK's length.
    fek: usize,
    /// Whether the FEK stands before the item.
    fek_first: bool,
}

impl Plan {
    /// A sound plan for an entry of this length.
    fn of(rng: &mut Rng, length: usize) -> Self {
        let mut spare = length - LEAST;
        let runs = [0; 3].map(|_: usize| {
            let run = rng.below(spare.min(RUN) + 1);
            spare -= run;
            run
        });
        let more = rng.below(spare + 1);
        Plan {
            runs,
            item: 4 + more,
            fek: 1 + spare - more,
            fek_first: rng.chance(2),
        }
    }

    /// The entry's bytes; all that no rule reads is random.
    fn bytes(&self, rng: &mut Rng) -> Vec<u8> {
        let first = HEAD + self.runs[0];
        let (item_at, fek_at) = if self.fek_first {
            (first + self.fek + self.runs[1], first)
        } else {
            (first, first + self.item + self.runs[1])
        };
        let length = HEAD + self.runs.iter().sum::<usize>() + self.item + self.fek;
        let mut bytes = rng.bytes(length);
        let head = [
            length as u32,
            item_at as u32,
            self.fek as u32,
            fek_at as u32,
            flags(rng),
        ];
        for (at, number) in NUMBERS.into_iter().zip(head) {
            put_number(&mut bytes, at, number);
        }
        put_number(&mut bytes, item_at, self.item as u32);
        bytes
    }
}

/// Flags: RSA, AES-256, or any other.
pub fn flags(rng: &mut Rng) -> u32 {
    let any = rng.number();
    rng.pick(&[0, 1, 2, 256, any])
}

/// An entry.
pub fn record(rng: &mut Rng, kind: Kind) -> Vec<u8> {
    match kind {
        Kind::Valid => {
            let length = valid_length(rng, LEAST, SHORT);
            valid(rng, length)
        }
        Kind::Moved => {
            let length = moved_length(rng, LEAST, SHORT);
            moved(rng, length)
        }
        Kind::Junk => junk_with(rng, &[(0, |length| length)]),
    }
}

/// The length of a short entry.
pub fn short_length(rng: &mut Rng) -> usize {
    rng.within(LEAST, LEAST + SHORT)
}

/// A valid entry of this length.
pub fn valid(rng: &mut Rng, length: usize) -> Vec<u8> {
    Plan::of(rng, length).bytes(rng)
}

/// A valid entry of about this length, then an item, a run, one or two numbers or the end moved to a boundary.
pub fn moved(rng: &mut Rng, length: usize) -> Vec<u8> {
    let mut plan = Plan::of(rng, length);
    if length > LIMIT {
        return plan.bytes(rng);
    }
    match rng.below(10) {
        0 => plan.runs[rng.below(3)] = rng.pick(&[RUN, RUN + 1, RUN + 2]),
        1 => return into_head(rng, plan),
        _ => {}
    }
    let mut bytes = plan.bytes(rng);
    match rng.below(8) {
        0 => move_end(rng, &mut bytes),
        1 => {
            // With a Length that agrees.
            move_end(rng, &mut bytes);
            let length = bytes.len() as u32;
            if bytes.len() >= HEAD {
                put_number(&mut bytes, LENGTH, length);
            }
        }
        2 => bring_near(rng, &mut bytes),
        3 => {
            // The item's own length.
            let item_at = number_at(&bytes, ITEM_AT) as usize;
            let near = number_at(&bytes, item_at).wrapping_add(rng.pick(&[1, 9, u32::MAX]));
            put_number(&mut bytes, item_at, rng.pick(&[0, 3, 4, near]));
        }
        4 => {}
        _ => move_numbers(rng, &mut bytes, &NUMBERS),
    }
    bytes
}

/// The first of the two starts up to four bytes before the Data Fields, and is sound otherwise.
fn into_head(rng: &mut Rng, plan: Plan) -> Vec<u8> {
    let plan = Plan {
        runs: [0, plan.runs[1], plan.runs[2]],
        ..plan
    };
    let mut bytes = plan.bytes(rng);
    let back = rng.within(1, 4);
    let at = HEAD - back;
    if plan.fek_first {
        put_number(&mut bytes, FEK_LENGTH, (plan.fek + back) as u32);
        put_number(&mut bytes, FEK_AT, at as u32);
    } else {
        put_number(&mut bytes, ITEM_AT, at as u32);
        put_number(&mut bytes, at, (plan.item + back) as u32);
    }
    bytes
}

/// Moves the FEK so that it begins or ends at the item's beginning or end, or one byte beside.
fn bring_near(rng: &mut Rng, bytes: &mut [u8]) {
    let item_at = number_at(bytes, ITEM_AT);
    let item_end = item_at + number_at(bytes, item_at as usize);
    let beside = rng
        .pick(&[item_at, item_end])
        .wrapping_add(rng.pick(&[0, 1, u32::MAX]));
    let fek_length = number_at(bytes, FEK_LENGTH);
    let fek_at = rng.pick(&[beside, beside.wrapping_sub(fek_length)]);
    put_number(bytes, FEK_AT, fek_at);
}

/// The length of the record of an item and a FEK.
pub fn length(item: &[u8], fek: &[u8]) -> usize {
    HEAD + item.len() + fek.len()
}

/// What the entry writer is given: a public key item whose first four bytes are its length, and a FEK. Moved, the
/// item's own length or one of the lengths goes to a boundary; junk has no rule.
pub fn items(rng: &mut Rng, kind: Kind) -> (Vec<u8>, Vec<u8>) {
    if kind == Kind::Junk {
        return (junk(rng), junk(rng));
    }
    let length = match kind {
        Kind::Valid => valid_length(rng, LEAST, SHORT),
        _ => moved_length(rng, LEAST, SHORT),
    };
    let plan = Plan::of(rng, length);
    let rest = length - HEAD - plan.item;
    let mut item = rng.bytes(plan.item);
    let mut fek = rng.bytes(rest);
    put_number(&mut item, 0, plan.item as u32);
    if kind == Kind::Moved {
        match rng.below(6) {
            0 => fek.clear(),
            1 => item.truncate(rng.below(5)),
            2 => move_numbers(rng, &mut item, &[0]),
            3 => fek.push(7),
            _ => {}
        }
    }
    (item, fek)
}
