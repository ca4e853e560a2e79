//! A recorded day, the same in every run: a root table of 8 rows, and requests with the clock of 24 hours.

use differential::rng::Rng;

use crate::plain::RECORD;

/// The ticks of a second, and of a day.
const SECOND: u64 = 10_000_000;
const DAY: u64 = 86_400 * SECOND;

/// An L2 step in ticks.
const STEP: u64 = 360_000_000_000;

/// The start of the day, in L0 group 363.
const START: u64 = 134_000_000_000_000_000;

/// The seed of the table, and of the requests.
const SEED: u64 = 7;

/// The rows of the table.
const ROWS: usize = 8;

/// The root keys of the table.
fn roots() -> [[u8; 16]; ROWS] {
    let mut rng = Rng::new(SEED);
    [(); ROWS].map(|()| {
        let mut root = [0; 16];
        rng.fill(&mut root);
        root
    })
}

/// The root table: a key for each 100 days before the day, in use from 10 hours behind its creation on.
pub fn table() -> Vec<u8> {
    let mut table = vec![];
    for (row, root) in (1..).zip(roots()) {
        let create = START - 100 * DAY * (1 + ROWS as u64 - row);
        table.extend(root);
        table.extend((create + STEP).to_be_bytes());
        table.extend(create.to_be_bytes());
    }
    table
}

/// The requests of a day, so many, spread over its hours.
pub fn records(count: u64) -> impl Iterator<Item = [u8; RECORD]> {
    let mut rng = Rng::new(SEED + 1);
    let roots = roots();
    let mut clock = START;
    let apart = 2 * (DAY / count.max(1)) as usize + 1;
    (0..count).map(move |_| {
        clock += rng.below(apart) as u64;
        // Now and then the clock is set back, by up to a second.
        if rng.chance(500) {
            clock -= rng.within(1, SECOND as usize) as u64;
        }
        record(&mut rng, &roots, clock)
    })
}

/// A request at this clock.
fn record(rng: &mut Rng, roots: &[[u8; 16]; ROWS], clock: u64) -> [u8; RECORD] {
    let fault = rng.below(100);
    let now = clock / STEP;
    let given = rng.chance(2);
    // Who names a root key has something to open, mostly of the last weeks; others mostly want the latest.
    let named = if given {
        !rng.chance(10)
    } else {
        rng.chance(4)
    };
    let step = match fault {
        0 | 1 => Some(now + rng.within(1, 40) as u64),
        _ => named.then(|| now - rng.below(1_500) as u64),
    };
    // Public keys are asked for by those who want the latest; for others such rights are too low.
    let public = rng.chance(if step.is_none() { 5 } else { 50 });
    let rights = if public { 1 } else { 2 };
    let allowed = !matches!(fault, 2 | 3);

    let mut record = [0; RECORD];
    record[..8].copy_from_slice(&clock.to_be_bytes());
    record[8] = u8::from(given) << 7 | rights << 5 | u8::from(allowed) << 4;
    let indices = step.map_or([-1; 3], |step| {
        [step / 1_024, step / 32 % 32, step % 32].map(|index| index as i32)
    });
    for (at, index) in [9, 13, 17].into_iter().zip(indices) {
        record[at..at + 4].copy_from_slice(&index.to_be_bytes());
    }
    if given {
        record[21..].copy_from_slice(&rng.pick(roots));
    }
    // Malformed: a spare bit.
    if matches!(fault, 4 | 5) {
        record[8] |= 1 << rng.below(4);
    }
    record
}
