//! Identifiers and clock readings.

use gishwarem::raw::Identifier;

use super::Kind;
use crate::rng::Rng;

/// An L2 step in ticks.
pub const STEP: u64 = 360_000_000_000;

/// The L2 steps of an L1 step.
const L1_STEPS: u64 = 32;

/// The L2 steps of an L0 step.
const L0_STEPS: u64 = 1_024;

/// The last L2 step that starts within 64 bits.
const LAST_STEP: u64 = u64::MAX / STEP;

/// The identifier of an L2 step, counted from the start of time.
pub fn of_step(step: u64) -> Identifier {
    Identifier {
        l0: (step / L0_STEPS) as u32,
        l1: (step % L0_STEPS / L1_STEPS) as u32,
        l2: (step % L1_STEPS) as u32,
    }
}

/// An L1 or L2 index from 0 to 31, often one of the ends.
pub fn index(rng: &mut Rng) -> u32 {
    match rng.below(4) {
        0 => 0,
        1 => 31,
        _ => rng.below(32) as u32,
    }
}

/// An L0 index: any, often a small one or one near that of the last reading.
fn l0(rng: &mut Rng) -> u32 {
    match rng.below(4) {
        0 => rng.below(8) as u32,
        1 => 50_038 + rng.below(4) as u32,
        2 => rng.moved(50_039),
        _ => rng.number(),
    }
}

/// An identifier: with indices up to 31 if valid.
pub fn identifier(rng: &mut Rng, kind: Kind) -> Identifier {
    let sound = Identifier {
        l0: l0(rng),
        l1: index(rng),
        l2: index(rng),
    };
    match kind {
        Kind::Valid => sound,
        Kind::Moved => moved(rng, sound),
        Kind::Junk => Identifier {
            l0: rng.number(),
            l1: rng.number(),
            l2: rng.number(),
        },
    }
}

/// An identifier with one or two of its indices moved to a boundary.
pub fn moved(rng: &mut Rng, at: Identifier) -> Identifier {
    let mut moved = at;
    for _ in 0..rng.within(1, 2) {
        match rng.below(3) {
            0 => moved.l0 = rng.moved(moved.l0),
            1 => moved.l1 = rng.moved(moved.l1),
            _ => moved.l2 = rng.moved(moved.l2),
        }
    }
    moved
}

/// An identifier whose start is asked: one that starts within 64 bits if valid, often near the last.
pub fn starting(rng: &mut Rng, kind: Kind) -> Identifier {
    let back = rng.below(2_000) as u64;
    let any = rng.below(LAST_STEP as usize + 1) as u64;
    let sound = of_step(rng.pick(&[LAST_STEP, LAST_STEP - back, back, any]));
    match kind {
        Kind::Valid => sound,
        Kind::Moved => moved(rng, sound),
        Kind::Junk => identifier(rng, Kind::Junk),
    }
}

/// A clock reading: any, near the start of an L2, L1 or L0 step, or near the ends of 64 bits.
pub fn reading(rng: &mut Rng, kind: Kind) -> u64 {
    let any = rng.draw();
    match kind {
        Kind::Valid => any,
        Kind::Moved => {
            let steps = rng.pick(&[1, L1_STEPS, L0_STEPS]);
            let step = any / STEP / steps * steps;
            let near = rng.pick(&[0, 1, 2, u64::MAX, STEP - 1]);
            (step * STEP).wrapping_add(near)
        }
        Kind::Junk => {
            let small = rng.below(1 << 20) as u64;
            rng.pick(&[0, 1, small, STEP + small, u64::MAX, u64::MAX - small])
        }
    }
}
