//! Time and identifiers agree: a reading's identifier is that of its whole L2 steps; it starts at most at the reading, and
//! less than one L2 step below it; the next older identifier is one L2 step before.

use gishwarem::raw::Identifier;

use crate::ask;
use crate::make::identifier::{self, STEP};
use crate::rng::Rng;
use crate::subject::Subject;
use crate::tally::Tally;

/// The time rule, and the step to the older one.
pub const STEPS: Subject = Subject {
    name: "readings and steps",
    run: step,
    refusals: &[],
    events: &["older", "none"],
};

fn step(rng: &mut Rng, tally: &mut Tally) {
    let kind = tally.kind(rng);
    let time = identifier::reading(rng, kind);
    let found = ask::time_identifier(time);
    tally.answer(found.refusal);
    assert_eq!((found.refusal, found.found), (0, 1), "{time}");
    assert!(found.at.l1 < 32 && found.at.l2 < 32, "{time}: {found:?}");
    assert_eq!(found.at, identifier::of_step(time / STEP), "{time}");

    let start = ask::identifier_start(found.at);
    assert_eq!(start.refusal, 0, "{time}: {found:?}");
    assert!(start.time <= time, "{time}: {start:?}");
    assert!(time - start.time < STEP, "{time}: {start:?}");

    let older = ask::identifier_older(found.at);
    assert_eq!(older.refusal, 0, "{time}: {older:?}");
    let first = found.at.l1 == 0 && found.at.l2 == 0;
    assert_eq!(older.found == 0, first, "{time}: {older:?}");
    if first {
        tally.event("none");
        return;
    }
    tally.event("older");
    let before = ask::identifier_start(older.at);
    assert_eq!(before.refusal, 0, "{time}: {older:?}");
    assert_eq!(start.time - before.time, STEP, "{time}: {older:?}");
    assert_eq!(older.at.l0, found.at.l0, "{time}: {older:?}");
}

/// All L2 steps of the clock, in order, with identifiers that are counted up by carrying: both ends of a step have its
/// identifier, which starts at the first of them.
pub fn count_up() {
    let mut at = Identifier {
        l0: 0,
        l1: 0,
        l2: 0,
    };
    let mut first = 0;
    loop {
        let last = u64::saturating_add(first, STEP - 1);
        for time in [first, last] {
            assert_eq!(ask::time_identifier(time).at, at, "{time}");
        }
        assert_eq!(ask::identifier_start(at).time, first, "{at:?}");
        if last == u64::MAX {
            return;
        }
        first = last + 1;
        at = next(at);
    }
}

/// The next identifier.
fn next(at: Identifier) -> Identifier {
    let Identifier { l0, l1, l2 } = at;
    if l2 < 31 {
        return Identifier { l2: l2 + 1, ..at };
    }
    if l1 < 31 {
        return Identifier {
            l0,
            l1: l1 + 1,
            l2: 0,
        };
    }
    Identifier {
        l0: l0 + 1,
        l1: 0,
        l2: 0,
    }
}
