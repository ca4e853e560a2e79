//! The walk over a list ends as the judge says, and shows each entry as the entry's reader does.

use gishwarem::raw::{codes, ListAnswer, StepAnswer};

use crate::ask;
use crate::hex::Hex;
use crate::make::list;
use crate::rng::Rng;
use crate::subject::Subject;
use crate::tally::Tally;

/// The whole walk.
pub const WALK: Subject = Subject {
    name: "list walked",
    run: walk,
    refusals: &[1, 2, 3, 6, 7, 8, 9, 22],
    events: &["entry"],
};

/// Where a walk starts: after the count, at index 0.
const START: (usize, u32) = (4, 0);

fn walk(rng: &mut Rng, tally: &mut Tally) {
    let kind = tally.kind(rng);
    let bytes = list::list(rng, kind).bytes;
    let judged = ask::list_judge(rng, &bytes);
    tally.answer(judged.refusal);

    let (mut at, mut index) = START;
    let last = loop {
        let step = ask::list_step(rng, &bytes, at, index);
        if step.found != codes::STEP_ENTRY {
            break step;
        }
        check_entry(rng, &bytes, at, index, &step);
        tally.event("entry");
        (at, index) = (step.next_at, step.next_index);
    };

    // The last answer has the judge's number and index, and comes again if asked again at the place that it gives.
    let ended = ListAnswer {
        refusal: last.refusal,
        count: if last.refusal == 0 { index } else { 0 },
        index: last.index,
    };
    assert_eq!(ended, judged, "{:?}", Hex(&bytes));
    if last.refusal == 0 {
        assert_eq!(last.found, codes::STEP_END, "{:?}", Hex(&bytes));
        assert_eq!(at, bytes.len(), "{:?}", Hex(&bytes));
    }
    let again = ask::list_step(rng, &bytes, last.next_at, last.next_index);
    assert_eq!(again, last, "{:?}", Hex(&bytes));
}

/// A step shows its own place, what the entry's reader shows of the entry's bytes, and the place just behind them.
fn check_entry(rng: &mut Rng, bytes: &[u8], at: usize, index: u32, step: &StepAnswer) {
    let told = (step, Hex(bytes));
    assert!(step.next_at > at, "{told:?}");
    let read = ask::entry_read(rng, &bytes[at..step.next_at]);
    let expected = StepAnswer {
        refusal: read.refusal,
        found: codes::STEP_ENTRY,
        index,
        algorithm: read.algorithm,
        flags: read.flags,
        next_index: index + 1,
        next_at: step.next_at,
        at,
        item: read.item,
        fek: read.fek,
    };
    assert_eq!(*step, expected, "{told:?}");
    assert_eq!(read.refusal, 0, "{told:?}");
}
