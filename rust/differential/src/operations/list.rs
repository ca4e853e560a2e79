//! Judging a list whole, and one step of its walk at any place.

use gishwarem::raw::codes;

use super::Asked;
use crate::hex::Hex;
use crate::make::list;
use crate::rng::Rng;
use crate::subject::Subject;
use crate::tally::Tally;
use crate::{ask, expected};

/// The judge.
pub const JUDGE: Subject = Subject {
    name: "list judge",
    run: judge,
    refusals: &[1, 2, 3, 6, 7, 8, 9, 22],
    events: &[INDEX_TOLD],
};

/// A step.
pub const STEP: Subject = Subject {
    name: "list step",
    run: step,
    refusals: &[1, 2, 3, 6, 7, 8, 9, 22],
    events: &[INDEX_TOLD, "entry", "end"],
};

/// A refusal told the index of an entry that isn't the first.
const INDEX_TOLD: &str = "index told";

fn judge(rng: &mut Rng, tally: &mut Tally) {
    let kind = tally.kind(rng);
    let list = list::list(rng, kind);
    let answer = ask::list_judge(rng, &list.bytes);
    Asked::new(kind, &Hex(&list.bytes)).compare(tally, &answer, &expected::list_judge(&list.bytes));
    if answer.index > 0 {
        tally.event(INDEX_TOLD);
    }
}

fn step(rng: &mut Rng, tally: &mut Tally) {
    let kind = tally.kind(rng);
    let list = list::list(rng, kind);
    let (at, index) = list::place(rng, kind, &list);
    let answer = ask::list_step(rng, &list.bytes, at, index);
    let input = (at, index, Hex(&list.bytes));
    Asked::new(kind, &input).compare(tally, &answer, &expected::list_step(&list.bytes, at, index));
    if answer.refusal != 0 && answer.index > 0 {
        tally.event(INDEX_TOLD);
    }
    match answer.found {
        codes::STEP_ENTRY => tally.event("entry"),
        codes::STEP_END => tally.event("end"),
        _ => {}
    }
}
