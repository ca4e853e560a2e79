//! The reach of an envelope and of a form.

use gishwarem::raw::codes;

use super::Asked;
use crate::hex::Hex;
use crate::make::{code, envelope, identifier, Kind};
use crate::rng::Rng;
use crate::subject::Subject;
use crate::tally::Tally;
use crate::{ask, expected};

/// The reach of an envelope.
pub const OF_ENVELOPE: Subject = Subject {
    name: "envelope reach",
    run: of_envelope,
    refusals: &[1, 2, 3, 4, 5, 10, 11, 24],
    events: &[EMPTY, "some", "whole group"],
};

/// The reach of a form.
pub const OF_FORM: Subject = Subject {
    name: "form reach",
    run: of_form,
    refusals: &[5, 11],
    events: &[EMPTY, "some", "whole group"],
};

/// An accepted reach without any identifier.
const EMPTY: &str = "empty";

/// Every form's code.
const FORMS: [u32; 5] = [
    codes::FORM_KEYLESS,
    codes::FORM_L1ONLY,
    codes::FORM_L2ONLY,
    codes::FORM_BOTH,
    codes::FORM_PUBLIC,
];

fn of_envelope(rng: &mut Rng, tally: &mut Tally) {
    let kind = tally.kind(rng);
    let bytes = envelope::record(rng, kind);
    let answer = ask::envelope_reach(rng, &bytes);
    Asked::new(kind, &Hex(&bytes)).compare(tally, &answer, &expected::envelope_reach(&bytes));
    count_total(tally, answer.refusal, answer.total);
}

fn of_form(rng: &mut Rng, tally: &mut Tally) {
    let kind = tally.kind(rng);
    let at = identifier::identifier(rng, kind);
    let form = match kind {
        // A form that an envelope there may have.
        Kind::Valid => {
            let seed = match (at.l1, at.l2) {
                (_, 31) => codes::FORM_L1ONLY,
                (0, _) => codes::FORM_L2ONLY,
                _ => rng.pick(&FORMS[1..4]),
            };
            code(rng, &[seed, seed, codes::FORM_KEYLESS, codes::FORM_PUBLIC])
        }
        _ => code(rng, &FORMS),
    };
    let answer = ask::form_reach(form, at);
    Asked::new(kind, &(form, at)).compare(tally, &answer, &expected::form_reach(form, at));
    count_total(tally, answer.refusal, answer.total);
}

fn count_total(tally: &mut Tally, refusal: u32, total: u32) {
    match (refusal, total) {
        (0, 0) => tally.event(EMPTY),
        (0, 1..=1_023) => tally.event("some"),
        (0, 1_024) => tally.event("whole group"),
        _ => {}
    }
}
