//! The GetKey decision, by a descriptor and by a verdict.

use gishwarem::raw::{codes, DecisionAnswer};

use super::Asked;
use crate::make::decision;
use crate::rng::Rng;
use crate::subject::Subject;
use crate::tally::Tally;
use crate::{ask, expected};

/// The refusals of both.
const REFUSALS: &[u32] = &[14, 15, 16, 17, 18, 19, 20];

/// What both have to grant.
const EVENTS: &[&str] = &["GRANTED", "CREATE", "L1ONLY", "L2ONLY", "BOTH", "PUBLIC"];

/// The decision by a descriptor.
pub const DECIDE: Subject = Subject {
    name: "decide",
    run: decide,
    refusals: REFUSALS,
    events: EVENTS,
};

/// The decision by a verdict.
pub const DECIDE_BY_VERDICT: Subject = Subject {
    name: "decide by verdict",
    run: decide_by_verdict,
    refusals: REFUSALS,
    events: EVENTS,
};

fn decide(rng: &mut Rng, tally: &mut Tally) {
    let kind = tally.kind(rng);
    let question = decision::question(rng, kind);
    let answer = ask::decide(rng, &question);
    let decision::Question {
        descriptor,
        rights,
        request,
        clock,
        table,
        ..
    } = &question;
    let reference = expected::decide(descriptor, *rights, request, *clock, table);
    Asked::new(kind, &question).compare(tally, &answer, &reference);
    count(&answer, tally);
}

fn decide_by_verdict(rng: &mut Rng, tally: &mut Tally) {
    let kind = tally.kind(rng);
    let question = decision::question(rng, kind);
    let answer = ask::decide_by_verdict(rng, &question);
    let decision::Question {
        verdict,
        rights,
        request,
        clock,
        table,
        ..
    } = &question;
    let reference = expected::decide_by_verdict(*verdict, *rights, request, *clock, table);
    Asked::new(kind, &question).compare(tally, &answer, &reference);
    count(&answer, tally);
}

/// Counts what is granted, and in which form.
fn count(answer: &DecisionAnswer, tally: &mut Tally) {
    match answer.granted {
        codes::GRANTED_ROW => tally.event("GRANTED"),
        codes::GRANTED_CREATE => tally.event("CREATE"),
        _ => {}
    }
    match answer.form {
        codes::FORM_L1ONLY => tally.event("L1ONLY"),
        codes::FORM_L2ONLY => tally.event("L2ONLY"),
        codes::FORM_BOTH => tally.event("BOTH"),
        codes::FORM_PUBLIC => tally.event("PUBLIC"),
        _ => {}
    }
}
