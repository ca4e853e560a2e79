//! The choice between a cached and a fetched envelope.

use gishwarem::raw::codes;

use super::Asked;
use crate::make::choice;
use crate::rng::Rng;
use crate::subject::Subject;
use crate::tally::Tally;
use crate::{ask, expected};

/// The choice.
pub const CHOOSE: Subject = Subject {
    name: "choose",
    run: choose,
    refusals: &[23],
    events: &[
        "cached by L1",
        "cached by L2",
        "fetched by L1",
        "fetched by L2",
        "half a pair, the other one",
        "half a pair, neither",
    ],
};

fn choose(rng: &mut Rng, tally: &mut Tally) {
    let kind = tally.kind(rng);
    let question = choice::question(rng, kind);
    let choice::Question {
        root,
        wanted,
        cached,
        fetched,
    } = &question;
    let answer = ask::choose(rng, *root, *wanted, cached, fetched);
    Asked::new(kind, &question).compare(
        tally,
        &answer,
        &expected::choose(root, *wanted, cached, fetched),
    );
    let half_a_pair = |envelope| expected::envelope_read(envelope).refusal == 24;
    if half_a_pair(cached) || half_a_pair(fetched) {
        tally.event(match answer.refusal {
            0 => "half a pair, the other one",
            _ => "half a pair, neither",
        });
    }
    match (answer.which, answer.key) {
        (codes::CACHED, codes::KEY_L1) => tally.event("cached by L1"),
        (codes::CACHED, codes::KEY_L2) => tally.event("cached by L2"),
        (codes::FETCHED, codes::KEY_L1) => tally.event("fetched by L1"),
        (codes::FETCHED, codes::KEY_L2) => tally.event("fetched by L2"),
        _ => {}
    }
}
