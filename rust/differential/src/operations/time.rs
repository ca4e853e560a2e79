//! Identifiers and time.

use super::Asked;
use crate::make::identifier;
use crate::rng::Rng;
use crate::subject::Subject;
use crate::tally::Tally;
use crate::{ask, expected};

/// The identifier of a reading.
pub const IDENTIFIER: Subject = Subject {
    name: "time identifier",
    run: of_reading,
    refusals: &[],
    events: &[],
};

/// The start of an identifier.
pub const START: Subject = Subject {
    name: "identifier start",
    run: start,
    refusals: &[5, 21],
    events: &[],
};

/// The next older identifier.
pub const OLDER: Subject = Subject {
    name: "identifier older",
    run: older,
    refusals: &[5],
    events: &["older", "none"],
};

fn of_reading(rng: &mut Rng, tally: &mut Tally) {
    let kind = tally.kind(rng);
    let time = identifier::reading(rng, kind);
    Asked::new(kind, &time).compare(
        tally,
        &ask::time_identifier(time),
        &expected::time_identifier(time),
    );
}

fn start(rng: &mut Rng, tally: &mut Tally) {
    let kind = tally.kind(rng);
    let at = identifier::starting(rng, kind);
    Asked::new(kind, &at).compare(
        tally,
        &ask::identifier_start(at),
        &expected::identifier_start(at),
    );
}

fn older(rng: &mut Rng, tally: &mut Tally) {
    let kind = tally.kind(rng);
    let at = identifier::identifier(rng, kind);
    let answer = ask::identifier_older(at);
    Asked::new(kind, &at).compare(tally, &answer, &expected::identifier_older(at));
    match (answer.refusal, answer.found) {
        (0, 0) => tally.event("none"),
        (0, _) => tally.event("older"),
        _ => {}
    }
}
