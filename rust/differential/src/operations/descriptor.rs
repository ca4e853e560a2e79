//! The check of a security descriptor.

use super::Asked;
use crate::hex::Hex;
use crate::make::descriptor;
use crate::rng::Rng;
use crate::subject::Subject;
use crate::tally::Tally;
use crate::{ask, expected};

/// The check. Its numbers are those of the parts: each has to be met.
pub const CHECK: Subject = Subject {
    name: "descriptor check",
    run: check,
    refusals: &[1, 2, 3, 4, 5],
    events: &[],
};

fn check(rng: &mut Rng, tally: &mut Tally) {
    let kind = tally.kind(rng);
    let descriptor = descriptor::bytes(rng, kind);
    let answer = ask::descriptor_check(rng, &descriptor);
    Asked::new(kind, &Hex(&descriptor)).compare(
        tally,
        &answer,
        &expected::descriptor_check(&descriptor),
    );
}
