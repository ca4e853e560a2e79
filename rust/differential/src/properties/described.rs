//! The decision by descriptor: it is the one by verdict, where that is what the check of the descriptor says; and 16 exactly
//! where a part of the descriptor fails.

use gishwarem::raw::codes;

use crate::ask;
use crate::make::decision::{self, Question};
use crate::rng::Rng;
use crate::subject::Subject;
use crate::tally::Tally;

/// Both decisions on one descriptor.
pub const DESCRIBED: Subject = Subject {
    name: "by descriptor and by verdict",
    run: describe,
    refusals: &[14, 15, 16, 17, 18, 19, 20],
    events: &["sound", "head", "owner", "group", "SACL", "DACL"],
};

fn describe(rng: &mut Rng, tally: &mut Tally) {
    let kind = tally.kind(rng);
    let question = decision::question(rng, kind);
    let found = ask::descriptor_check(rng, &question.descriptor);
    let checked = Question {
        verdict: u32::from(found == codes::DESCRIPTOR_SOUND),
        ..question
    };
    let answer = ask::decide(rng, &checked);
    let by_verdict = ask::decide_by_verdict(rng, &checked);
    assert_eq!(answer, by_verdict, "{checked:?}");
    let refused = found != codes::DESCRIPTOR_SOUND;
    assert_eq!(answer.refusal == 16, refused, "{found}, {checked:?}");
    tally.answer(answer.refusal);
    tally.event(match found {
        codes::DESCRIPTOR_SOUND => "sound",
        codes::DESCRIPTOR_HEAD => "head",
        codes::DESCRIPTOR_OWNER => "owner",
        codes::DESCRIPTOR_GROUP => "group",
        codes::DESCRIPTOR_SACL => "SACL",
        codes::DESCRIPTOR_DACL => "DACL",
        _ => panic!("no such part: {found}"),
    });
}
