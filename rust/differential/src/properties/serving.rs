//! The choice goes by the reach: an envelope serves if it is accepted, has the wanted root and L0, and its map has the
//! wanted bit; the cached one if that serves, else the fetched one, else 23.

use gishwarem::raw::{codes, ChoiceAnswer, EnvelopeAnswer};

use super::has_bit;
use crate::ask;
use crate::make::choice::{self, Question};
use crate::rng::Rng;
use crate::subject::Subject;
use crate::tally::Tally;

/// The choice against the reach.
pub const SERVING: Subject = Subject {
    name: "choice by the reach",
    run: serve,
    refusals: &[23],
    events: &["cached", "fetched", "both"],
};

fn serve(rng: &mut Rng, tally: &mut Tally) {
    let kind = tally.kind(rng);
    let question = choice::question(rng, kind);
    let Question {
        root,
        wanted,
        cached,
        fetched,
    } = &question;
    let chosen = ask::choose(rng, *root, *wanted, cached, fetched);
    tally.answer(chosen.refusal);

    let by_cached = serving(rng, &question, cached);
    let by_fetched = serving(rng, &question, fetched);
    if by_cached.is_some() && by_fetched.is_some() {
        tally.event("both");
    }
    match (by_cached, by_fetched) {
        (Some(read), _) => {
            tally.event("cached");
            check_part(&question, &chosen, codes::CACHED, &read);
        }
        (None, Some(read)) => {
            tally.event("fetched");
            check_part(&question, &chosen, codes::FETCHED, &read);
        }
        (None, None) => {
            let neither = ChoiceAnswer {
                refusal: 23,
                ..Default::default()
            };
            assert_eq!(chosen, neither, "{question:?}");
        }
    }
}

/// What the reader shows of an envelope that serves.
fn serving(rng: &mut Rng, question: &Question, envelope: &[u8]) -> Option<EnvelopeAnswer> {
    let read = ask::envelope_read(rng, envelope);
    let reach = ask::envelope_reach(rng, envelope);
    assert_eq!(read.refusal, reach.refusal, "{question:?}");
    let serves = read.refusal == 0
        && read.head.root == question.root
        && read.head.at.l0 == question.wanted.l0
        && has_bit(&reach.rows, question.wanted);
    serves.then_some(read)
}

/// The part is that envelope's own L1 or L2 key, whole, and the key is the one that reaches: in the envelope's own row
/// the L2 key, if there is one.
fn check_part(question: &Question, chosen: &ChoiceAnswer, which: u32, read: &EnvelopeAnswer) {
    let at = read.head.at;
    let (key, place) = if question.wanted.l1 == at.l1 && at.l2 != 31 {
        (codes::KEY_L2, read.bodies.l2_key)
    } else {
        (codes::KEY_L1, read.bodies.l1_key)
    };
    let expected = ChoiceAnswer {
        refusal: 0,
        which,
        key,
        reserved: 0,
        place,
    };
    assert_eq!(*chosen, expected, "{question:?}");
    assert_eq!(place.len, 64, "{question:?}");
}
