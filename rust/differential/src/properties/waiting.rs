//! Demand 3: waiting loses nothing. A request that is accepted is still accepted at a later clock and with more rights,
//! under the same root row and at an identifier that isn't earlier; and what the granted form reaches is exactly the
//! identifiers of the L0 group up to the granted one, the named one among them.

use gishwarem::raw::{codes, DecisionAnswer, Identifier, Request};

use super::has_bit;
use crate::ask;
use crate::make::decision::{self, Question};
use crate::make::identifier::STEP;
use crate::rng::Rng;
use crate::subject::Subject;
use crate::tally::Tally;

/// The demand, asked twice with one descriptor.
pub const WAITING: Subject = Subject {
    name: "waiting loses nothing",
    run: |rng, tally| wait(rng, tally, ask::decide),
    refusals: REFUSALS,
    events: EVENTS,
};

/// The demand, asked twice with one verdict.
pub const WAITING_BY_VERDICT: Subject = Subject {
    name: "waiting loses nothing, by verdict",
    run: |rng, tally| wait(rng, tally, ask::decide_by_verdict),
    refusals: REFUSALS,
    events: EVENTS,
};

/// The refusals of a first asking.
const REFUSALS: &[u32] = &[14, 15, 16, 17, 18, 19, 20];

/// What has to be met, either way.
const EVENTS: &[&str] = &[
    "named",
    "latest",
    "CREATE",
    "public then seed",
    "now moved on",
    "granted moved on",
];

fn wait(rng: &mut Rng, tally: &mut Tally, decide: fn(&mut Rng, &Question) -> DecisionAnswer) {
    let kind = tally.kind(rng);
    let question = decision::question(rng, kind);
    let later = later(rng, question.clock);
    let more = more_rights(rng, question.rights);
    let again = Question {
        clock: later,
        rights: more,
        ..question.clone()
    };
    let first = decide(rng, &question);
    let second = decide(rng, &again);
    tally.answer(first.refusal);
    if first.refusal != 0 {
        return;
    }
    let told = (&question, later, more, first, second);
    assert_eq!(second.refusal, 0, "{told:?}");
    assert_eq!(second.granted, first.granted, "{told:?}");
    assert_eq!(second.row, first.row, "{told:?}");
    assert!(order(second.at) >= order(first.at), "{told:?}");

    match named(&question.request) {
        Some(named) => {
            tally.event("named");
            let before = reach_up_to(&first, named);
            let after = reach_up_to(&second, named);
            let kept = before.iter().zip(after).all(|(b, a)| b & !a == 0);
            assert!(first.at.l0 == second.at.l0 && kept, "{told:?}");
        }
        None => tally.event("latest"),
    }
    for (rights, answer) in [(question.rights, &first), (more, &second)] {
        if rights == codes::RIGHTS_PUBLIC {
            let reach = ask::form_reach(answer.form, answer.at);
            assert_eq!(answer.form, codes::FORM_PUBLIC, "{told:?}");
            assert_eq!((reach.refusal, reach.total), (0, 0), "{told:?}");
            assert_eq!(reach.rows, [0; 32], "{told:?}");
        }
    }
    if first.granted == codes::GRANTED_CREATE {
        tally.event("CREATE");
    }
    if question.rights < more {
        tally.event("public then seed");
    }
    if question.clock / STEP < later / STEP {
        tally.event("now moved on");
    }
    if first.at != second.at {
        tally.event("granted moved on");
    }
}

/// A clock reading that isn't earlier.
fn later(rng: &mut Rng, clock: u64) -> u64 {
    let any = rng.below(usize::MAX) as u64;
    let steps = rng.below(1_100) as u64 * STEP;
    let more = rng.pick(&[0, 1, STEP - 1, STEP, 32 * STEP, 1_024 * STEP, steps, any]);
    clock.saturating_add(more)
}

/// Rights that aren't lower; a code that isn't listed is no rights.
fn more_rights(rng: &mut Rng, rights: u32) -> u32 {
    let all = [codes::RIGHTS_NONE, codes::RIGHTS_PUBLIC, codes::RIGHTS_SEED];
    match rights {
        codes::RIGHTS_SEED => rights,
        codes::RIGHTS_PUBLIC => rng.pick(&all[1..]),
        _ => rng.pick(&all),
    }
}

/// The identifier that a request names: its three indices, if all are 0 or above.
fn named(request: &Request) -> Option<Identifier> {
    Some(Identifier {
        l0: request.l0.try_into().ok()?,
        l1: request.l1.try_into().ok()?,
        l2: request.l2.try_into().ok()?,
    })
}

/// Earlier and later go by L0, then L1, then L2.
fn order(at: Identifier) -> (u32, u32, u32) {
    (at.l0, at.l1, at.l2)
}

/// The map of a granted form, which has to reach exactly the identifiers of the group up to the granted one, and the
/// named one.
fn reach_up_to(granted: &DecisionAnswer, named: Identifier) -> [u32; 32] {
    let at = granted.at;
    let reach = ask::form_reach(granted.form, at);
    assert_eq!(reach.refusal, 0, "{granted:?}");
    for l1 in 0..32 {
        for l2 in 0..32 {
            let one = Identifier { l0: at.l0, l1, l2 };
            let up_to = order(one) <= order(at);
            assert_eq!(has_bit(&reach.rows, one), up_to, "{one:?} of {granted:?}");
        }
    }
    assert_eq!(reach.total, 32 * at.l1 + at.l2 + 1, "{granted:?}");
    assert_eq!(at.l0, named.l0, "{granted:?}, {named:?}");
    assert!(has_bit(&reach.rows, named), "{granted:?}, {named:?}");
    reach.rows
}
