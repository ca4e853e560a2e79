//! The house rule of document 02, No. 4: whether a public envelope is accepted does not go by its identifier, so that it may
//! carry its key at L2 index 31 as elsewhere. It reaches nothing and serves nothing, and the writer takes what the reader accepts.

use gishwarem::raw::{codes, ChoiceAnswer, EnvelopeAnswer, ReachAnswer};

use crate::ask;
use crate::hex::Hex;
use crate::lent::Output;
use crate::make::envelope::Envelope;
use crate::make::{identifier, Kind};
use crate::rng::Rng;
use crate::subject::Subject;
use crate::tally::Tally;

/// A public envelope at an identifier with L2 index 31, and at any other.
pub const ANYWHERE: Subject = Subject {
    name: "public envelope anywhere",
    run: anywhere,
    refusals: &[1, 10, 11, 24],
    events: &["with its key", "without a key"],
};

fn anywhere(rng: &mut Rng, tally: &mut Tally) {
    let kind = tally.kind(rng);
    let mut envelope = public(rng, kind);
    envelope.head.at = identifier::identifier(rng, Kind::Valid);
    envelope.head.at.l2 = 31;
    let mut at_31 = asked(rng, &envelope);
    tally.answer(at_31.refusal);

    envelope.head.at = identifier::identifier(rng, Kind::Valid);
    let elsewhere = asked(rng, &envelope);
    if at_31.refusal == 0 {
        let [.., l2_key] = envelope.lent();
        let (form, event) = match l2_key {
            [] => (codes::FORM_KEYLESS, "without a key"),
            _ => (codes::FORM_PUBLIC, "with its key"),
        };
        assert_eq!((at_31.form, at_31.is_public), (form, 1), "{at_31:?}");
        tally.event(event);
        at_31.head.at = envelope.head.at;
    }
    assert_eq!(elsewhere, at_31, "{:?}", Hex(&envelope.bytes()));
}

/// A public envelope of a kind.
fn public(rng: &mut Rng, kind: Kind) -> Envelope {
    loop {
        let envelope = Envelope::of(rng, kind);
        if envelope.head.flags & 1 == 1 {
            return envelope;
        }
    }
}

/// What is read of an envelope. It reaches and serves nothing, and is written where it is read.
fn asked(rng: &mut Rng, envelope: &Envelope) -> EnvelopeAnswer {
    let bytes = envelope.bytes();
    let told = Hex(&bytes);
    let read = ask::envelope_read(rng, &bytes);
    let nothing = ReachAnswer {
        refusal: read.refusal,
        ..Default::default()
    };
    assert_eq!(ask::envelope_reach(rng, &bytes), nothing, "{told:?}");

    let neither = ChoiceAnswer {
        refusal: 23,
        ..Default::default()
    };
    let head = envelope.head;
    let chosen = ask::choose(rng, head.root, head.at, &bytes, &bytes);
    assert_eq!(chosen, neither, "{told:?}");

    let mut out = Output::new(rng, bytes.len());
    let written = ask::envelope_write(rng, &mut out, head, envelope.lent());
    assert_eq!(written.refusal, read.refusal, "{told:?}");
    let record: &[u8] = if read.refusal == 0 { &bytes } else { &[] };
    assert!(out.holds(record), "{told:?}");
    read
}
