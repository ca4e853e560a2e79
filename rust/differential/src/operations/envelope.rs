//! Reading and writing a Group Key Envelope.

use gishwarem::raw::codes;

use super::Asked;
use crate::hex::Hex;
use crate::lent::Output;
use crate::make::envelope::{self, Envelope};
use crate::make::room;
use crate::rng::Rng;
use crate::subject::Subject;
use crate::tally::Tally;
use crate::{ask, expected};

/// The words for an envelope's form, by its code; and a public envelope with its key at L2 index 31.
const FORMS: [&str; 6] = ["NOKEY", "L1ONLY", "L2ONLY", "BOTH", "PUBLIC", PUBLIC_AT_31];

const PUBLIC_AT_31: &str = "PUBLIC at L2 31";

/// The reader.
pub const READ: Subject = Subject {
    name: "envelope read",
    run: read,
    refusals: &[1, 2, 3, 4, 5, 10, 11, 24],
    events: &FORMS,
};

/// The writer.
pub const WRITE: Subject = Subject {
    name: "envelope write",
    run: write,
    refusals: &[1, 5, 10, 11, 13, 24],
    events: &[PUBLIC_AT_31],
};

fn read(rng: &mut Rng, tally: &mut Tally) {
    let kind = tally.kind(rng);
    let bytes = envelope::record(rng, kind);
    let answer = ask::envelope_read(rng, &bytes);
    Asked::new(kind, &Hex(&bytes)).compare(tally, &answer, &expected::envelope_read(&bytes));
    if answer.refusal == 0 {
        tally.event(FORMS[answer.form as usize]);
        if answer.form == codes::FORM_PUBLIC && answer.head.at.l2 == 31 {
            tally.event(PUBLIC_AT_31);
        }
    }
}

fn write(rng: &mut Rng, tally: &mut Tally) {
    let kind = tally.kind(rng);
    let envelope = Envelope::of(rng, kind);
    let room = room(rng, kind, envelope.length());
    let mut out = Output::new(rng, room);
    let answer = ask::envelope_write(rng, &mut out, envelope.head, envelope.lent());
    let input = (room, envelope.head, envelope.lent().map(Hex));
    Asked::new(kind, &input).compare_written(tally, &out, &answer, |out| {
        expected::envelope_write(out, &envelope.head, envelope.lent())
    });
    let [.., l2_key] = envelope.lent();
    if answer.refusal == 0 && envelope.head.at.l2 == 31 && !l2_key.is_empty() {
        tally.event(PUBLIC_AT_31);
    }
}
