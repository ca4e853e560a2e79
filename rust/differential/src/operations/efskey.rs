//! Reading and writing an EfsKey.

use super::Asked;
use crate::hex::Hex;
use crate::lent::Output;
use crate::make::{efskey, room};
use crate::rng::Rng;
use crate::subject::Subject;
use crate::tally::Tally;
use crate::{ask, expected};

/// The reader.
pub const READ: Subject = Subject {
    name: "EfsKey read",
    run: read,
    refusals: &[1, 2, 3, 4, 6, 7, 12],
    events: &efskey::CASES,
};

/// The writer.
pub const WRITE: Subject = Subject {
    name: "EfsKey write",
    run: write,
    refusals: &[1, 7, 12, 13],
    events: &efskey::CASES,
};

fn read(rng: &mut Rng, tally: &mut Tally) {
    let kind = tally.kind(rng);
    let bytes = efskey::record(rng, kind);
    let answer = ask::efskey_read(rng, &bytes);
    Asked::new(kind, &Hex(&bytes)).compare(tally, &answer, &expected::efskey_read(&bytes));
    if answer.refusal == 0 {
        tally.event(efskey::CASES[answer.kind as usize]);
    }
}

fn write(rng: &mut Rng, tally: &mut Tally) {
    let kind = tally.kind(rng);
    let (sid, certificate) = efskey::parts(rng, kind);
    let room = room(rng, kind, efskey::length(&sid, &certificate));
    let mut out = Output::new(rng, room);
    let answer = ask::efskey_write(rng, &mut out, &sid, &certificate);
    let input = (room, Hex(&sid), Hex(&certificate));
    Asked::new(kind, &input).compare_written(tally, &out, &answer, |out| {
        expected::efskey_write(out, &sid, &certificate)
    });
    if answer.refusal == 0 {
        tally.event(efskey::CASES[efskey::kind_of(&sid) as usize]);
    }
}
