//! Reading and writing a Key List Entry.

use gishwarem::raw::codes;

use super::Asked;
use crate::hex::Hex;
use crate::lent::Output;
use crate::make::{entry, room};
use crate::rng::Rng;
use crate::subject::Subject;
use crate::tally::Tally;
use crate::{ask, expected};

/// The reader.
pub const READ: Subject = Subject {
    name: "entry read",
    run: read,
    refusals: &[1, 2, 3, 6, 7, 8, 9],
    events: &["RSA", "AES-256", "unsupported"],
};

/// The writer.
pub const WRITE: Subject = Subject {
    name: "entry write",
    run: write,
    refusals: &[1, 3, 7, 13],
    events: &[],
};

fn read(rng: &mut Rng, tally: &mut Tally) {
    let kind = tally.kind(rng);
    let bytes = entry::record(rng, kind);
    let answer = ask::entry_read(rng, &bytes);
    Asked::new(kind, &Hex(&bytes)).compare(tally, &answer, &expected::entry_read(&bytes));
    match answer.algorithm {
        codes::ALGORITHM_RSA => tally.event("RSA"),
        codes::ALGORITHM_AES256 => tally.event("AES-256"),
        codes::ALGORITHM_UNSUPPORTED => tally.event("unsupported"),
        _ => {}
    }
}

fn write(rng: &mut Rng, tally: &mut Tally) {
    let kind = tally.kind(rng);
    let (item, fek) = entry::items(rng, kind);
    let flags = entry::flags(rng);
    let room = room(rng, kind, entry::length(&item, &fek));
    let mut out = Output::new(rng, room);
    let answer = ask::entry_write(rng, &mut out, flags, &item, &fek);
    let input = (room, flags, Hex(&item), Hex(&fek));
    Asked::new(kind, &input).compare_written(tally, &out, &answer, |out| {
        expected::entry_write(out, flags, &item, &fek)
    });
}
