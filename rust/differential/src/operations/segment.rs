//! Reading and writing a Data Segment Encryption Header, and the size of one of its blocks.

use super::Asked;
use crate::hex::Hex;
use crate::lent::Output;
use crate::make::room;
use crate::make::segment::{self, Segment};
use crate::rng::Rng;
use crate::subject::Subject;
use crate::tally::Tally;
use crate::{ask, expected};

/// The reader.
pub const READ: Subject = Subject {
    name: "segment read",
    run: read,
    refusals: &[1, 2, 3, 4, 25],
    events: &[
        "no block",
        "none larger",
        "some larger",
        "all larger",
        "bytes after",
    ],
};

/// The size of a block.
pub const SIZE: Subject = Subject {
    name: "segment size",
    run: size,
    refusals: &[1, 2, 3, 4, 25],
    events: &["size", "none"],
};

/// The writer.
pub const WRITE: Subject = Subject {
    name: "segment write",
    run: write,
    refusals: &[1, 13, 25],
    events: &["no block", "most blocks"],
};

fn read(rng: &mut Rng, tally: &mut Tally) {
    let kind = tally.kind(rng);
    let bytes = segment::record(rng, kind);
    let answer = ask::segment_read(rng, &bytes);
    Asked::new(kind, &Hex(&bytes)).compare(tally, &answer, &expected::segment_read(&bytes));
    if answer.refusal != 0 {
        return;
    }
    tally.event(match (answer.larger, answer.blocks) {
        (_, 0) => "no block",
        (0, _) => "none larger",
        (larger, blocks) if larger == blocks => "all larger",
        _ => "some larger",
    });
    if answer.sizes.at + answer.sizes.len < bytes.len() {
        tally.event("bytes after");
    }
}

fn size(rng: &mut Rng, tally: &mut Tally) {
    let kind = tally.kind(rng);
    let bytes = segment::record(rng, kind);
    let index = segment::index(rng, &bytes);
    let answer = ask::segment_size(rng, &bytes, index);
    let input = (index, Hex(&bytes));
    Asked::new(kind, &input).compare(tally, &answer, &expected::segment_size(&bytes, index));
    match (answer.refusal, answer.found) {
        (0, 0) => tally.event("none"),
        (0, _) => tally.event("size"),
        _ => {}
    }
}

fn write(rng: &mut Rng, tally: &mut Tally) {
    let kind = tally.kind(rng);
    let segment = Segment::of(rng, kind);
    let room = room(rng, kind, segment.length());
    let mut out = Output::new(rng, room);
    let answer = ask::segment_write(rng, &mut out, &segment.head, &segment.sizes);
    let input = (room, segment.head, Hex(&segment.size_bytes()));
    Asked::new(kind, &input).compare_written(tally, &out, &answer, |out| {
        expected::segment_write(out, &segment.head, &segment.sizes)
    });
    match (answer.refusal, segment.sizes.len()) {
        (0, 0) => tally.event("no block"),
        (0, segment::MOST) => tally.event("most blocks"),
        _ => {}
    }
}
