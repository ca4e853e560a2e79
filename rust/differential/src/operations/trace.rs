//! Reading a record of a trace.

use super::Asked;
use crate::hex::Hex;
use crate::make::trace;
use crate::rng::Rng;
use crate::subject::Subject;
use crate::tally::Tally;
use crate::{ask, expected};

/// The reader.
pub const READ: Subject = Subject {
    name: "trace read",
    run: read,
    refusals: &[26],
    events: &["root", "no root", "bytes behind", "cut"],
};

fn read(rng: &mut Rng, tally: &mut Tally) {
    let kind = tally.kind(rng);
    let record = trace::record(rng, kind);
    let answer = ask::trace_read(rng, &record);
    Asked::new(kind, &Hex(&record)).compare(tally, &answer, &expected::trace_read(&record));
    if record.len() < trace::LEN {
        tally.event("cut");
    }
    if answer.refusal != 0 {
        return;
    }
    tally.event(match answer.request.root_given {
        0 => "no root",
        _ => "root",
    });
    if record.len() > trace::LEN {
        tally.event("bytes behind");
    }
}
