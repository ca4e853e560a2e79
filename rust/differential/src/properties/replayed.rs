//! A trace that is replayed in parts has the lines and the total of the whole; and a line shows as it is written, for the decision
//! on its record.

use gishwarem::raw::{self, codes, ReplayState};
use gishwarem::{Form, Line, Recorded, Replay, Row};

use crate::ask;
use crate::lent::Output;
use crate::make::trace::{self, Trace, LEN};
use crate::operations::replay::{count_lines, in_pieces, Pieces, REFUSALS};
use crate::rng::Rng;
use crate::subject::Subject;
use crate::tally::Tally;

/// Parts that are replayed apart, and their tallies merged.
pub const PARTS: Subject = Subject {
    name: "replayed in parts",
    run: parts,
    refusals: REFUSALS,
    events: &["one part", "some parts", "earlier between"],
};

/// Lines as they show, against lines as they are written.
pub const LINES: Subject = Subject {
    name: "lines as they show",
    run: lines,
    refusals: REFUSALS,
    events: &["ROW", "CREATE", "L1ONLY", "L2ONLY", "BOTH", "PUBLIC"],
};

/// The records of a trace, a part of one at its end among them.
fn records(trace: &Trace) -> usize {
    trace.bytes.len().div_ceil(LEN)
}

/// The lines of a part of a trace from this record on, in one call.
fn part(rng: &mut Rng, trace: &Trace, from: usize, to: usize) -> (Vec<u8>, raw::Tally) {
    let end = (to * LEN).min(trace.bytes.len());
    let chunk = &trace.bytes[from * LEN..end];
    let state = ReplayState {
        next: from as u64 + 1,
        tally: raw::Tally::default(),
    };
    let mut out = Output::new(rng, (to - from) * 64 + 128);
    let answer = ask::replay(rng, &mut out, state, &trace.table, chunk, codes::CHUNK_ENDS);
    assert_eq!(answer.stopped, codes::REPLAY_RECORDS, "{trace:?}");
    assert_eq!(answer.used, chunk.len(), "{trace:?}");
    assert_eq!(answer.state.next, to as u64 + 1, "{trace:?}");
    (out.first(answer.written).to_vec(), answer.state.tally)
}

fn parts(rng: &mut Rng, tally: &mut Tally) {
    let kind = tally.kind(rng);
    let most = if rng.chance(200) { 400 } else { 12 };
    let trace = trace::trace(rng, kind, most);
    let Pieces { text, state, .. } = in_pieces(rng, &trace);
    count_lines(tally, &text);

    let count = records(&trace);
    let whole = state.tally;
    let newlines = text.iter().filter(|&&byte| byte == b'\n').count();
    assert_eq!(newlines, count, "{trace:?}");
    assert_eq!(state.next, count as u64 + 1, "{trace:?}");
    assert_eq!(whole.accepted + whole.refused, count as u64, "{trace:?}");

    let (mut merged, mut joined) = (raw::Tally::default(), vec![]);
    let (mut from, mut parts) = (0, 0);
    while from < count {
        let to = rng.within(from + 1, count);
        let (lines, part) = part(rng, &trace, from, to);
        let answer = ask::tally_merge(merged, part);
        assert_eq!(answer.full, 0, "{trace:?}");
        if answer.tally.earlier > merged.earlier + part.earlier {
            tally.event("earlier between");
        }
        merged = answer.tally;
        joined.extend(lines);
        from = to;
        parts += 1;
    }
    assert_eq!(merged, whole, "{trace:?}");
    assert_eq!(joined, text, "{trace:?}");
    tally.event(match parts {
        0 | 1 => "one part",
        _ => "some parts",
    });
}

fn lines(rng: &mut Rng, tally: &mut Tally) {
    let kind = tally.kind(rng);
    let trace = trace::trace(rng, kind, 12);
    let (table, bytes) = (&trace.table[..], &trace.bytes[..]);
    let (text, counted) = part(rng, &trace, 0, records(&trace));
    let text = String::from_utf8(text).expect("lines are text");

    let mut replay = Replay::new();
    let mut lines = replay.lines(table, bytes);
    let mut shown = String::new();
    for (record, line) in bytes.chunks(LEN).zip(lines.by_ref()) {
        let number = replay.next;
        let answer = Recorded::read(record).and_then(|recorded| recorded.decide(table));
        assert_eq!(line, Line { number, answer }, "{trace:?}");
        assert_eq!(replay.step(table, record), Some(line), "{trace:?}");
        count_line(tally, &line);
        shown += &format!("{line}\n");
    }
    assert_eq!(shown, text, "{trace:?}");
    assert!(lines.next().is_none() && lines.rest().is_empty());
    assert_eq!(lines.tally(), replay.tally, "{trace:?}");
    assert_eq!(raw::Tally::from(lines.tally()), counted, "{trace:?}");

    let mut out = [0; Replay::LINE];
    let length = replay.tally.write(&mut out).expect("a line has room");
    let total = format!("{}\n", replay.tally);
    assert_eq!(&out[..length], total.as_bytes(), "{trace:?}");
}

/// Counts a line by its number, and what it grants.
fn count_line(tally: &mut Tally, line: &Line) {
    let answer = match line.answer {
        Ok(answer) => answer,
        Err(refusal) => return tally.answer(refusal.number()),
    };
    tally.answer(0);
    tally.event(match answer.row {
        Row::At(_) => "ROW",
        Row::Create => "CREATE",
    });
    tally.event(match answer.form {
        Form::Keyless => "NOKEY",
        Form::L1Only => "L1ONLY",
        Form::L2Only => "L2ONLY",
        Form::Both => "BOTH",
        Form::Public => "PUBLIC",
    });
}
