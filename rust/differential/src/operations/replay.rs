//! The replay of a trace: a record, a chunk, a whole trace in pieces, the total's line, and two tallies as one.

use gishwarem::raw::{codes, ReplayState};

use super::Asked;
use crate::lent::Output;
use crate::make::trace::{self, Trace};
use crate::make::{code, identifier, room};
use crate::rng::Rng;
use crate::subject::Subject;
use crate::tally::Tally;
use crate::{ask, expected};

/// The refusals of a record.
pub const REFUSALS: &[u32] = &[14, 15, 16, 17, 18, 19, 20, 26];

/// One record.
pub const STEP: Subject = Subject {
    name: "replay step",
    run: step,
    refusals: REFUSALS,
    events: &[
        "GRANTED",
        "CREATE",
        "earlier",
        "first clock",
        "full by the number",
        "full by accepted",
        "full by refused",
        "full by earlier",
    ],
};

/// One chunk.
pub const CHUNK: Subject = Subject {
    name: "replay",
    run: chunk,
    refusals: REFUSALS,
    events: &[
        "records",
        "room",
        "full",
        "part left",
        "part cut",
        "earlier",
    ],
};

/// A whole trace in pieces, against all that is printed for it.
pub const WHOLE: Subject = Subject {
    name: "replay in pieces",
    run: whole,
    refusals: REFUSALS,
    events: &["empty", "in one", "in pieces", "part cut", "earlier"],
};

/// The total's line.
pub const TOTAL: Subject = Subject {
    name: "replay total",
    run: total,
    refusals: &[13],
    events: &["longest"],
};

/// Two tallies as one; that a sum would not fit counts as 1.
pub const MERGE: Subject = Subject {
    name: "tally merge",
    run: merge,
    refusals: &[1],
    events: &["earlier between", "clocks of one", "no clocks"],
};

fn step(rng: &mut Rng, tally: &mut Tally) {
    let kind = tally.kind(rng);
    let asked = trace::asked(rng, kind);
    let clock = expected::trace_read(&asked.record).clock;
    let state = trace::state(rng, kind, clock);
    let line = ask::replay_step(rng, state, &asked.table, &asked.record);
    let reference = expected::replay_step(&state, &asked.table, &asked.record);
    Asked::new(kind, &(state, asked)).compare(tally, &line, &reference);
    if line.state.next == state.next {
        tally.event(full_by(&state));
        return;
    }
    match line.answer.granted {
        codes::GRANTED_ROW => tally.event("GRANTED"),
        codes::GRANTED_CREATE => tally.event("CREATE"),
        _ => {}
    }
    let behind = line.state.tally;
    if behind.earlier != state.tally.earlier {
        tally.event("earlier");
    }
    if behind.clocks == codes::CLOCKS_GIVEN && state.tally.clocks != codes::CLOCKS_GIVEN {
        tally.event("first clock");
    }
}

/// Which count would not fit, where only one of them is the last number.
fn full_by(state: &ReplayState) -> &'static str {
    let tally = &state.tally;
    let last = |count| count == u64::MAX;
    match [tally.accepted, tally.refused, tally.earlier].map(last) {
        _ if last(state.next) => "full by the number",
        [true, false, false] => "full by accepted",
        [false, true, false] => "full by refused",
        [false, false, true] => "full by earlier",
        _ => "full by one of some",
    }
}

/// Counts the records of lines by their numbers.
pub fn count_lines(tally: &mut Tally, lines: &[u8]) {
    let lines = std::str::from_utf8(lines).expect("lines are text");
    for line in lines.lines() {
        let refused = line.split_once(" REFUSED ");
        let number = refused.map(|(_, number)| number.parse().expect("a refusal's number"));
        tally.answer(number.unwrap_or(0));
    }
}

fn chunk(rng: &mut Rng, tally: &mut Tally) {
    let kind = tally.kind(rng);
    let trace = trace::trace(rng, kind, 20);
    let state = trace::state(rng, kind, trace.clock);
    let ends = code(rng, &[codes::CHUNK_GOES_ON, codes::CHUNK_ENDS]);
    let room = chunk_room(rng);
    let mut out = Output::new(rng, room);
    let answer = ask::replay(rng, &mut out, state, &trace.table, &trace.bytes, ends);

    let mut lines = vec![0x5C; room];
    let reference = expected::replay(&mut lines, &state, &trace.table, &trace.bytes, ends);
    lines.truncate(reference.written);
    let input = (room, ends, state, &trace);
    let asked = Asked::new(kind, &input);
    asked.compare(tally, &answer, &reference);
    asked.compare_lent(&out, &lines);

    count_lines(tally, &lines);
    tally.event(match answer.stopped {
        codes::REPLAY_RECORDS => "records",
        codes::REPLAY_ROOM => "room",
        codes::REPLAY_FULL => "full",
        other => panic!("no such reason: {other}"),
    });
    if !answer.used.is_multiple_of(trace::LEN) {
        tally.event("part cut");
    } else if answer.stopped == codes::REPLAY_RECORDS && answer.used < trace.bytes.len() {
        tally.event("part left");
    }
    if answer.state.tally.earlier != state.tally.earlier {
        tally.event("earlier");
    }
}

/// Room for some of a chunk's lines, or for all of them; often around what one line needs.
fn chunk_room(rng: &mut Rng) -> usize {
    match rng.below(4) {
        0 => rng.within(126, 129),
        1 => rng.below(400),
        _ => rng.within(400, 1_500),
    }
}

fn whole(rng: &mut Rng, tally: &mut Tally) {
    let kind = tally.kind(rng);
    let most = if rng.chance(200) { 1_000 } else { 16 };
    let trace = trace::trace(rng, kind, most);
    let Pieces {
        mut text,
        state,
        calls,
    } = in_pieces(rng, &trace);
    count_lines(tally, &text);

    let mut out = Output::new(rng, 128);
    let total = ask::replay_total(&mut out, state.tally);
    text.extend(out.first(total.len));
    let report = reference::replay::report(&trace.table, &trace.bytes);
    assert_eq!(
        String::from_utf8_lossy(&text),
        report,
        "{kind:?} input: {trace:?}"
    );

    tally.event(match (trace.bytes.len(), calls) {
        (0, _) => "empty",
        (_, 1) => "in one",
        _ => "in pieces",
    });
    if !trace.bytes.len().is_multiple_of(trace::LEN) {
        tally.event("part cut");
    }
    if state.tally.earlier > 0 {
        tally.event("earlier");
    }
}

/// A trace that was replayed in pieces.
pub struct Pieces {
    /// Its lines.
    pub text: Vec<u8>,
    /// The state behind them.
    pub state: ReplayState,
    /// How many calls it took.
    pub calls: usize,
}

/// Replays a trace in chunks that end anywhere, into outputs of any room. What a call leaves of its chunk stands at the start
/// of the next one.
pub fn in_pieces(rng: &mut Rng, trace: &Trace) -> Pieces {
    let mut pieces = Pieces {
        text: vec![],
        state: ask::replay_start(),
        calls: 0,
    };
    // Long traces in long chunks.
    let long = 40 + trace.bytes.len() / 8;
    let mut at = 0;
    loop {
        let left = trace.bytes.len() - at;
        let some = rng.below(2 * long).min(left);
        let len = rng.pick(&[some, some, left]);
        // The end may be told with the last chunk, or with an empty one behind it.
        let ends = len == left && rng.chance(2);
        let room = rng.pick(&[130, 300, 128 + 2 * long, 4 * long]);
        let mut out = Output::new(rng, room);
        let chunk = &trace.bytes[at..at + len];
        let answer = ask::replay(
            rng,
            &mut out,
            pieces.state,
            &trace.table,
            chunk,
            ends.into(),
        );
        let lines = out.first(answer.written).to_vec();
        assert!(out.holds(&lines), "bytes behind the lines changed");
        pieces.text.extend(lines);
        pieces.state = answer.state;
        pieces.calls += 1;
        at += answer.used;
        if ends && answer.stopped == codes::REPLAY_RECORDS {
            return pieces;
        }
    }
}

fn total(rng: &mut Rng, tally: &mut Tally) {
    let kind = tally.kind(rng);
    let given = trace::tally(rng, kind, 0);
    let length = format!("{}\n", gishwarem::Tally::from(given)).len();
    let room = room(rng, kind, length);
    let mut out = Output::new(rng, room);
    let answer = ask::replay_total(&mut out, given);
    Asked::new(kind, &(room, given)).compare_written(tally, &out, &answer, |out| {
        expected::replay_total(out, &given)
    });
    if answer.len == "TOTAL ".len() + 3 * 20 + 3 {
        tally.event("longest");
    }
}

fn merge(rng: &mut Rng, tally: &mut Tally) {
    let kind = tally.kind(rng);
    let clock = identifier::reading(rng, kind);
    let first = trace::tally(rng, kind, clock);
    let second = trace::tally(rng, kind, clock);
    let answer = ask::tally_merge(first, second);
    let reference = expected::tally_merge(&first, &second);
    Asked::new(kind, &(first, second)).compare(tally, &answer, &reference);
    if answer.full != 0 {
        return;
    }
    let given = [first, second].map(|tally| tally.clocks == codes::CLOCKS_GIVEN);
    match given {
        [true, true] if answer.tally.earlier != first.earlier + second.earlier => {
            tally.event("earlier between")
        }
        [true, true] => {}
        [false, false] => tally.event("no clocks"),
        _ => tally.event("clocks of one"),
    }
}
