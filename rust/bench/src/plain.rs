//! The replay of a trace in plain Rust: fields by `from_be_bytes`, the reference's decision, lines by `writeln!`. Nothing is
//! allocated for a record.
//!
//! The reference reads a record bit by bit, as document 02 tells it, so it is no measure of time.

use std::io::{self, Write};

use reference::decision::{decide_by_verdict, Answer, Request, Rights, Row};
use reference::reach::Form;
use reference::replay::Tally;
use reference::trace::Record;

/// The length of a record.
pub const RECORD: usize = 37;

/// The room that a line needs.
pub const LINE: usize = 128;

/// Reads the record at the start of `bytes`, or refuses 26.
pub fn read(bytes: &[u8]) -> Result<Record, u32> {
    let record: &[u8; RECORD] = bytes.first_chunk().ok_or(26u32)?;
    let (clock, rest) = record.split_first_chunk().ok_or(26u32)?;
    let (&flags, rest) = rest.split_first().ok_or(26u32)?;
    let (l0, rest) = rest.split_first_chunk().ok_or(26u32)?;
    let (l1, rest) = rest.split_first_chunk().ok_or(26u32)?;
    let (l2, rest) = rest.split_first_chunk().ok_or(26u32)?;
    let root: &[u8; 16] = rest.first_chunk().ok_or(26u32)?;

    let given = flags & 0x80 != 0;
    let rights = match flags >> 5 & 3 {
        0 => Rights::None,
        1 => Rights::Public,
        2 => Rights::Seed,
        _ => return Err(26),
    };
    if flags & 0x0F != 0 || (!given && *root != [0; 16]) {
        return Err(26);
    }
    Ok(Record {
        clock: u64::from_be_bytes(*clock),
        rights,
        verdict: flags & 0x10 != 0,
        request: Request {
            root: given.then_some(*root),
            l0: i32::from_be_bytes(*l0),
            l1: i32::from_be_bytes(*l1),
            l2: i32::from_be_bytes(*l2),
        },
    })
}

/// Where a replay stands: the number of the next line, and the tally so far.
#[derive(Debug, Clone, Copy, PartialEq, Eq)]
pub struct Replay {
    /// The number of the next line.
    pub next: u64,
    /// The tally so far.
    pub tally: Tally,
}

impl Default for Replay {
    fn default() -> Self {
        Replay {
            next: 1,
            tally: Tally::default(),
        }
    }
}

impl Replay {
    /// Replays a record: its answer, unless a count would not fit in 64 bits; then nothing changes.
    #[inline]
    pub fn step(&mut self, table: &[u8], record: &[u8]) -> Option<Result<Answer, u32>> {
        let read = read(record);
        let answer = read.and_then(|record| {
            let Record {
                clock,
                rights,
                verdict,
                request,
            } = record;
            decide_by_verdict(verdict, rights, &request, clock, table)
        });
        let mut tally = self.tally;
        match answer {
            Ok(_) => tally.accepted = tally.accepted.checked_add(1)?,
            Err(_) => tally.refused = tally.refused.checked_add(1)?,
        }
        if let Ok(Record { clock, .. }) = read {
            let (first, last) = tally.clocks.unwrap_or((clock, clock));
            if clock < last {
                tally.earlier = tally.earlier.checked_add(1)?;
            }
            tally.clocks = Some((first, clock));
        }
        let next = self.next.checked_add(1)?;
        *self = Replay { next, tally };
        Some(answer)
    }
}

/// Writes a line.
pub fn write_line(
    out: &mut impl Write,
    number: u64,
    answer: Result<Answer, u32>,
) -> io::Result<()> {
    let Answer { at, form, row } = match answer {
        Ok(answer) => answer,
        Err(refusal) => return writeln!(out, "{number} REFUSED {refusal}"),
    };
    let form = match form {
        Form::Keyless => "NOKEY",
        Form::L1Only => "L1ONLY",
        Form::L2Only => "L2ONLY",
        Form::Both => "BOTH",
        Form::Public => "PUBLIC",
    };
    let (l0, l1, l2) = (at.l0, at.l1, at.l2);
    match row {
        Row::Place(row) => writeln!(out, "{number} {l0} {l1} {l2} {form} ROW {row}"),
        Row::Create => writeln!(out, "{number} {l0} {l1} {l2} {form} CREATE"),
    }
}

/// Writes the total's line.
pub fn write_total(out: &mut impl Write, tally: &Tally) -> io::Result<()> {
    let Tally {
        accepted,
        refused,
        earlier,
        ..
    } = tally;
    writeln!(out, "TOTAL {accepted} {refused} {earlier}")
}

/// Why the replay of a chunk stopped.
#[derive(Debug, Clone, Copy, PartialEq, Eq)]
pub enum Stopped {
    /// The chunk has no further record.
    Records,
    /// There is too little room for a line.
    Room,
    /// A count would not fit.
    Full,
}

/// How far the replay of a chunk got.
#[derive(Debug, Clone, Copy, PartialEq, Eq)]
pub struct Progress {
    /// Why it stopped.
    pub stopped: Stopped,
    /// The bytes of the chunk that were used.
    pub used: usize,
    /// The bytes of the output that were written.
    pub written: usize,
}

/// Replays the records of a chunk, and puts their lines at the start of `out`.
pub fn replay(
    out: &mut [u8],
    replay: &mut Replay,
    table: &[u8],
    chunk: &[u8],
    ends: bool,
) -> Progress {
    let room = out.len();
    let mut rest = out;
    let mut left = chunk;
    let stopped = loop {
        let record = match left.get(..RECORD) {
            Some(record) => record,
            None if ends && !left.is_empty() => left,
            None => break Stopped::Records,
        };
        if rest.len() < LINE {
            break Stopped::Room;
        }
        let number = replay.next;
        let Some(answer) = replay.step(table, record) else {
            break Stopped::Full;
        };
        write_line(&mut rest, number, answer).expect("a line has room");
        left = &left[record.len()..];
    };
    Progress {
        stopped,
        used: chunk.len() - left.len(),
        written: room - rest.len(),
    }
}

/// Writes the total's line at the start of `out`, or refuses 13.
pub fn total(out: &mut [u8], tally: &Tally) -> Result<usize, u32> {
    let mut line = [0; LINE];
    let mut rest = &mut line[..];
    write_total(&mut rest, tally).expect("a line has room");
    let length = LINE - rest.len();
    let room = out.get_mut(..length).ok_or(13u32)?;
    room.copy_from_slice(&line[..length]);
    Ok(length)
}

#[cfg(test)]
mod tests {
    use super::*;
    use crate::day;

    /// What is printed for a trace, in one chunk.
    fn report(table: &[u8], trace: &[u8]) -> String {
        let mut out = vec![0; (trace.len() / RECORD + 2) * LINE];
        let mut state = Replay::default();
        let progress = replay(&mut out, &mut state, table, trace, true);
        assert_eq!(progress.stopped, Stopped::Records);
        assert_eq!(progress.used, trace.len());
        let total = total(&mut out[progress.written..], &state.tally).unwrap();
        out.truncate(progress.written + total);
        String::from_utf8(out).unwrap()
    }

    /// The reference reads each bit for itself; a day has records of each sort.
    #[test]
    fn it_is_the_references_replay() {
        let table = day::table();
        let trace: Vec<u8> = day::records(20_000).flatten().collect();
        let text = report(&table, &trace);
        assert_eq!(text, reference::replay::report(&table, &trace));
        for words in [
            " REFUSED 26\n",
            " REFUSED 16\n",
            " REFUSED 17\n",
            " PUBLIC ",
        ] {
            assert!(text.contains(words), "{words}");
        }
        let cut = &trace[..100 * RECORD + 5];
        assert_eq!(report(&table, cut), reference::replay::report(&table, cut));
    }

    #[test]
    fn each_bit_is_read_alike() {
        let zeros = [0; RECORD];
        let given = {
            let mut record = [0xA5; RECORD];
            record[8] = 0xD0;
            record
        };
        for record in [zeros, given] {
            for bit in 0..8 * RECORD {
                let mut changed = record;
                changed[bit / 8] ^= 1 << (bit % 8);
                assert_eq!(read(&changed), reference::trace::read(&changed), "{bit}");
            }
        }
        assert_eq!(read(&zeros[1..]), Err(26));
    }
}
