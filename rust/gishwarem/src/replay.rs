//! The replay of a trace: a line for each recorded request, and a total.

use std::fmt;
use std::iter::FusedIterator;

use crate::answer::written;
use crate::raw::codes;
use crate::{calls, raw, Answer, FileTime, Form, Recorded, Refusal, Row};

/// The counts of a replay. Its clocks are those of the records that are not
/// [`MalformedRecord`](Refusal::MalformedRecord), which have none.
///
/// ```
/// use gishwarem::Tally;
///
/// let tally = Tally { accepted: 2, refused: 1, ..Tally::default() };
/// assert_eq!(tally.to_string(), "TOTAL 2 1 0");
/// ```
#[derive(Debug, Clone, Copy, PartialEq, Eq, Hash, Default)]
pub struct Tally {
    /// How many records were accepted.
    pub accepted: u64,
    /// How many were refused, malformed ones included.
    pub refused: u64,
    /// How many clocks were earlier than the one before them.
    pub earlier: u64,
    /// The first and the last clock, if there is any.
    pub clocks: Option<(FileTime, FileTime)>,
}

impl Tally {
    /// The tally of a trace, from that of its first part and that of the rest, which may be
    /// replayed apart. There is none where a sum would not fit in 64 bits.
    ///
    /// ```
    /// use gishwarem::{FileTime, Tally};
    ///
    /// let clocks = |first, last| Some((FileTime(first), FileTime(last)));
    /// let first = Tally { accepted: 3, earlier: 1, clocks: clocks(5, 9), ..Tally::default() };
    /// let rest = Tally { accepted: 1, refused: 1, clocks: clocks(8, 8), ..Tally::default() };
    ///
    /// // From 9 to 8 the clock goes back once more.
    /// let whole = Tally { accepted: 4, refused: 1, earlier: 2, clocks: clocks(5, 8) };
    /// assert_eq!(first.merge(rest), Some(whole));
    /// assert_eq!(first.merge(Tally::default()), Some(first));
    ///
    /// let most = Tally { accepted: u64::MAX, ..Tally::default() };
    /// assert_eq!(most.merge(rest), None);
    /// ```
    pub fn merge(self, rest: Tally) -> Option<Tally> {
        let answer = calls::tally_merge(self.into(), rest.into());
        (answer.full == 0).then(|| answer.tally.into())
    }

    /// Writes the line of the total at the start of `out`, with its newline, and answers its
    /// length. The bytes behind it stay; a refusal changes no byte.
    ///
    /// ```
    /// use gishwarem::{Refusal, Tally};
    ///
    /// let mut out = [b'.'; 13];
    /// assert_eq!(Tally::default().write(&mut out), Ok(12));
    /// assert_eq!(&out, b"TOTAL 0 0 0\n.");
    /// assert_eq!(Tally::default().write(&mut out[..11]), Err(Refusal::NoRoom));
    /// ```
    pub fn write(&self, out: &mut [u8]) -> Result<usize, Refusal> {
        written(calls::replay_total(out, (*self).into()))
    }
}

/// The line of the total, without its newline.
impl fmt::Display for Tally {
    fn fmt(&self, f: &mut fmt::Formatter<'_>) -> fmt::Result {
        write!(
            f,
            "TOTAL {} {} {}",
            self.accepted, self.refused, self.earlier
        )
    }
}

impl From<raw::Tally> for Tally {
    fn from(tally: raw::Tally) -> Tally {
        let given = tally.clocks == codes::CLOCKS_GIVEN;
        Tally {
            accepted: tally.accepted,
            refused: tally.refused,
            earlier: tally.earlier,
            clocks: given.then_some((FileTime(tally.first), FileTime(tally.last))),
        }
    }
}

impl From<Tally> for raw::Tally {
    fn from(tally: Tally) -> raw::Tally {
        let (first, last) = tally.clocks.unwrap_or_default();
        raw::Tally {
            accepted: tally.accepted,
            refused: tally.refused,
            earlier: tally.earlier,
            first: first.0,
            last: last.0,
            clocks: tally.clocks.is_some().into(),
            reserved: 0,
        }
    }
}

/// Whether a trace ends with a chunk of it.
///
/// ```
/// use gishwarem::{Chunk, Replay};
///
/// // A part of a record is left to the next chunk, or it is a record that was cut.
/// let used = |ends| Replay::new().chunk(&[], &[0; 36], ends, &mut [0; 128]).used;
/// assert_eq!(used(Chunk::GoesOn), 0);
/// assert_eq!(used(Chunk::Ends), 36);
/// ```
#[repr(u32)]
#[derive(Debug, Clone, Copy, PartialEq, Eq, Hash)]
pub enum Chunk {
    /// It goes on behind the chunk.
    GoesOn = codes::CHUNK_GOES_ON,
    /// It ends with the chunk.
    Ends = codes::CHUNK_ENDS,
}

impl Chunk {
    /// The code by which the library is told it.
    fn code(self) -> u32 {
        self as u32
    }
}

/// Why the replay of a chunk stopped.
///
/// ```
/// use gishwarem::{Chunk, Replay, Stopped};
///
/// let stopped = |mut replay: Replay, chunk: &[u8], room| {
///     replay.chunk(&[], chunk, Chunk::Ends, &mut vec![0; room]).stopped
/// };
/// assert_eq!(stopped(Replay::new(), &[0; 37], 128), Stopped::Records);
/// assert_eq!(stopped(Replay::new(), &[0; 37], 127), Stopped::Room);
/// assert_eq!(stopped(Replay::from_line(u64::MAX), &[0; 37], 128), Stopped::Full);
/// ```
#[derive(Debug, Clone, Copy, PartialEq, Eq, Hash)]
pub enum Stopped {
    /// The chunk has no further record.
    Records,
    /// Less than [`Replay::LINE`] bytes of the output are left.
    Room,
    /// A count would not fit in 64 bits.
    Full,
}

impl Stopped {
    /// The reason of a code that the library answers.
    fn from_code(code: u32) -> Stopped {
        match code {
            codes::REPLAY_RECORDS => Stopped::Records,
            codes::REPLAY_ROOM => Stopped::Room,
            codes::REPLAY_FULL => Stopped::Full,
            _ => unreachable!("the library answers a listed reason"),
        }
    }
}

/// How far the replay of a chunk got.
///
/// ```
/// use gishwarem::{Chunk, Progress, Replay, Stopped};
///
/// // Two malformed records and a byte of a third; room for one line.
/// let mut replay = Replay::new();
/// let progress = replay.chunk(&[], &[0xFF; 2 * 37 + 1], Chunk::GoesOn, &mut [0; 130]);
/// let first = Progress { stopped: Stopped::Room, used: 37, written: "1 REFUSED 26\n".len() };
/// assert_eq!(progress, first);
/// ```
#[derive(Debug, Clone, Copy, PartialEq, Eq, Hash)]
pub struct Progress {
    /// Why it stopped there.
    pub stopped: Stopped,
    /// How many bytes of the chunk are replayed.
    pub used: usize,
    /// How many bytes of the output their lines have.
    pub written: usize,
}

/// A replayed record: the number of its line, and its answer. It shows as the line that the library
/// writes, without the newline.
///
/// ```
/// use gishwarem::{Answer, Form, Gkid, Line, Refusal, Row};
///
/// let at = Gkid { l0: 5, l1: 3, l2: 7 };
/// let line = |number, answer| Line { number, answer }.to_string();
/// let granted = |row| Ok(Answer { at, form: Form::Both, row });
/// assert_eq!(line(1, granted(Row::At(0))), "1 5 3 7 BOTH ROW 0");
/// assert_eq!(line(2, granted(Row::Create)), "2 5 3 7 BOTH CREATE");
/// assert_eq!(line(3, Err(Refusal::LaterThanNow)), "3 REFUSED 17");
/// ```
#[derive(Debug, Clone, Copy, PartialEq, Eq, Hash)]
pub struct Line {
    /// The number of its line; those of a whole trace count from 1.
    pub number: u64,
    /// What it is granted, or why it is refused.
    pub answer: Result<Answer, Refusal>,
}

impl fmt::Display for Line {
    fn fmt(&self, f: &mut fmt::Formatter<'_>) -> fmt::Result {
        let number = self.number;
        let Answer { at, form, row } = match self.answer {
            Ok(answer) => answer,
            Err(refusal) => return write!(f, "{number} REFUSED {}", refusal.number()),
        };
        let form = word(form);
        write!(f, "{number} {} {} {} {form} ", at.l0, at.l1, at.l2)?;
        match row {
            Row::At(row) => write!(f, "ROW {row}"),
            Row::Create => f.write_str("CREATE"),
        }
    }
}

/// A form's word in a line.
fn word(form: Form) -> &'static str {
    match form {
        Form::Keyless => "NOKEY",
        Form::L1Only => "L1ONLY",
        Form::L2Only => "L2ONLY",
        Form::Both => "BOTH",
        Form::Public => "PUBLIC",
    }
}

/// A replay: where it stands in its trace. Each record is decided by the verdict that it has, and
/// gets one line; the last line is the tally's.
///
/// ```
/// use gishwarem::{Recorded, Replay};
///
/// // At (5, 3, 7), with the verdict yes and no root: these rights, and one index three times.
/// let record = |rights: u8, index: i32| {
///     let mut record = [0; Recorded::LEN];
///     record[..8].copy_from_slice(&1_880_280_000_000_000_u64.to_be_bytes());
///     record[8] = rights << 5 | 1 << 4;
///     record[9..21].copy_from_slice(&[index.to_be_bytes(); 3].concat());
///     record
/// };
/// // The latest with seed rights and with public rights; (5, 3, 8) with seed rights.
/// let mut trace = [record(2, -1), record(1, -1), record(2, 0)];
/// (trace[2][12], trace[2][16], trace[2][20]) = (5, 3, 8);
/// let trace = trace.concat();
///
/// let table = [0; 32]; // one row
/// let mut lines = Replay::new().lines(&table, &trace);
/// let mut text = String::new();
/// for line in &mut lines {
///     text += &format!("{line}\n");
/// }
/// text += &format!("{}\n", lines.tally());
/// assert_eq!(text, "1 5 3 7 BOTH ROW 0\n2 5 3 7 PUBLIC ROW 0\n3 REFUSED 17\nTOTAL 2 1 0\n");
/// ```
#[derive(Debug, Clone, Copy, PartialEq, Eq, Hash)]
pub struct Replay {
    /// The number of the next line.
    pub next: u64,
    /// The tally of the records so far.
    pub tally: Tally,
}

impl Replay {
    /// The room that a line needs; no line is longer.
    ///
    /// ```
    /// use gishwarem::{Chunk, Replay, Stopped};
    ///
    /// let mut out = [0; Replay::LINE];
    /// let progress = Replay::new().chunk(&[], &[0; 37], Chunk::Ends, &mut out);
    /// assert_eq!(progress.stopped, Stopped::Records);
    /// assert_eq!(&out[..progress.written], b"1 REFUSED 16\n");
    /// ```
    pub const LINE: usize = raw::REPLAY_LINE;

    /// The replay of a whole trace, at its start.
    ///
    /// ```
    /// use gishwarem::{Replay, Tally};
    ///
    /// let replay = Replay::new();
    /// assert_eq!(replay.next, 1);
    /// assert_eq!(replay.tally, Tally::default());
    /// ```
    pub fn new() -> Replay {
        calls::replay_start().into()
    }

    /// The replay of a part of a trace, whose first record has this number. [`Tally::merge`] puts
    /// the parts' tallies together.
    ///
    /// ```
    /// use gishwarem::Replay;
    ///
    /// // Three malformed records, the third of them replayed apart.
    /// let mut trace = [0xFF; 3 * 37];
    /// let mut first = Replay::new().lines(&[], &trace[..74]);
    /// let mut rest = Replay::from_line(3).lines(&[], &trace[74..]);
    /// assert_eq!(first.by_ref().count(), 2);
    /// assert_eq!(rest.next().unwrap().to_string(), "3 REFUSED 26");
    ///
    /// let whole = first.tally().merge(rest.tally()).unwrap();
    /// assert_eq!(whole.to_string(), "TOTAL 0 3 0");
    /// ```
    pub fn from_line(number: u64) -> Replay {
        Replay {
            next: number,
            tally: Tally::default(),
        }
    }

    /// Replays the records of a chunk: their lines at the start of `out`, which keeps its bytes
    /// behind them. It stops where the chunk has no further record, else where there is no room for a
    /// line, else where a count would not fit; and goes on with the next chunk, which starts behind
    /// the bytes that were used.
    ///
    /// ```
    /// use gishwarem::{Chunk, Progress, Replay, Stopped};
    ///
    /// // A record with the verdict no, and the first 3 bytes of another.
    /// let chunk = [0; 37 + 3];
    /// let mut out = [b'.'; 128 + 13];
    /// let mut replay = Replay::new();
    /// let progress = replay.chunk(&[], &chunk, Chunk::GoesOn, &mut out);
    /// assert_eq!(progress, Progress { stopped: Stopped::Records, used: 37, written: 13 });
    ///
    /// // Nothing follows them.
    /// let progress = replay.chunk(&[], &chunk[37..], Chunk::Ends, &mut out[13..]);
    /// assert_eq!(progress, Progress { stopped: Stopped::Records, used: 3, written: 13 });
    /// assert_eq!(&out[..28], b"1 REFUSED 16\n2 REFUSED 26\n..");
    /// assert_eq!(replay.tally.to_string(), "TOTAL 0 2 0");
    /// ```
    pub fn chunk(&mut self, table: &[u8], chunk: &[u8], ends: Chunk, out: &mut [u8]) -> Progress {
        let answer = calls::replay(out, (*self).into(), table, chunk, ends.code());
        *self = answer.state.into();
        Progress {
            stopped: Stopped::from_code(answer.stopped),
            used: answer.used,
            written: answer.written,
        }
    }

    /// Replays one record, which fewer than 37 bytes are a malformed one of. There is no line, and
    /// the replay stays where it is, if a count would not fit in 64 bits.
    ///
    /// ```
    /// use gishwarem::{Line, Refusal, Replay};
    ///
    /// let mut replay = Replay::from_line(u64::MAX - 1);
    /// let cut = Line { number: u64::MAX - 1, answer: Err(Refusal::MalformedRecord) };
    /// assert_eq!(replay.step(&[], &[0; 36]), Some(cut));
    /// assert_eq!(replay.next, u64::MAX);
    /// assert_eq!(replay.step(&[], &[0; 36]), None);
    /// assert_eq!(replay.tally.refused, 1);
    /// ```
    pub fn step(&mut self, table: &[u8], record: &[u8]) -> Option<Line> {
        let before = self.next;
        let line = calls::replay_step((*self).into(), table, record);
        *self = line.state.into();
        // A line moves the next number on.
        (self.next != before).then(|| Line {
            number: line.number,
            answer: Answer::from_answer(&line.answer),
        })
    }

    /// The lines of a whole trace, or of all that is left of one.
    ///
    /// ```
    /// use gishwarem::Replay;
    ///
    /// // A record with the verdict no, and a part of one.
    /// let lines = Replay::new().lines(&[], &[0; 38]);
    /// let text: Vec<String> = lines.map(|line| line.to_string()).collect();
    /// assert_eq!(text, ["1 REFUSED 16", "2 REFUSED 26"]);
    /// ```
    pub fn lines<'a>(self, table: &'a [u8], trace: &'a [u8]) -> Lines<'a> {
        Lines {
            replay: self,
            table,
            rest: trace,
        }
    }
}

impl Default for Replay {
    fn default() -> Replay {
        Replay::new()
    }
}

impl From<raw::ReplayState> for Replay {
    fn from(state: raw::ReplayState) -> Replay {
        Replay {
            next: state.next,
            tally: state.tally.into(),
        }
    }
}

impl From<Replay> for raw::ReplayState {
    fn from(replay: Replay) -> raw::ReplayState {
        raw::ReplayState {
            next: replay.next,
            tally: replay.tally.into(),
        }
    }
}

/// The lines of a trace, by [`Replay::lines`]. Where a count would not fit in 64 bits, they end.
///
/// ```
/// use gishwarem::Replay;
///
/// let mut lines = Replay::new().lines(&[], &[0; 2 * 37]);
/// assert_eq!(lines.next().unwrap().to_string(), "1 REFUSED 16");
/// assert_eq!(lines.tally().to_string(), "TOTAL 0 1 0"); // so far
/// assert_eq!(lines.by_ref().count(), 1);
/// assert_eq!(lines.tally().to_string(), "TOTAL 0 2 0");
/// ```
#[derive(Debug, Clone)]
pub struct Lines<'a> {
    replay: Replay,
    table: &'a [u8],
    rest: &'a [u8],
}

impl<'a> Lines<'a> {
    /// The tally of the lines so far.
    ///
    /// ```
    /// use gishwarem::{Replay, Tally};
    ///
    /// let lines = Replay::new().lines(&[], &[]);
    /// assert_eq!(lines.tally(), Tally::default());
    /// ```
    pub fn tally(&self) -> Tally {
        self.replay.tally
    }

    /// The bytes behind the records so far. Where the lines have ended, there are none, unless a
    /// count would not fit.
    ///
    /// ```
    /// use gishwarem::Replay;
    ///
    /// let mut lines = Replay::from_line(u64::MAX - 1).lines(&[], &[0; 2 * 37]);
    /// assert_eq!(lines.by_ref().count(), 1);
    /// assert_eq!(lines.rest().len(), 37);
    /// ```
    pub fn rest(&self) -> &'a [u8] {
        self.rest
    }
}

impl Iterator for Lines<'_> {
    type Item = Line;

    fn next(&mut self) -> Option<Line> {
        if self.rest.is_empty() {
            return None;
        }
        let (record, rest) = self.rest.split_at(self.rest.len().min(Recorded::LEN));
        let line = self.replay.step(self.table, record)?;
        self.rest = rest;
        Some(line)
    }

    fn size_hint(&self) -> (usize, Option<usize>) {
        (0, Some(self.rest.len().div_ceil(Recorded::LEN)))
    }
}

impl FusedIterator for Lines<'_> {}
