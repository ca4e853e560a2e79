//! The replay of a trace (document 02, No. 7): one line per record, then a total.

use std::fmt;

use crate::decision::{self, Answer, Row};
use crate::reach::Form;
use crate::trace::{self, Record};

/// A line of a replay.
#[derive(Debug, Clone, Copy, PartialEq, Eq)]
pub struct Line {
    /// Its number, counted from 1.
    pub number: u64,
    /// What the record is granted, or the number that it is refused with.
    pub answer: Result<Answer, u32>,
}

/// The line as it is printed, without its newline.
impl fmt::Display for Line {
    fn fmt(&self, out: &mut fmt::Formatter<'_>) -> fmt::Result {
        write!(out, "{} ", self.number)?;
        match self.answer {
            Err(number) => write!(out, "REFUSED {number}"),
            Ok(Answer { at, form, row }) => {
                write!(out, "{} {} {} {} ", at.l0, at.l1, at.l2, word(form))?;
                match row {
                    Row::Place(place) => write!(out, "ROW {place}"),
                    Row::Create => write!(out, "CREATE"),
                }
            }
        }
    }
}

/// A form as it is printed.
fn word(form: Form) -> &'static str {
    match form {
        Form::Keyless => "NOKEY",
        Form::L1Only => "L1ONLY",
        Form::L2Only => "L2ONLY",
        Form::Both => "BOTH",
        Form::Public => "PUBLIC",
    }
}

/// The total of a trace, with what it takes to put two of them together.
#[derive(Debug, Clone, Copy, PartialEq, Eq, Default)]
pub struct Tally {
    /// The records accepted.
    pub accepted: u64,
    /// The records refused, those with 26 included.
    pub refused: u64,
    /// The times the clock was earlier than in the last record before, those
    /// with 26 left out.
    pub earlier: u64,
    /// The clocks of the first and of the last record that isn't 26.
    pub clocks: Option<(u64, u64)>,
}

/// The total as it is printed, without its newline.
impl fmt::Display for Tally {
    fn fmt(&self, out: &mut fmt::Formatter<'_>) -> fmt::Result {
        let Tally {
            accepted,
            refused,
            earlier,
            ..
        } = self;
        write!(out, "TOTAL {accepted} {refused} {earlier}")
    }
}

/// The whole records of a trace, and a part of one at its end.
pub fn records(trace: &[u8]) -> impl Iterator<Item = &[u8]> {
    trace.chunks(trace::LENGTH)
}

/// Decides on a record by its verdict, or refuses 26.
pub fn decide(table: &[u8], record: &[u8]) -> Result<Answer, u32> {
    let Record {
        clock,
        rights,
        verdict,
        request,
    } = trace::read(record)?;
    decision::decide_by_verdict(verdict, rights, &request, clock, table)
}

/// The lines of a trace, in order.
pub fn lines<'a>(table: &'a [u8], trace: &'a [u8]) -> impl Iterator<Item = Line> + 'a {
    (1..).zip(records(trace)).map(|(number, record)| Line {
        number,
        answer: decide(table, record),
    })
}

/// The total of a trace.
pub fn tally(table: &[u8], trace: &[u8]) -> Tally {
    let answers: Vec<bool> = lines(table, trace)
        .map(|line| line.answer.is_ok())
        .collect();
    let clocks: Vec<u64> = records(trace)
        .filter_map(|record| trace::read(record).ok())
        .map(|record| record.clock)
        .collect();
    Tally {
        accepted: count(answers.iter().filter(|&&accepted| accepted)),
        refused: count(answers.iter().filter(|&&accepted| !accepted)),
        earlier: count(clocks.windows(2).filter(|pair| pair[1] < pair[0])),
        clocks: clocks.first().copied().zip(clocks.last().copied()),
    }
}

/// The total of a trace of this one record.
pub fn tally_of_one(table: &[u8], record: &[u8]) -> Tally {
    let accepted = decide(table, record).is_ok();
    let clock = trace::read(record).ok().map(|record| record.clock);
    Tally {
        accepted: u64::from(accepted),
        refused: u64::from(!accepted),
        earlier: 0,
        clocks: clock.zip(clock),
    }
}

fn count<T>(of: impl Iterator<Item = T>) -> u64 {
    of.count() as u64
}

/// All that is printed for a trace: its lines, and the total.
pub fn report(table: &[u8], trace: &[u8]) -> String {
    let mut report: String = lines(table, trace)
        .map(|line| format!("{line}\n"))
        .collect();
    report += &format!("{}\n", tally(table, trace));
    report
}

/// The total of one trace after another, from the totals of both; none if a
/// count would exceed 64 bits.
pub fn merge(first: &Tally, second: &Tally) -> Option<Tally> {
    let (between, clocks) = match (first.clocks, second.clocks) {
        (Some((start, before)), Some((after, end))) => (after < before, Some((start, end))),
        (one, other) => (false, one.or(other)),
    };
    Some(Tally {
        accepted: first.accepted.checked_add(second.accepted)?,
        refused: first.refused.checked_add(second.refused)?,
        earlier: first
            .earlier
            .checked_add(second.earlier)?
            .checked_add(u64::from(between))?,
        clocks,
    })
}

#[cfg(test)]
mod tests {
    use super::*;

    /// The bench's now, (5,3,7).
    const NOW: u64 = 1_880_280_000_000_000;

    /// An L2 step.
    const STEP: u64 = 360_000_000_000;

    /// A table of one row, all zeros.
    const ONE_ROW: [u8; 32] = [0; 32];

    /// Byte 8 for seed rights, public rights and no rights, verdict yes, no root.
    const SEED: u8 = 0x50;
    const PUBLIC: u8 = 0x30;
    const NONE: u8 = 0x10;

    /// Byte 8 with a spare bit.
    const SPARE: u8 = 0x51;

    /// A record with zeros for the root.
    fn record(clock: u64, byte_8: u8, l0: i32, l1: i32, l2: i32) -> [u8; 37] {
        let mut record = [0; 37];
        record[..8].copy_from_slice(&clock.to_be_bytes());
        record[8] = byte_8;
        for (at, index) in [(9, l0), (13, l1), (17, l2)] {
            record[at..at + 4].copy_from_slice(&index.to_be_bytes());
        }
        record
    }

    fn latest(clock: u64, byte_8: u8) -> [u8; 37] {
        record(clock, byte_8, -1, -1, -1)
    }

    #[test]
    fn the_papers_sample() {
        let trace = [
            latest(NOW, SEED),
            latest(NOW, PUBLIC),
            record(NOW, SEED, 5, 3, 8),
        ]
        .concat();
        assert_eq!(
            report(&ONE_ROW, &trace),
            "1 5 3 7 BOTH ROW 0\n2 5 3 7 PUBLIC ROW 0\n3 REFUSED 17\nTOTAL 2 1 0\n"
        );
    }

    #[test]
    fn an_empty_trace() {
        assert_eq!(report(&ONE_ROW, &[]), "TOTAL 0 0 0\n");
        assert_eq!(report(&[], &[]), "TOTAL 0 0 0\n");
    }

    #[test]
    fn create_stands_in_place_of_the_row() {
        let trace = [latest(NOW, SEED), latest(NOW, SEED), latest(NOW, PUBLIC)].concat();
        assert_eq!(
            report(&[], &trace),
            "1 5 3 7 BOTH CREATE\n2 5 3 7 BOTH CREATE\n3 5 3 7 PUBLIC CREATE\nTOTAL 3 0 0\n"
        );
    }

    #[test]
    fn each_form_and_a_later_row() {
        // Two rows, the second with the root of all 0xFF, in use from (0,0,1) on.
        let mut table = [0; 64];
        table[32..48].fill(0xFF);
        table[48..56].copy_from_slice(&STEP.to_be_bytes());
        // Root given, and (4,2,2) asked for at (5,3,7).
        let mut given = record(NOW, SEED | 0x80, 4, 2, 2);
        given[21..].fill(0xFF);
        let trace = [record(NOW, SEED, 4, 0, 2), given, latest(NOW, PUBLIC)].concat();
        assert_eq!(
            report(&table, &trace),
            "1 4 0 2 L2ONLY ROW 0\n2 4 31 31 L1ONLY ROW 1\n3 5 3 7 PUBLIC ROW 1\nTOTAL 3 0 0\n"
        );
    }

    #[test]
    fn a_part_at_the_end() {
        let whole = latest(NOW, SEED);
        for length in 1..37 {
            let trace = [&whole[..], &whole[..length]].concat();
            assert_eq!(
                report(&ONE_ROW, &trace),
                "1 5 3 7 BOTH ROW 0\n2 REFUSED 26\nTOTAL 1 1 0\n"
            );
            assert_eq!(
                report(&ONE_ROW, &whole[..length]),
                "1 REFUSED 26\nTOTAL 0 1 0\n"
            );
        }
    }

    #[test]
    fn a_spare_bit_comes_before_the_verdict() {
        let trace = [latest(NOW, 0x41), latest(NOW, 0x40)].concat();
        assert_eq!(
            report(&ONE_ROW, &trace),
            "1 REFUSED 26\n2 REFUSED 16\nTOTAL 0 2 0\n"
        );
    }

    #[test]
    fn a_broken_table_is_judged_per_record() {
        let trace = [
            latest(NOW, 0x40),
            record(NOW, SEED, 0, 0, 32),
            record(NOW, SEED, 0, -1, 0),
            record(NOW, SEED, 5, 3, 8),
            latest(NOW, NONE),
            latest(NOW, SEED),
            latest(NOW, SPARE),
        ]
        .concat();
        let numbers: Vec<u32> = lines(&[0; 33], &trace)
            .map(|line| line.answer.unwrap_err())
            .collect();
        assert_eq!(numbers, [16, 14, 15, 17, 18, 20, 26]);
    }

    fn earlier(records: &[[u8; 37]]) -> u64 {
        tally(&ONE_ROW, &records.concat()).earlier
    }

    #[test]
    fn clocks_that_go_back() {
        let at = |clock| latest(clock, SEED);
        assert_eq!(earlier(&[at(9), at(8), at(8), at(9), at(0), at(1)]), 2);
        // Records with another number than 26 count on both sides.
        assert_eq!(earlier(&[at(9), latest(8, 0x40), at(7)]), 2);
        // Records with 26 count on neither: 9, then 8; 9, then 10.
        assert_eq!(earlier(&[at(9), latest(0, SPARE), at(8)]), 1);
        assert_eq!(earlier(&[at(9), latest(20, SPARE), at(10)]), 0);
        assert_eq!(earlier(&[latest(9, SPARE), at(8)]), 0);
        assert_eq!(earlier(&[at(9), latest(8, SPARE)]), 0);
        // Clocks compare unsigned.
        assert_eq!(earlier(&[at(1), at(1 << 63)]), 0);
        assert_eq!(earlier(&[at(1 << 63), at(1)]), 1);
    }

    #[test]
    fn clocks_of_a_tally() {
        let clocks = |records: &[[u8; 37]]| tally(&ONE_ROW, &records.concat()).clocks;
        assert_eq!(clocks(&[]), None);
        assert_eq!(clocks(&[latest(5, SPARE)]), None);
        let middle = [latest(5, SPARE), latest(6, SEED), latest(7, 0x40)];
        assert_eq!(clocks(&middle), Some((6, 7)));
        assert_eq!(clocks(&[latest(6, SEED), latest(1, SPARE)]), Some((6, 6)));
    }

    #[test]
    fn a_total_of_two_parts() {
        let trace = [
            latest(9, SPARE),
            latest(9, SEED),
            latest(8, 0x40),
            latest(3, SPARE),
            latest(7, SEED),
            latest(7, SEED),
            latest(6, NONE),
            latest(10, SEED),
            latest(0, SPARE),
        ]
        .concat();
        let whole = tally(&ONE_ROW, &trace);
        // 9 to 8, 8 to 7, 7 to 6.
        assert_eq!(
            whole,
            Tally {
                accepted: 4,
                refused: 5,
                earlier: 3,
                clocks: Some((9, 10)),
            }
        );
        let one_by_one = records(&trace)
            .map(|record| tally_of_one(&ONE_ROW, record))
            .try_fold(Tally::default(), |so_far, one| merge(&so_far, &one));
        assert_eq!(one_by_one, Some(whole));
        for first in (0..=trace.len()).step_by(37) {
            for second in (first..=trace.len()).step_by(37) {
                let a = tally(&ONE_ROW, &trace[..first]);
                let b = tally(&ONE_ROW, &trace[first..second]);
                let c = tally(&ONE_ROW, &trace[second..]);
                let left = merge(&merge(&a, &b).unwrap(), &c);
                let right = merge(&a, &merge(&b, &c).unwrap());
                assert_eq!((left, right), (Some(whole), Some(whole)));
            }
        }
    }

    #[test]
    fn a_sum_past_64_bits() {
        let none = Tally::default();
        let most = |accepted, refused, earlier| Tally {
            accepted,
            refused,
            earlier,
            clocks: Some((5, 5)),
        };
        let full = most(u64::MAX, u64::MAX, u64::MAX);
        assert_eq!(merge(&full, &none), Some(full));
        assert_eq!(merge(&none, &full), Some(full));
        for one in [most(1, 0, 0), most(0, 1, 0), most(0, 0, 1)] {
            assert_eq!(merge(&full, &one), None);
            assert_eq!(merge(&one, &full), None);
        }
        // The clock goes back between the two, and that alone is one too many.
        let back = Tally {
            clocks: Some((4, 4)),
            ..none
        };
        assert_eq!(merge(&most(0, 0, u64::MAX), &back), None);
        assert_eq!(
            merge(&most(0, 0, u64::MAX - 1), &back).unwrap().earlier,
            u64::MAX
        );
    }
}
