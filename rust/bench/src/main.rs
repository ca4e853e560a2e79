//! Measures the built library against the reference: each operation on the same inputs in the same run, and how it grows with
//! the input's size. `bench` times them and prints two tables; `bench count` is for `scripts/count`, which counts instructions.
//! Beside a replay stands `plain` in place of the reference, which reads records bit by bit.

mod count;
mod face;
mod operations;
mod records;
mod sides;
mod time;

use operations::{
    choose, decide, decide_by_verdict, descriptor_check, efskey_read, efskey_write, entry_read,
    entry_write, envelope_reach, envelope_read, envelope_write, form_reach, identifier_older,
    identifier_start, list_judge, list_walk, replay, replay_step, replay_total, segment_read,
    segment_size, segment_write, tally_merge, time_identifier, trace_read, Asked, Output,
};
use records::{self as make, Letters};
use sides::{Meter, Row, Series};

fn row<F>(operation: &'static str, input: &str, found: F) -> Row<F> {
    Row {
        operation,
        input: input.to_string(),
        found,
    }
}

/// An envelope with four texts of `units` units, all ASCII.
fn envelope(units: usize) -> Vec<u8> {
    make::envelope(&make::bodies(Letters::Ascii, units))
}

/// The same with pairs of surrogates.
fn pairs(units: usize) -> Vec<u8> {
    make::envelope(&make::bodies(Letters::Pairs, units))
}

/// A sound envelope of pairs but for the first unit of its first text, a low surrogate, which is refused 24.
fn half_a_pair(units: usize) -> Vec<u8> {
    make::with(pairs(units), 80, 0xDD11_DD11)
}

/// A sound envelope but for the first unit of its first text, which is zero and refused 10.
fn zero_unit(units: usize) -> Vec<u8> {
    make::with(envelope(units), 80, 0x0061_0000)
}

/// A sound segment but for its chunk shift, which is refused 25: the number at 20 has two zeros and the first two shifts.
fn wrong_shifts(blocks: usize) -> Vec<u8> {
    make::with(make::segment(blocks), 20, 0x0F10_0000)
}

/// A sound envelope but for its mark, which is refused 4.
fn wrong_mark(units: usize) -> Vec<u8> {
    make::with(envelope(units), 4, 0)
}

/// A public envelope at L2 index 31, with a public key of 128 bytes in place of the two seed keys.
fn public_at_31(units: usize) -> Vec<u8> {
    [(8, 1), (20, 31), (60, 128), (64, 0), (68, 128)]
        .into_iter()
        .fold(envelope(units), |envelope, (at, number)| {
            make::with(envelope, at, number)
        })
}

/// The most zeros that an EfsKey has for a SID, beside a certificate of one byte.
const MOST_ZEROS: usize = 65_502;

fn operations<F>(meter: Meter<F>) -> Vec<Row<F>> {
    let entry = || make::entry(28, 256);
    let efskey = || make::efskey(&make::SID, 512);
    vec![
        row("entry read", "304 bytes", entry_read(meter, 0, &entry())),
        row(
            "entry read",
            "304 bytes, wrong Length",
            entry_read(meter, 3, &make::with(entry(), 0, 303)),
        ),
        row(
            "entry write",
            "304 bytes, output kept",
            entry_write(meter, 28, 256, Output::Kept),
        ),
        row(
            "entry write",
            "304 bytes, output cleared",
            entry_write(meter, 28, 256, Output::Cleared),
        ),
        row(
            "list judge",
            "100 entries",
            list_judge(meter, 0, &make::list(100)),
        ),
        row(
            "list judge",
            "3 bytes, too short",
            list_judge(meter, 2, &[0; 3]),
        ),
        row(
            "list walk",
            "100 entries",
            list_walk(meter, &make::list(100)),
        ),
        row("EfsKey read", "572 bytes", efskey_read(meter, 0, &efskey())),
        row(
            "EfsKey read",
            "572 bytes, wrong Reserved1",
            efskey_read(meter, 4, &make::with(efskey(), 12, 0)),
        ),
        row(
            "EfsKey read",
            "572 bytes, 28 zeros",
            efskey_read(meter, 0, &make::efskey(&[0; 28], 512)),
        ),
        row(
            "EfsKey read",
            "65,535 bytes, 65,502 zeros",
            efskey_read(meter, 0, &make::efskey(&[0; MOST_ZEROS], 1)),
        ),
        row(
            "EfsKey write",
            "572 bytes, output kept",
            efskey_write(meter, &make::SID, 512, Output::Kept),
        ),
        row(
            "EfsKey write",
            "572 bytes, output cleared",
            efskey_write(meter, &make::SID, 512, Output::Cleared),
        ),
        row(
            "EfsKey write",
            "572 bytes, 28 zeros, output kept",
            efskey_write(meter, &[0; 28], 512, Output::Kept),
        ),
        row(
            "EfsKey write",
            "65,535 bytes, 65,502 zeros, output kept",
            efskey_write(meter, &[0; MOST_ZEROS], 1, Output::Kept),
        ),
        row(
            "segment read",
            "16 blocks",
            segment_read(meter, 0, &make::segment(16)),
        ),
        row(
            "segment read",
            "16 blocks, wrong shifts",
            segment_read(meter, 25, &wrong_shifts(16)),
        ),
        row(
            "segment size",
            "the last of 16,376 blocks",
            segment_size(meter, 16_376),
        ),
        row(
            "segment write",
            "16 blocks, output kept",
            segment_write(meter, 16, Output::Kept),
        ),
        row(
            "segment write",
            "16 blocks, output cleared",
            segment_write(meter, 16, Output::Cleared),
        ),
        row(
            "envelope read",
            "368 bytes",
            envelope_read(meter, 0, &envelope(20)),
        ),
        row(
            "envelope read",
            "368 bytes, public at L2 index 31",
            envelope_read(meter, 0, &public_at_31(20)),
        ),
        row(
            "envelope read",
            "368 bytes, all pairs",
            envelope_read(meter, 0, &pairs(20)),
        ),
        row(
            "envelope read",
            "368 bytes, half a pair first",
            envelope_read(meter, 24, &half_a_pair(20)),
        ),
        row(
            "envelope read",
            "8208 bytes, a zero unit first",
            envelope_read(meter, 10, &zero_unit(1_000)),
        ),
        row(
            "envelope read",
            "368 bytes, wrong mark",
            envelope_read(meter, 4, &wrong_mark(20)),
        ),
        row(
            "envelope write",
            "368 bytes, output kept",
            envelope_write(meter, 20, Output::Kept),
        ),
        row(
            "envelope write",
            "368 bytes, output cleared",
            envelope_write(meter, 20, Output::Cleared),
        ),
        row(
            "envelope reach",
            "368 bytes",
            envelope_reach(meter, 0, &envelope(20)),
        ),
        row("form reach", "BOTH at (5, 3, 7)", form_reach(meter)),
        row("time to identifier", "(5, 3, 7)", time_identifier(meter)),
        row("start", "(5, 3, 7)", identifier_start(meter)),
        row("older", "(5, 3, 7)", identifier_older(meter)),
        row(
            "descriptor check",
            "20 bytes, the least",
            descriptor_check(meter, 0, &make::descriptor()),
        ),
        row(
            "descriptor check",
            "20 bytes, wrong revision",
            descriptor_check(meter, 1, &make::with(make::descriptor(), 0, 0x8000_0002)),
        ),
        row(
            "descriptor check",
            "two ACLs of 100 entries",
            descriptor_check(meter, 0, &make::two_acls(100)),
        ),
        row(
            "descriptor check",
            "65,535 bytes, 16,376 entries twice",
            descriptor_check(meter, 0, &make::most_entries()),
        ),
        row(
            "decision",
            "root given, 8 rows",
            decide(meter, &make::descriptor(), Asked::Root, 8),
        ),
        row(
            "decision",
            "latest, 8 rows",
            decide(meter, &make::descriptor(), Asked::Latest, 8),
        ),
        row(
            "decision",
            "named, 8 rows",
            decide(meter, &make::descriptor(), Asked::Named, 8),
        ),
        row(
            "decision",
            "named, 8 rows, two ACLs of 100 entries",
            decide(meter, &make::two_acls(100), Asked::Named, 8),
        ),
        row(
            "decision by verdict",
            "root given, 8 rows",
            decide_by_verdict(meter, Asked::Root, 8),
        ),
        row(
            "decision by verdict",
            "latest, 8 rows",
            decide_by_verdict(meter, Asked::Latest, 8),
        ),
        row(
            "decision by verdict",
            "named, 8 rows",
            decide_by_verdict(meter, Asked::Named, 8),
        ),
        row(
            "trace read",
            "a root given",
            trace_read(meter, 0, &make::recorded()),
        ),
        row(
            "trace read",
            "a spare bit",
            trace_read(meter, 26, &make::spare_bit()),
        ),
        row(
            "replay step",
            "root given, 8 rows",
            replay_step(meter, 0, &make::recorded(), 8),
        ),
        row(
            "replay step",
            "a spare bit, 8 rows",
            replay_step(meter, 26, &make::spare_bit(), 8),
        ),
        row("replay", "1,000 records, 8 rows", replay(meter, 1_000)),
        row(
            "replay total",
            "25 bytes, output kept",
            replay_total(meter, Output::Kept),
        ),
        row(
            "replay total",
            "25 bytes, output cleared",
            replay_total(meter, Output::Cleared),
        ),
        row(
            "tally merge",
            "a clock earlier between",
            tally_merge(meter, false),
        ),
        row(
            "tally merge",
            "a sum that would not fit",
            tally_merge(meter, true),
        ),
        row(
            "choice",
            "88 and 368 bytes",
            choose(meter, &envelope(1), &envelope(20)),
        ),
    ]
}

/// The rows of one operation at growing sizes, each with its size in this unit; one of them is taken for 1.
fn series<F>(
    operation: &'static str,
    unit: &str,
    one: usize,
    sizes: &[usize],
    at: impl Fn(usize) -> (usize, F),
) -> Series<F> {
    let rows = sizes.iter().map(|&size| {
        let (size, found) = at(size);
        (size, row(operation, &format!("{size} {unit}"), found))
    });
    Series {
        rows: rows.collect(),
        one,
    }
}

/// Numbers of entries, up to the longest list that is accepted.
const COUNTS: [usize; 5] = [1, 10, 100, 1_000, 2_621];

/// Numbers of zeros in a SID's place.
const ZEROS: [usize; 4] = [1, 28, 1_024, MOST_ZEROS];

/// Numbers of data blocks, up to the longest segment that is accepted.
const BLOCKS: [usize; 4] = [0, 16, 1_024, 16_376];

/// Units of the four texts, up to an envelope of 65,528 bytes.
const UNITS: [usize; 5] = [1, 10, 100, 1_000, 8_165];

/// Numbers of entries of a DACL, up to the most that a descriptor has.
const ENTRIES: [usize; 5] = [1, 10, 100, 1_000, 16_376];

const ROWS: [usize; 4] = [0, 1, 8, 64];

/// Numbers of a chunk's records.
const RECORDS: [usize; 3] = [10, 100, 1_000];

fn growth<F>(meter: Meter<F>) -> Vec<Series<F>> {
    let len = |units| envelope(units).len();
    vec![
        series("list judge", "entries", 0, &COUNTS, |count| {
            (count, list_judge(meter, 0, &make::list(count)))
        }),
        series("list judge, refused 1", "entries", 0, &[3_000], |count| {
            (count, list_judge(meter, 1, &make::list(count)))
        }),
        series("list walk", "entries", 0, &COUNTS, |count| {
            (count, list_walk(meter, &make::list(count)))
        }),
        series("EfsKey read, no hint", "zeros", 1, &ZEROS, |zeros| {
            let key = make::efskey(&vec![0; zeros], 1);
            (zeros, efskey_read(meter, 0, &key))
        }),
        series("segment read", "blocks", 1, &BLOCKS, |blocks| {
            (blocks, segment_read(meter, 0, &make::segment(blocks)))
        }),
        series(
            "segment write, output kept",
            "blocks",
            1,
            &BLOCKS,
            |blocks| (blocks, segment_write(meter, blocks, Output::Kept)),
        ),
        series("envelope read", "bytes", 0, &UNITS, |units| {
            (len(units), envelope_read(meter, 0, &envelope(units)))
        }),
        series(
            "envelope read, all pairs",
            "bytes",
            0,
            &UNITS[1..],
            |units| (len(units), envelope_read(meter, 0, &pairs(units))),
        ),
        series("envelope read, wrong mark", "bytes", 0, &UNITS, |units| {
            (len(units), envelope_read(meter, 4, &wrong_mark(units)))
        }),
        series("envelope write, output kept", "bytes", 0, &UNITS, |units| {
            (len(units), envelope_write(meter, units, Output::Kept))
        }),
        series("envelope reach", "bytes", 0, &UNITS, |units| {
            (len(units), envelope_reach(meter, 0, &envelope(units)))
        }),
        series("descriptor check", "entries", 0, &ENTRIES, |count| {
            (count, descriptor_check(meter, 0, &make::dacl(count)))
        }),
        series("decision by verdict, latest", "rows", 1, &ROWS, |rows| {
            (rows, decide_by_verdict(meter, Asked::Latest, rows))
        }),
        series("decision by verdict, named", "rows", 1, &ROWS, |rows| {
            (rows, decide_by_verdict(meter, Asked::Named, rows))
        }),
        series(
            "decision by verdict, root given",
            "rows",
            1,
            &ROWS,
            |rows| (rows, decide_by_verdict(meter, Asked::Root, rows)),
        ),
        series("replay", "records", 0, &RECORDS, |records| {
            (records, replay(meter, records))
        }),
    ]
}

fn main() {
    match std::env::args().nth(1).as_deref() {
        None => time::print(&operations(time::measure), &growth(time::measure)),
        Some("count") => count::print(&operations(count::measure), &growth(count::measure)),
        Some(_) => {
            eprintln!("usage: bench [count]");
            std::process::exit(2)
        }
    }
}
