//! Traces of a few records, with every byte that is printed for them worked out by hand; cut, lent little room, counted up to
//! the end of 64 bits, and replayed in parts.

use gishwarem::raw::{self, codes};
use gishwarem::{
    Chunk, FileTime, Line, Progress, Recorded, Refusal, Replay, Request, Rights, Stopped, Tally,
};

/// The reading of (5, 3, 7).
const NOW: u64 = 1_880_280_000_000_000;

/// A table of one row.
const ONE_ROW: [u8; 32] = [0; 32];

/// The flags of a record with the verdict yes and no root, by the rights.
const SEED: u8 = 0b0101_0000;
const PUBLIC: u8 = 0b0011_0000;
const NONE: u8 = 0b0001_0000;

/// Seed rights and the verdict no.
const DENIED: u8 = 0b0100_0000;

/// Seed rights, the verdict yes, and the last spare bit.
const SPARE: u8 = 0b0101_0001;

type Record = [u8; Recorded::LEN];

/// A record without a root.
fn record(clock: u64, flags: u8, indices: [i32; 3]) -> Record {
    let mut record = [0; Recorded::LEN];
    record[..8].copy_from_slice(&clock.to_be_bytes());
    record[8] = flags;
    for (at, index) in [9, 13, 17].into_iter().zip(indices) {
        record[at..at + 4].copy_from_slice(&index.to_be_bytes());
    }
    record
}

/// A record that asks for the latest.
fn latest(clock: u64, flags: u8) -> Record {
    record(clock, flags, [-1; 3])
}

/// The paper's sample, and what is printed for it.
fn sample() -> Vec<u8> {
    let records = [
        latest(NOW, SEED),
        latest(NOW, PUBLIC),
        record(NOW, SEED, [5, 3, 8]),
    ];
    records.concat()
}

const SAMPLE: &str = "1 5 3 7 BOTH ROW 0\n2 5 3 7 PUBLIC ROW 0\n3 REFUSED 17\nTOTAL 2 1 0\n";

/// Five records and 20 bytes of a sixth, and what is printed for them: the clock goes back from the first to the second, and
/// from there, behind a record that is malformed, to the fourth.
fn five() -> Vec<u8> {
    let records = [
        latest(NOW, SEED),
        record(NOW - 1, SEED, [4, 0, 2]),
        latest(NOW, SPARE),
        latest(0, DENIED),
        record(u64::MAX, NONE, [50_039, 31, 27]),
    ];
    [&records.concat()[..], &[0; 20]].concat()
}

const FIVE: &str =
    "1 5 3 7 BOTH ROW 0\n2 4 0 2 L2ONLY ROW 0\n3 REFUSED 26\n4 REFUSED 16\n5 REFUSED 18\n\
                    6 REFUSED 26\nTOTAL 2 4 2\n";

/// The total's line, as the library writes it.
fn total(tally: Tally) -> String {
    let mut out = [b'.'; Replay::LINE];
    let length = tally.write(&mut out).expect("a line has room");
    assert!(out[length..].iter().all(|&byte| byte == b'.'));
    String::from_utf8(out[..length].to_vec()).expect("a line is text")
}

/// What is printed for a trace, replayed in one chunk.
fn by_chunk(table: &[u8], trace: &[u8]) -> String {
    let mut out = vec![b'.'; (trace.len() / Recorded::LEN + 1) * Replay::LINE];
    let mut replay = Replay::new();
    let progress = replay.chunk(table, trace, Chunk::Ends, &mut out);
    assert_eq!(progress.stopped, Stopped::Records);
    assert_eq!(progress.used, trace.len());
    assert!(out[progress.written..].iter().all(|&byte| byte == b'.'));
    let lines = String::from_utf8(out[..progress.written].to_vec()).expect("lines are text");
    lines + &total(replay.tally)
}

/// The same by the lines as they show.
fn by_lines(table: &[u8], trace: &[u8]) -> String {
    let mut lines = Replay::new().lines(table, trace);
    let mut text: String = lines.by_ref().map(|line| format!("{line}\n")).collect();
    assert!(lines.next().is_none() && lines.rest().is_empty());
    text += &format!("{}\n", lines.tally());
    text
}

/// The same record by record.
fn by_steps(table: &[u8], trace: &[u8]) -> String {
    let mut replay = Replay::new();
    let mut text = String::new();
    for record in trace.chunks(Recorded::LEN) {
        let line = replay.step(table, record).expect("no count is full");
        text += &format!("{line}\n");
    }
    text + &total(replay.tally)
}

/// What is printed for a trace, each way.
fn replayed(table: &[u8], trace: &[u8]) -> String {
    let text = by_chunk(table, trace);
    assert_eq!(text, by_lines(table, trace));
    assert_eq!(text, by_steps(table, trace));
    text
}

#[test]
fn the_papers_sample() {
    assert_eq!(replayed(&ONE_ROW, &sample()), SAMPLE);
}

#[test]
fn five_records_and_a_part() {
    assert_eq!(replayed(&ONE_ROW, &five()), FIVE);
}

#[test]
fn an_empty_trace() {
    assert_eq!(replayed(&ONE_ROW, &[]), "TOTAL 0 0 0\n");
    assert_eq!(replayed(&[], &[]), "TOTAL 0 0 0\n");
    assert_eq!(replayed(&[0; 33], &[]), "TOTAL 0 0 0\n");
}

#[test]
fn an_empty_table_answers_create_each_time() {
    let trace = [latest(NOW, SEED), latest(NOW, PUBLIC), latest(0, SEED)].concat();
    assert_eq!(
        replayed(&[], &trace),
        "1 5 3 7 BOTH CREATE\n2 5 3 7 PUBLIC CREATE\n3 0 0 0 L2ONLY CREATE\nTOTAL 3 0 1\n"
    );
}

#[test]
fn the_longest_line_of_a_whole_table() {
    // 64 rows; the last one has the root key of ones, and is given for (50038, 0, 0) at the last reading.
    let mut table = [0; 64 * 32];
    table[63 * 32..63 * 32 + 16].fill(0xFF);
    let mut given = record(u64::MAX, SEED | 0b1000_0000, [50_038, 0, 0]);
    given[21..].fill(0xFF);
    let mut replay = Replay::from_line(u64::MAX - 1);
    let mut out = [b'.'; Replay::LINE];
    let progress = replay.chunk(&table, &given, Chunk::Ends, &mut out);
    let line = b"18446744073709551614 50038 31 31 L1ONLY ROW 63\n";
    assert_eq!(&out[..progress.written], line);
    assert_eq!(replay.next, u64::MAX);
}

#[test]
fn a_broken_table_is_judged_record_by_record() {
    let trace = [
        latest(NOW, DENIED),
        record(NOW, SEED, [0, 0, 32]),
        record(NOW, SEED, [0, -1, 0]),
        record(NOW, SEED, [5, 3, 8]),
        latest(NOW, NONE),
        latest(NOW, SEED),
        latest(NOW, SPARE),
    ];
    let lines = "1 REFUSED 16\n2 REFUSED 14\n3 REFUSED 15\n4 REFUSED 17\n5 REFUSED 18\n6 REFUSED 20\n7 REFUSED 26\n";
    for length in [1, 31, 33, 65 * 32] {
        let table = vec![0; length];
        let text = replayed(&table, &trace.concat());
        assert_eq!(text, format!("{lines}TOTAL 0 7 0\n"), "{length} bytes");
    }
}

#[test]
fn a_root_of_zeros_is_a_root() {
    let given = latest(NOW, SEED | 0b1000_0000);
    assert_eq!(
        replayed(&ONE_ROW, &given),
        "1 5 3 7 BOTH ROW 0\nTOTAL 1 0 0\n"
    );
    assert_eq!(replayed(&[7; 32], &given), "1 REFUSED 19\nTOTAL 0 1 0\n");
}

/// Malformed whatever the decision would say: each spare bit, rights 3, and each bit of a root key while none is given.
#[test]
fn each_malformed_record_has_its_line() {
    let mut malformed = vec![];
    for flags in [SEED, DENIED] {
        malformed.extend((0..4).map(|bit| latest(NOW, flags | 1 << bit)));
        malformed.push(latest(NOW, flags | 0b0110_0000));
        for (at, bit) in (21..37).flat_map(|at| (0..8).map(move |bit| (at, bit))) {
            let mut record = latest(NOW, flags);
            record[at] = 1 << bit;
            malformed.push(record);
        }
    }
    assert_eq!(malformed.len(), 2 * (4 + 1 + 128));
    for record in malformed {
        for table in [&ONE_ROW[..], &[], &[0; 33]] {
            let text = replayed(table, &record);
            assert_eq!(text, "1 REFUSED 26\nTOTAL 0 1 0\n", "{record:?}");
        }
    }
}

#[test]
fn a_part_of_each_length_is_one_line() {
    let whole = latest(NOW, SEED);
    for length in 1..37 {
        let trace = [&whole[..], &whole[..length]].concat();
        assert_eq!(
            replayed(&ONE_ROW, &trace),
            "1 5 3 7 BOTH ROW 0\n2 REFUSED 26\nTOTAL 1 1 0\n"
        );
    }
}

/// How often the clock goes back in these records.
fn earlier(records: &[Record]) -> u64 {
    let mut lines = Replay::new().lines(&ONE_ROW, records.as_flattened());
    assert_eq!(lines.by_ref().count(), records.len());
    lines.tally().earlier
}

#[test]
fn a_clock_is_compared_with_the_one_before() {
    let at = |clock| latest(clock, SEED);
    assert_eq!(earlier(&[at(9), at(9)]), 0);
    assert_eq!(earlier(&[at(9), at(8), at(8), at(9), at(0), at(1)]), 2);
    assert_eq!(earlier(&[at(1), at(1 << 63)]), 0);
    assert_eq!(earlier(&[at(1 << 63), at(1)]), 1);

    // Refused with another number, a record has a clock.
    assert_eq!(earlier(&[at(9), latest(8, DENIED), at(7)]), 2);

    // Malformed, it has none: from 9 to 8, and from 9 to 10.
    assert_eq!(earlier(&[at(9), latest(0, SPARE), at(8)]), 1);
    assert_eq!(
        earlier(&[at(9), latest(0, SPARE), latest(20, SPARE), at(10)]),
        0
    );
    assert_eq!(earlier(&[latest(9, SPARE), at(8)]), 0);
    assert_eq!(earlier(&[at(9), latest(8, SPARE)]), 0);
}

/// Cut in two at every byte, with the bytes that the first chunk leaves carried over to the second.
#[test]
fn two_chunks_are_one_trace() {
    let trace = five();
    for cut in 0..=trace.len() {
        let mut out = [b'.'; 7 * Replay::LINE];
        let mut replay = Replay::new();
        let first = replay.chunk(&ONE_ROW, &trace[..cut], Chunk::GoesOn, &mut out);
        assert_eq!(first.stopped, Stopped::Records);
        assert_eq!(first.used, cut - cut % Recorded::LEN);
        assert_eq!(replay.next, (cut / Recorded::LEN) as u64 + 1);

        let rest = &trace[first.used..];
        let second = replay.chunk(&ONE_ROW, rest, Chunk::Ends, &mut out[first.written..]);
        let progress = Progress {
            stopped: Stopped::Records,
            used: rest.len(),
            written: second.written,
        };
        assert_eq!(second, progress);
        let lines = String::from_utf8_lossy(&out[..first.written + second.written]).into_owned();
        assert_eq!(lines + &total(replay.tally), FIVE, "cut at {cut}");
    }
}

#[test]
fn a_chunk_that_goes_on_leaves_a_part() {
    let trace = [&latest(NOW, SEED)[..], &[0xFF; 36]].concat();
    let mut replay = Replay::new();
    let mut out = [b'.'; 2 * Replay::LINE];
    let progress = replay.chunk(&ONE_ROW, &trace, Chunk::GoesOn, &mut out);
    assert_eq!((progress.used, replay.next), (37, 2));
    assert_eq!(&out[..20], b"1 5 3 7 BOTH ROW 0\n.");

    // No room is asked for a part that is left, nor at the end.
    for (chunk, ends) in [
        (&trace[37..], Chunk::GoesOn),
        (&[][..], Chunk::GoesOn),
        (&[][..], Chunk::Ends),
    ] {
        let progress = replay.chunk(&ONE_ROW, chunk, ends, &mut []);
        let nothing = Progress {
            stopped: Stopped::Records,
            used: 0,
            written: 0,
        };
        assert_eq!(progress, nothing);
        assert_eq!(replay.next, 2);
    }
}

/// With every room up to that of a few lines: a line is written where 128 bytes are left, and no byte behind it changes.
#[test]
fn lines_are_written_as_far_as_there_is_room() {
    let trace = five();
    let lines: Vec<&str> = FIVE.split_inclusive('\n').take(6).collect();
    for room in 0..300 {
        let mut due = (0, String::new());
        for line in &lines {
            if room - due.1.len() >= Replay::LINE {
                due = (due.0 + 1, due.1 + line);
            }
        }
        let (count, text) = due;
        let mut out = [0xEE; 512];
        let mut replay = Replay::new();
        let progress = replay.chunk(&ONE_ROW, &trace, Chunk::Ends, &mut out[..room]);
        let stopped = if count < 6 {
            Stopped::Room
        } else {
            Stopped::Records
        };
        let used = (count * Recorded::LEN).min(trace.len());
        let written = text.len();
        let expected = Progress {
            stopped,
            used,
            written,
        };
        assert_eq!(progress, expected, "{room} bytes of room");
        assert_eq!(&out[..written], text.as_bytes(), "{room} bytes of room");
        assert!(out[written..].iter().all(|&byte| byte == 0xEE));
        assert_eq!(replay.next, count as u64 + 1);
    }
}

#[test]
fn the_least_room_replays_a_trace_line_by_line() {
    let trace = five();
    let mut replay = Replay::new();
    let (mut at, mut text) = (0, String::new());
    while at < trace.len() {
        let mut out = [b'.'; Replay::LINE];
        let progress = replay.chunk(&ONE_ROW, &trace[at..], Chunk::Ends, &mut out);
        assert!(progress.used > 0, "there is room for a line");
        text += &String::from_utf8_lossy(&out[..progress.written]);
        at += progress.used;
    }
    assert_eq!(text + &total(replay.tally), FIVE);
}

#[test]
fn a_total_is_written_where_it_fits() {
    let most = Tally {
        accepted: u64::MAX,
        refused: u64::MAX,
        earlier: u64::MAX,
        clocks: None,
    };
    let line = "TOTAL 18446744073709551615 18446744073709551615 18446744073709551615\n";
    assert_eq!((most.to_string() + "\n", line.len()), (line.into(), 69));
    for room in 0..80 {
        let mut out = [0xEE; 80];
        let answer = most.write(&mut out[..room]);
        let length = if room < 69 { 0 } else { 69 };
        let expected = if room < 69 {
            Err(Refusal::NoRoom)
        } else {
            Ok(69)
        };
        assert_eq!(answer, expected, "{room} bytes of room");
        assert_eq!(&out[..length], &line.as_bytes()[..length]);
        assert!(out[length..].iter().all(|&byte| byte == 0xEE));
    }
}

/// A replay with these counts, and the clock 9 last.
fn counted(next: u64, accepted: u64, refused: u64, earlier: u64) -> Replay {
    let clocks = Some((FileTime(3), FileTime(9)));
    let tally = Tally {
        accepted,
        refused,
        earlier,
        clocks,
    };
    Replay { next, tally }
}

/// Each count up to the last number that fits, and what would go beyond it.
#[test]
fn a_count_that_would_not_fit_stops_the_replay() {
    const MOST: u64 = u64::MAX;
    let accepted = latest(10, SEED);
    let refused = latest(10, DENIED);
    let malformed = latest(0, SPARE);
    let back = latest(8, SEED);
    for (replay, record, goes_on) in [
        (counted(MOST - 1, 0, 0, 0), accepted, true),
        (counted(MOST, 0, 0, 0), accepted, false),
        (counted(MOST, 0, 0, 0), malformed, false),
        (counted(1, MOST - 1, 0, 0), accepted, true),
        (counted(1, MOST, 0, 0), accepted, false),
        (counted(1, MOST, 0, 0), refused, true),
        (counted(1, MOST, 0, 0), malformed, true),
        (counted(1, 0, MOST - 1, 0), refused, true),
        (counted(1, 0, MOST, 0), refused, false),
        (counted(1, 0, MOST, 0), malformed, false),
        (counted(1, 0, MOST, 0), accepted, true),
        (counted(1, 0, 0, MOST - 1), back, true),
        (counted(1, 0, 0, MOST), back, false),
        (counted(1, 0, 0, MOST), accepted, true),
        (counted(1, 0, 0, MOST), malformed, true),
        (counted(0, 0, 0, 0), accepted, true),
    ] {
        let told = (replay, record);
        let mut stepped = replay;
        let line = stepped.step(&ONE_ROW, &record);
        assert_eq!(
            line.map(|line| line.number),
            goes_on.then_some(replay.next),
            "{told:?}"
        );
        assert_eq!(stepped == replay, !goes_on, "{told:?}");

        let mut lines = replay.lines(&ONE_ROW, &record);
        assert_eq!(lines.next(), line, "{told:?}");
        assert!(lines.next().is_none() && lines.next().is_none());
        assert_eq!(lines.tally(), stepped.tally, "{told:?}");
        assert_eq!(lines.rest().is_empty(), goes_on, "{told:?}");

        let mut chunked = replay;
        let mut out = [b'.'; Replay::LINE];
        let progress = chunked.chunk(&ONE_ROW, &record, Chunk::Ends, &mut out);
        let text = line.map_or(String::new(), |line| format!("{line}\n"));
        let stopped = if goes_on {
            Stopped::Records
        } else {
            Stopped::Full
        };
        assert_eq!(progress.stopped, stopped, "{told:?}");
        assert_eq!(chunked, stepped, "{told:?}");
        assert_eq!(&out[..progress.written], text.as_bytes(), "{told:?}");
        assert!(out[progress.written..].iter().all(|&byte| byte == b'.'));
    }
}

/// No further record comes before no room, and that before a count that would not fit.
#[test]
fn reasons_to_stop_have_an_order() {
    let full = Replay::from_line(u64::MAX);
    let stopped = |chunk: &[u8], room| {
        let mut replay = full;
        let progress = replay.chunk(&ONE_ROW, chunk, Chunk::Ends, &mut vec![0; room]);
        assert_eq!((progress.used, progress.written), (0, 0));
        assert_eq!(replay, full);
        progress.stopped
    };
    assert_eq!(stopped(&[], 0), Stopped::Records);
    assert_eq!(stopped(&[0; 37], 127), Stopped::Room);
    assert_eq!(stopped(&[0; 37], 128), Stopped::Full);
}

/// Before the one that would not fit, the lines of the others are written.
#[test]
fn a_full_count_inside_of_a_chunk() {
    let mut replay = Replay::from_line(u64::MAX - 2);
    let mut out = [b'.'; 4 * Replay::LINE];
    let progress = replay.chunk(&ONE_ROW, &[0xFF; 4 * 37], Chunk::Ends, &mut out);
    let text = b"18446744073709551613 REFUSED 26\n18446744073709551614 REFUSED 26\n";
    assert_eq!(&out[..progress.written], text);
    assert_eq!((progress.stopped, progress.used), (Stopped::Full, 74));
    assert_eq!(replay.tally.to_string(), "TOTAL 0 2 0");
}

/// The tally of records, replayed from this line on.
fn tally_of(records: &[Record], number: u64) -> Tally {
    let mut lines = Replay::from_line(number).lines(&ONE_ROW, records.as_flattened());
    lines.by_ref().for_each(drop);
    lines.tally()
}

#[test]
fn parts_in_every_split_have_the_total_of_the_whole() {
    let records = [
        latest(9, SPARE),
        latest(9, SEED),
        latest(8, DENIED),
        latest(3, SPARE),
        latest(7, SEED),
        latest(7, SEED),
        latest(6, NONE),
        latest(10, SEED),
        latest(0, SPARE),
    ];
    // The clock goes from 9 to 8, from 8 to 7 and from 7 to 6.
    let whole = Tally {
        accepted: 4,
        refused: 5,
        earlier: 3,
        clocks: Some((FileTime(9), FileTime(10))),
    };
    assert_eq!(tally_of(&records, 1), whole);
    for first in 0..=records.len() {
        for second in first..=records.len() {
            let a = tally_of(&records[..first], 1);
            let b = tally_of(&records[first..second], first as u64 + 1);
            let c = tally_of(&records[second..], second as u64 + 1);
            let left = a.merge(b).and_then(|both| both.merge(c));
            let right = b.merge(c).and_then(|both| a.merge(both));
            assert_eq!(left, Some(whole), "{first} and {second}");
            assert_eq!(right, Some(whole), "{first} and {second}");
        }
    }
}

/// A few tallies of each sort: none or some of each count, and each order of the clocks.
fn tallies() -> Vec<Tally> {
    let clocks = [(1, 1), (1, 2), (2, 1), (0, u64::MAX), (u64::MAX, 0)]
        .map(|(first, last)| Some((FileTime(first), FileTime(last))));
    let mut tallies = vec![];
    for clocks in clocks.into_iter().chain([None]) {
        for accepted in [0, u64::MAX - 1] {
            for earlier in [0, 1, u64::MAX - 1] {
                tallies.push(Tally {
                    accepted,
                    refused: 3,
                    earlier,
                    clocks,
                });
            }
        }
    }
    tallies.push(Tally::default());
    tallies
}

#[test]
fn merging_is_associative() {
    let tallies = tallies();
    let (mut merged, mut full) = (0, 0);
    for &a in &tallies {
        for &b in &tallies {
            for &c in &tallies {
                let left = a.merge(b).and_then(|both| both.merge(c));
                let right = b.merge(c).and_then(|both| a.merge(both));
                assert_eq!(left, right, "{a:?} {b:?} {c:?}");
                match left {
                    Some(_) => merged += 1,
                    None => full += 1,
                }
            }
        }
    }
    assert!(merged > 1_000 && full > 1_000, "{merged}, {full}");
}

#[test]
fn a_clock_is_compared_between_the_parts() {
    let tally = |first, last| Tally {
        clocks: Some((FileTime(first), FileTime(last))),
        ..Tally::default()
    };
    for (last, first, earlier) in [
        (9, 8, 1),
        (9, 9, 0),
        (9, 10, 0),
        (1, 1 << 63, 0),
        (1 << 63, 1, 1),
    ] {
        let whole = Tally {
            earlier,
            ..tally(5, 6)
        };
        assert_eq!(tally(5, last).merge(tally(first, 6)), Some(whole));
    }
}

#[test]
fn an_empty_tally_changes_nothing() {
    for tally in tallies() {
        assert_eq!(tally.merge(Tally::default()), Some(tally));
        assert_eq!(Tally::default().merge(tally), Some(tally));
    }
}

#[test]
fn a_sum_that_would_not_fit_is_none() {
    let most = Tally {
        accepted: u64::MAX,
        refused: u64::MAX,
        earlier: u64::MAX,
        clocks: Some((FileTime(5), FileTime(5))),
    };
    let none = Tally::default();
    for one in [
        Tally {
            accepted: 1,
            ..none
        },
        Tally { refused: 1, ..none },
        Tally { earlier: 1, ..none },
    ] {
        assert_eq!((most.merge(one), one.merge(most)), (None, None));
    }

    // The clock goes back between the two, and that is one too many.
    let at = |clock| Tally {
        clocks: Some((FileTime(clock), FileTime(clock))),
        ..none
    };
    assert_eq!(most.merge(at(4)), None);
    assert_eq!(most.merge(at(5)), Some(most));
}

/// The C face: codes that are not listed are the weakest, and what stands beside them is not looked at.
#[test]
fn codes_that_are_not_listed() {
    let odd = raw::Tally {
        accepted: 1,
        first: 7,
        last: 7,
        clocks: 2,
        reserved: 9,
        ..raw::Tally::default()
    };
    let shown = raw::Tally {
        accepted: 1,
        ..raw::Tally::default()
    };
    // SAFETY: values alone.
    let merged = unsafe { raw::gw_tally_merge(odd, raw::Tally::default()) };
    assert_eq!((merged.full, merged.tally), (0, shown));

    // A clock that would be earlier than 7 is the first.
    let state = raw::ReplayState {
        next: 1,
        tally: odd,
    };
    let record = latest(6, SEED);
    let (table, len) = (ONE_ROW.as_ptr(), ONE_ROW.len());
    // SAFETY: each pointer and its length are an array's.
    let line = unsafe { raw::gw_replay_step(state, table, len, record.as_ptr(), record.len()) };
    let behind = raw::Tally {
        accepted: 2,
        first: 6,
        last: 6,
        clocks: codes::CLOCKS_GIVEN,
        ..raw::Tally::default()
    };
    assert_eq!((line.number, line.state.tally), (1, behind));

    // A chunk goes on where it is not told to end.
    for ends in [codes::CHUNK_GOES_ON, 2, 256, u32::MAX] {
        let mut out = [0; Replay::LINE];
        let (start, room) = (out.as_mut_ptr(), out.len());
        let part = record.as_ptr();
        // SAFETY: each pointer and its length are an array's, and the output is borrowed alone.
        let answer = unsafe { raw::gw_replay(start, room, state, table, len, part, 36, ends) };
        assert_eq!((answer.stopped, answer.used), (codes::REPLAY_RECORDS, 0));
        assert_eq!((answer.state.next, answer.state.tally), (1, shown));
    }
}

/// A malformed record, a refused one and one that a count is full for, in the C answer.
#[test]
fn what_stands_beside_a_replayed_record() {
    let step = |state, record: &[u8]| {
        let (table, len) = (ONE_ROW.as_ptr(), ONE_ROW.len());
        // SAFETY: each pointer and its length are a slice's.
        unsafe { raw::gw_replay_step(state, table, len, record.as_ptr(), record.len()) }
    };
    // SAFETY: nothing is handed in.
    let start = unsafe { raw::gw_replay_start() };
    for (record, refusal, clocks) in [
        (latest(5, SPARE), 26, codes::CLOCKS_NONE),
        (latest(5, DENIED), 16, codes::CLOCKS_GIVEN),
    ] {
        let clock = 5 * u64::from(clocks);
        let expected = raw::ReplayLine {
            answer: raw::DecisionAnswer {
                refusal,
                ..raw::DecisionAnswer::default()
            },
            number: 1,
            state: raw::ReplayState {
                next: 2,
                tally: raw::Tally {
                    refused: 1,
                    first: clock,
                    last: clock,
                    clocks,
                    ..raw::Tally::default()
                },
            },
        };
        assert_eq!(step(start, &record), expected);
    }
    let most = raw::Tally {
        accepted: u64::MAX,
        ..raw::Tally::default()
    };
    for (next, tally) in [(u64::MAX, start.tally), (7, most)] {
        let full = raw::ReplayState { next, tally };
        let expected = raw::ReplayLine {
            state: full,
            ..raw::ReplayLine::default()
        };
        assert_eq!(step(full, &latest(5, SEED)), expected);
    }
}

#[test]
fn a_line_is_the_decision_on_its_record() {
    let trace = sample();
    let recorded = Recorded::read(&trace[2 * 37..]).expect("a record");
    let expected = Recorded {
        clock: FileTime(NOW),
        rights: Rights::Seed,
        verdict: true,
        request: Request::named(None, 5, 3, 8),
    };
    assert_eq!(recorded, expected);
    let answer = recorded.decide(&ONE_ROW);
    assert_eq!(answer, Err(Refusal::LaterThanNow));
    let line = Replay::new().lines(&ONE_ROW, &trace).nth(2);
    assert_eq!(line, Some(Line { number: 3, answer }));
}
