//! The operations: each asks its three sides the same question, and measures them.
//!
//! The library and plain Rust behind its face are asked by the same code. Every side is called through a pointer that the
//! compiler does not see through, so that none is inlined into the loop that calls it.

use std::hint::black_box;

use bench::plain;
use differential::expected;
use differential::operations::Answer;
use gishwarem::raw::{
    self, codes, Head, Identifier, ReplayState, Request, Root, Tally, WrittenAnswer,
};
use reference as by;
use reference::time::Gkid;

use crate::face;
use crate::records as make;
use crate::sides::{empty, side, Meter, TURN};

/// Now: (5, 3, 7).
const CLOCK: u64 = 1_880_280_000_000_000;

/// The identifier of now.
const AT: Identifier = Identifier {
    l0: 5,
    l1: 3,
    l2: 7,
};

/// The same, for the reference.
const SAME: Gkid = Gkid {
    l0: 5,
    l1: 3,
    l2: 7,
};

/// Measures a question whose answer has this number. `faces` are the library's function and the one behind the same face.
fn measure<F, P: Copy, A: Answer, B>(
    meter: Meter<F>,
    number: u32,
    faces: [P; 2],
    ask: impl Fn(P) -> A + Copy,
    reference: impl Fn() -> B,
) -> F {
    in_turns::<1, _, _, _, _>(meter, number, faces, ask, reference)
}

/// The same, with so many calls in a turn of the loop.
fn in_turns<const IN_A_TURN: u32, F, P: Copy, A: Answer, B>(
    meter: Meter<F>,
    number: u32,
    faces: [P; 2],
    ask: impl Fn(P) -> A + Copy,
    reference: impl Fn() -> B,
) -> F {
    let [library, face] = black_box(faces);
    let answer = ask(library);
    assert_eq!(number, answer.refusal(), "the input is answered otherwise");
    assert_eq!(answer, ask(face));
    meter([
        &mut side::<IN_A_TURN>(move || _ = black_box(&ask(library))),
        &mut side::<IN_A_TURN>(move || _ = black_box(&reference())),
        &mut side::<IN_A_TURN>(move || _ = black_box(&ask(face))),
        &mut empty::<IN_A_TURN>(),
    ])
}

/// A reader behind the C face.
type Reader<A> = unsafe extern "C" fn(*const u8, usize) -> A;

fn read<F, A: Answer, B>(
    meter: Meter<F>,
    number: u32,
    input: &[u8],
    faces: [Reader<A>; 2],
    reference: fn(&[u8]) -> B,
) -> F {
    let reference = black_box(reference);
    measure(
        meter,
        number,
        faces,
        // SAFETY: pointer and length are those of one slice, lent for the call.
        |read| unsafe { read(black_box(input.as_ptr()), input.len()) },
        || reference(black_box(input)),
    )
}

pub fn entry_read<F>(meter: Meter<F>, number: u32, input: &[u8]) -> F {
    let faces = [raw::gw_entry_read, face::entry_read];
    read(meter, number, input, faces, by::entry::read)
}

pub fn list_judge<F>(meter: Meter<F>, number: u32, input: &[u8]) -> F {
    let faces = [raw::gw_list_judge, face::list_judge];
    read(meter, number, input, faces, by::list::judge)
}

pub fn efskey_read<F>(meter: Meter<F>, number: u32, input: &[u8]) -> F {
    let faces = [raw::gw_efskey_read, face::efskey_read];
    read(meter, number, input, faces, by::efskey::read)
}

pub fn segment_read<F>(meter: Meter<F>, number: u32, input: &[u8]) -> F {
    let faces = [raw::gw_segment_read, face::segment_read];
    read(meter, number, input, faces, by::segment::read)
}

/// The size of a segment's last block.
pub fn segment_size<F>(meter: Meter<F>, blocks: usize) -> F {
    let segment = &make::segment(blocks)[..];
    let reference = black_box(by::segment::size as fn(&[u8], _) -> _);
    measure(
        meter,
        0,
        [raw::gw_segment_size, face::segment_size],
        // SAFETY: pointer and length are those of one slice, lent for the call.
        |size| unsafe { size(segment.as_ptr(), segment.len(), black_box(blocks - 1)) },
        || reference(segment, black_box(blocks - 1)),
    )
}

pub fn envelope_read<F>(meter: Meter<F>, number: u32, input: &[u8]) -> F {
    let faces = [raw::gw_envelope_read, face::envelope_read];
    read(meter, number, input, faces, by::envelope::read)
}

pub fn envelope_reach<F>(meter: Meter<F>, number: u32, input: &[u8]) -> F {
    let faces = [raw::gw_envelope_reach, face::envelope_reach];
    read(meter, number, input, faces, by::reach::of_envelope)
}

/// A whole walk, step by step.
pub fn list_walk<F>(meter: Meter<F>, list: &[u8]) -> F {
    let faces = [raw::gw_list_step, face::list_step];
    let reference = black_box(by::list::step as fn(&[u8], _, _) -> _);
    measure(
        meter,
        0,
        faces,
        |step| {
            let (mut at, mut index) = (4, 0);
            loop {
                // SAFETY: pointer and length are those of one slice, lent for the call.
                let answer = unsafe { step(list.as_ptr(), list.len(), at, index) };
                if answer.found != codes::STEP_ENTRY {
                    break answer;
                }
                (at, index) = (answer.next_at, answer.next_index);
            }
        },
        || {
            let (mut place, mut index) = (4, 0);
            while let Ok(by::list::Step::Entry {
                next_at,
                next_index,
                ..
            }) = reference(list, place, index)
            {
                (place, index) = (next_at, next_index);
            }
        },
    )
}

/// Whether a writer's output is cleared before each call.
#[derive(Clone, Copy)]
pub enum Output {
    Kept,
    Cleared,
}

impl Output {
    fn ready(self, out: &mut [u8]) {
        if let Output::Cleared = self {
            out.fill(0);
        }
    }
}

/// Measures a writer of this record.
fn write<F, P: Copy>(
    meter: Meter<F>,
    record: &[u8],
    output: Output,
    faces: [P; 2],
    ask: impl Fn(P, &mut [u8]) -> WrittenAnswer + Copy,
    reference: impl Fn(&mut [u8]) -> Result<usize, u32>,
) -> F {
    let [library, face] = black_box(faces);
    let mut outs = [(); 3].map(|()| vec![0; record.len()]);
    let [a, b, c] = &mut outs;
    let found = meter([
        &mut side::<1>(move || {
            output.ready(a);
            black_box(&ask(library, a));
        }),
        &mut side::<1>(move || {
            output.ready(b);
            _ = black_box(&reference(b));
        }),
        &mut side::<1>(move || {
            output.ready(c);
            black_box(&ask(face, c));
        }),
        &mut empty::<1>(),
    ]);
    assert!(outs.iter().all(|out| out == record));
    found
}

pub fn entry_write<F>(meter: Meter<F>, item_len: usize, fek_len: usize, output: Output) -> F {
    let faces = [raw::gw_entry_write, face::entry_write];
    let (item, fek) = (&make::item(item_len)[..], &make::fek(fek_len)[..]);
    let reference = black_box(by::entry::write as fn(&mut [u8], u32, &[u8], &[u8]) -> _);
    write(
        meter,
        &make::entry(item_len, fek_len),
        output,
        faces,
        // SAFETY: each pointer and its length are a slice's, and the output is borrowed alone.
        |write, out| unsafe {
            write(
                out.as_mut_ptr(),
                out.len(),
                1,
                item.as_ptr(),
                item.len(),
                fek.as_ptr(),
                fek.len(),
            )
        },
        |out| reference(out, 1, item, fek),
    )
}

pub fn efskey_write<F>(meter: Meter<F>, sid: &[u8], certificate_len: usize, output: Output) -> F {
    let faces = [raw::gw_efskey_write, face::efskey_write];
    let certificate = &make::certificate(certificate_len)[..];
    let reference = black_box(by::efskey::write as fn(&mut [u8], &[u8], &[u8]) -> _);
    write(
        meter,
        &make::efskey(sid, certificate_len),
        output,
        faces,
        // SAFETY: each pointer and its length are a slice's, and the output is borrowed alone.
        |write, out| unsafe {
            write(
                out.as_mut_ptr(),
                out.len(),
                sid.as_ptr(),
                sid.len(),
                certificate.as_ptr(),
                certificate.len(),
            )
        },
        |out| reference(out, sid, certificate),
    )
}

pub fn segment_write<F>(meter: Meter<F>, blocks: usize, output: Output) -> F {
    let faces = [raw::gw_segment_write, face::segment_write];
    let (head, sizes) = (make::SEGMENT, &make::sizes(blocks)[..]);
    let same = expected::segment_head(&head);
    let reference = black_box(by::segment::write as fn(&mut [u8], &_, &[u32]) -> _);
    write(
        meter,
        &make::segment(blocks),
        output,
        faces,
        // SAFETY: each pointer and its length are a slice's, and the output is borrowed alone.
        |write, out| unsafe {
            let head = black_box(head);
            write(
                out.as_mut_ptr(),
                out.len(),
                head.start_offset,
                head.bytes_in_stream,
                head.bytes_in_vdl,
                head.unit_shift,
                head.chunk_shift,
                head.cluster_shift,
                sizes.as_ptr(),
                sizes.len(),
            )
        },
        |out| reference(out, black_box(&same), sizes),
    )
}

pub fn envelope_write<F>(meter: Meter<F>, units: usize, output: Output) -> F {
    let faces = [raw::gw_envelope_write, face::envelope_write];
    let head = Head {
        version: 1,
        at: AT,
        root: Root { bytes: make::ROOT },
        ..Head::default()
    };
    let same = by::envelope::Head {
        version: 1,
        flags: 0,
        at: SAME,
        root: make::ROOT,
        private_length: 0,
        public_length: 0,
    };
    let bodies = make::bodies(make::Letters::Ascii, units);
    let [kdf, kdf_parameters, agreement, agreement_parameters, domain, forest, l1_key, l2_key] =
        bodies.each_ref().map(|body| &body[..]);
    let given = by::envelope::Bodies {
        kdf,
        kdf_parameters,
        agreement,
        agreement_parameters,
        domain,
        forest,
        l1_key,
        l2_key,
    };
    let reference = black_box(by::envelope::write as fn(&mut [u8], &_, &by::envelope::Bodies) -> _);
    write(
        meter,
        &make::envelope(&bodies),
        output,
        faces,
        // SAFETY: each pointer and its length are a slice's, and the output is borrowed alone.
        |write, out| unsafe {
            write(
                out.as_mut_ptr(),
                out.len(),
                black_box(head),
                kdf.as_ptr(),
                kdf.len(),
                kdf_parameters.as_ptr(),
                kdf_parameters.len(),
                agreement.as_ptr(),
                agreement.len(),
                agreement_parameters.as_ptr(),
                agreement_parameters.len(),
                domain.as_ptr(),
                domain.len(),
                forest.as_ptr(),
                forest.len(),
                l1_key.as_ptr(),
                l1_key.len(),
                l2_key.as_ptr(),
                l2_key.len(),
            )
        },
        |out| reference(out, black_box(&same), &given),
    )
}

pub fn form_reach<F>(meter: Meter<F>) -> F {
    let reference = black_box(by::reach::of_form as fn(_, _) -> _);
    measure(
        meter,
        0,
        [raw::gw_form_reach, face::form_reach],
        // SAFETY: values alone, and any get an answer.
        |reach| unsafe { reach(black_box(codes::FORM_BOTH), AT) },
        || reference(black_box(by::reach::Form::Both), SAME),
    )
}

/// A function of a number or an identifier. It takes a few nanoseconds, so that with one call in a turn the places of the call
/// and of the loop would be measured with it.
fn value<F, I: Copy, J: Copy, A: Answer, B>(
    meter: Meter<F>,
    faces: [unsafe extern "C" fn(I) -> A; 2],
    input: I,
    reference: fn(J) -> B,
    same: J,
) -> F {
    let reference = black_box(reference);
    in_turns::<TURN, _, _, _, _>(
        meter,
        0,
        faces,
        // SAFETY: a value alone, and any gets an answer.
        |value| unsafe { value(black_box(input)) },
        || reference(black_box(same)),
    )
}

pub fn time_identifier<F>(meter: Meter<F>) -> F {
    let faces = [raw::gw_time_identifier, face::time_identifier];
    value(meter, faces, CLOCK, by::time::at, CLOCK)
}

pub fn identifier_start<F>(meter: Meter<F>) -> F {
    let faces = [raw::gw_identifier_start, face::identifier_start];
    value(meter, faces, AT, by::time::start, SAME)
}

pub fn identifier_older<F>(meter: Meter<F>) -> F {
    let faces = [raw::gw_identifier_older, face::identifier_older];
    value(meter, faces, AT, by::time::older, SAME)
}

/// How a request names its key.
#[derive(Clone, Copy)]
pub enum Asked {
    /// A root key, which is the table's last row, and an identifier.
    Root,
    /// No root key, and the latest.
    Latest,
    /// No root key, and an identifier.
    Named,
}

impl Asked {
    /// The request, for the library and for the reference.
    fn requests(self) -> (Request, by::decision::Request) {
        let (given, index) = match self {
            Asked::Root => (codes::ROOT_GIVEN, 3),
            Asked::Latest => (codes::ROOT_NONE, -1),
            Asked::Named => (codes::ROOT_NONE, 3),
        };
        let request = Request {
            root_given: given,
            l0: index,
            l1: index,
            l2: index,
            root: Root { bytes: make::ROOT },
        };
        let same = by::decision::Request {
            root: (given == codes::ROOT_GIVEN).then_some(make::ROOT),
            l0: index,
            l1: index,
            l2: index,
        };
        (request, same)
    }

    /// The number of the answer: an empty table has a root key to create for the latest, and none for the others.
    fn number(self, rows: usize) -> u32 {
        match (self, rows) {
            (Asked::Root | Asked::Named, 0) => 19,
            _ => 0,
        }
    }
}

pub fn descriptor_check<F>(meter: Meter<F>, number: u32, input: &[u8]) -> F {
    let faces = [raw::gw_descriptor_check, face::descriptor_check];
    read(meter, number, input, faces, by::descriptor::check)
}

pub fn decide<F>(meter: Meter<F>, descriptor: &[u8], asked: Asked, rows: usize) -> F {
    let table = &make::table(rows)[..];
    let (request, same) = asked.requests();
    let reference = black_box(by::decision::decide as fn(&[u8], _, &_, _, &[u8]) -> _);
    measure(
        meter,
        asked.number(rows),
        [raw::gw_decide, face::decide],
        // SAFETY: each pointer and its length are a slice's, lent for the call.
        |decide| unsafe {
            decide(
                black_box(descriptor.as_ptr()),
                descriptor.len(),
                codes::RIGHTS_SEED,
                black_box(request),
                black_box(CLOCK),
                table.as_ptr(),
                table.len(),
            )
        },
        || {
            reference(
                black_box(descriptor),
                by::decision::Rights::Seed,
                black_box(&same),
                black_box(CLOCK),
                table,
            )
        },
    )
}

pub fn decide_by_verdict<F>(meter: Meter<F>, asked: Asked, rows: usize) -> F {
    let table = &make::table(rows)[..];
    let (request, same) = asked.requests();
    let reference = black_box(by::decision::decide_by_verdict as fn(_, _, &_, _, &[u8]) -> _);
    measure(
        meter,
        asked.number(rows),
        [raw::gw_decide_by_verdict, face::decide_by_verdict],
        // SAFETY: pointer and length are those of one slice, lent for the call.
        |decide| unsafe {
            decide(
                codes::ACCESS_ALLOWED,
                codes::RIGHTS_SEED,
                black_box(request),
                black_box(CLOCK),
                table.as_ptr(),
                table.len(),
            )
        },
        || {
            reference(
                true,
                by::decision::Rights::Seed,
                black_box(&same),
                black_box(CLOCK),
                table,
            )
        },
    )
}

pub fn trace_read<F>(meter: Meter<F>, number: u32, input: &[u8]) -> F {
    let faces = [raw::gw_trace_read, face::trace_read];
    read(meter, number, input, faces, plain::read)
}

/// The state that a replay starts from.
const START: ReplayState = ReplayState {
    next: 1,
    tally: Tally {
        accepted: 0,
        refused: 0,
        earlier: 0,
        first: 0,
        last: 0,
        clocks: codes::CLOCKS_NONE,
        reserved: 0,
    },
};

pub fn replay_step<F>(meter: Meter<F>, number: u32, record: &[u8], rows: usize) -> F {
    let table = &make::table(rows)[..];
    let reference =
        black_box(plain::Replay::step as fn(&mut plain::Replay, &[u8], &[u8]) -> Option<_>);
    measure(
        meter,
        number,
        [raw::gw_replay_step, face::replay_step],
        // SAFETY: each pointer and its length are a slice's, lent for the call.
        |step| unsafe {
            step(
                black_box(START),
                table.as_ptr(),
                table.len(),
                black_box(record.as_ptr()),
                record.len(),
            )
        },
        || {
            let mut replay = black_box(plain::Replay::default());
            (reference(&mut replay, table, black_box(record)), replay)
        },
    )
}

/// A chunk of so many records of a recorded day, into an output that has room for all their lines.
pub fn replay<F>(meter: Meter<F>, records: usize) -> F {
    let (table, chunk) = (&make::day_table()[..], &make::day(records)[..]);
    let reference = black_box(
        plain::replay as fn(&mut [u8], &mut plain::Replay, &[u8], &[u8], bool) -> plain::Progress,
    );
    let [library, face] = black_box([
        raw::gw_replay as unsafe extern "C" fn(_, _, _, _, _, _, _, _) -> _,
        face::replay,
    ]);
    // SAFETY, of both sides: each pointer and its length are a slice's, and the output is borrowed alone.
    let ask = |replay: unsafe extern "C" fn(_, _, _, _, _, _, _, _) -> raw::ReplayAnswer,
               out: &mut [u8]| unsafe {
        replay(
            out.as_mut_ptr(),
            out.len(),
            black_box(START),
            table.as_ptr(),
            table.len(),
            black_box(chunk.as_ptr()),
            chunk.len(),
            codes::CHUNK_ENDS,
        )
    };
    let mut outs = [(); 3].map(|()| vec![0; records * plain::LINE]);
    let answers = [library, face].map(|side| ask(side, &mut outs[0]));
    assert_eq!(answers[0], answers[1]);
    assert_eq!(answers[0].used, chunk.len(), "every record is replayed");
    let [a, b, c] = &mut outs;
    let found = meter([
        &mut side::<1>(move || _ = black_box(&ask(library, a))),
        &mut side::<1>(move || {
            let mut replay = black_box(plain::Replay::default());
            let progress = reference(b, &mut replay, table, black_box(chunk), true);
            black_box(&(progress, replay));
        }),
        &mut side::<1>(move || _ = black_box(&ask(face, c))),
        &mut empty::<1>(),
    ]);
    let [a, b, c] = outs;
    assert!(a == b && b == c, "the sides wrote the same lines");
    found
}

/// A tally of a million records; its first and last clock are this one.
fn million(clock: u64) -> Tally {
    Tally {
        accepted: 900_000,
        refused: 100_000,
        earlier: 2_000,
        first: clock,
        last: clock,
        clocks: codes::CLOCKS_GIVEN,
        reserved: 0,
    }
}

pub fn replay_total<F>(meter: Meter<F>, output: Output) -> F {
    let faces = [raw::gw_replay_total, face::replay_total];
    let tally = million(CLOCK);
    let same = expected::counted(&tally);
    let reference = black_box(plain::total as fn(&mut [u8], &_) -> _);
    write(
        meter,
        b"TOTAL 900000 100000 2000\n",
        output,
        faces,
        // SAFETY: pointer and length are a slice's, which is borrowed alone.
        |write, out| unsafe { write(out.as_mut_ptr(), out.len(), black_box(tally)) },
        |out| reference(out, black_box(&same)),
    )
}

/// The second one's clock is earlier, or a sum would not fit.
pub fn tally_merge<F>(meter: Meter<F>, full: bool) -> F {
    let (mut first, second) = (million(CLOCK), million(CLOCK - 1));
    if full {
        first.accepted = u64::MAX;
    }
    let same = [first, second].map(|tally| expected::counted(&tally));
    let reference = black_box(by::replay::merge as fn(&_, &_) -> _);
    in_turns::<TURN, _, _, _, _>(
        meter,
        full.into(),
        [raw::gw_tally_merge, face::tally_merge],
        // SAFETY: values alone, and any get an answer.
        |merge| unsafe { merge(black_box(first), black_box(second)) },
        || {
            let [first, second] = black_box(&same);
            reference(first, second)
        },
    )
}

/// The cached envelope is keyless, so that the fetched one is looked at too.
pub fn choose<F>(meter: Meter<F>, cached: &[u8], fetched: &[u8]) -> F {
    let root = Root { bytes: make::ROOT };
    let reference = black_box(by::choice::choose as fn(&_, _, &[u8], &[u8]) -> _);
    measure(
        meter,
        0,
        [raw::gw_choose, face::choose],
        // SAFETY: each pointer and its length are a slice's, lent for the call.
        |choose| unsafe {
            choose(
                black_box(root),
                AT,
                cached.as_ptr(),
                cached.len(),
                fetched.as_ptr(),
                fetched.len(),
            )
        },
        || reference(black_box(&make::ROOT), SAME, cached, fetched),
    )
}
