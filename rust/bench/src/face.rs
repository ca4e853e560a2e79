//! Plain Rust behind the library's C face: functions with the exports' signatures, which ask the reference and lay its answer
//! out in the same struct by value, zeros beside a refusal. Those of a replay ask `plain`.

use std::slice::{from_raw_parts, from_raw_parts_mut};

use bench::plain::{self, Progress, Replay, Stopped};
use differential::expected;
use gishwarem::raw::{
    codes, ChoiceAnswer, DecisionAnswer, EfsKeyAnswer, EntryAnswer, EnvelopeAnswer, Head,
    Identifier, IdentifierAnswer, ListAnswer, MergeAnswer, ReachAnswer, ReplayAnswer, ReplayLine,
    ReplayState, Request, Root, SegmentAnswer, SizeAnswer, StartAnswer, StepAnswer, Tally,
    TraceAnswer, WrittenAnswer,
};
use gishwarem::SegmentHead;

// SAFETY, of every function here: it asks of a pointer and its length what `gishwarem::raw` asks.

/// A lent input of bytes or of numbers; a length of 0 goes with a null pointer too.
unsafe fn input<'a, T>(start: *const T, len: usize) -> &'a [T] {
    if len == 0 {
        return &[];
    }
    from_raw_parts(start, len)
}

/// A lent output; a length of 0 goes with a null pointer too.
unsafe fn output<'a>(start: *mut u8, len: usize) -> &'a mut [u8] {
    if len == 0 {
        return &mut [];
    }
    from_raw_parts_mut(start, len)
}

pub unsafe extern "C" fn entry_read(entry: *const u8, len: usize) -> EntryAnswer {
    expected::entry_read(input(entry, len))
}

pub unsafe extern "C" fn entry_write(
    out: *mut u8,
    room: usize,
    flags: u32,
    item: *const u8,
    item_len: usize,
    fek: *const u8,
    fek_len: usize,
) -> WrittenAnswer {
    expected::entry_write(
        output(out, room),
        flags,
        input(item, item_len),
        input(fek, fek_len),
    )
}

pub unsafe extern "C" fn list_judge(list: *const u8, len: usize) -> ListAnswer {
    expected::list_judge(input(list, len))
}

pub unsafe extern "C" fn list_step(
    list: *const u8,
    len: usize,
    at: usize,
    index: u32,
) -> StepAnswer {
    expected::list_step(input(list, len), at, index)
}

pub unsafe extern "C" fn efskey_read(key: *const u8, len: usize) -> EfsKeyAnswer {
    expected::efskey_read(input(key, len))
}

pub unsafe extern "C" fn efskey_write(
    out: *mut u8,
    room: usize,
    sid: *const u8,
    sid_len: usize,
    certificate: *const u8,
    certificate_len: usize,
) -> WrittenAnswer {
    expected::efskey_write(
        output(out, room),
        input(sid, sid_len),
        input(certificate, certificate_len),
    )
}

pub unsafe extern "C" fn segment_read(segment: *const u8, len: usize) -> SegmentAnswer {
    expected::segment_read(input(segment, len))
}

pub unsafe extern "C" fn segment_size(segment: *const u8, len: usize, index: usize) -> SizeAnswer {
    expected::segment_size(input(segment, len), index)
}

#[allow(clippy::too_many_arguments)] // those of the export
pub unsafe extern "C" fn segment_write(
    out: *mut u8,
    room: usize,
    start_offset: u64,
    bytes_in_stream: u32,
    bytes_in_vdl: u32,
    unit_shift: u32,
    chunk_shift: u32,
    cluster_shift: u32,
    sizes: *const u32,
    blocks: usize,
) -> WrittenAnswer {
    let head = SegmentHead {
        start_offset,
        bytes_in_stream,
        bytes_in_vdl,
        unit_shift,
        chunk_shift,
        cluster_shift,
    };
    expected::segment_write(output(out, room), &head, input(sizes, blocks))
}

pub unsafe extern "C" fn envelope_read(envelope: *const u8, len: usize) -> EnvelopeAnswer {
    expected::envelope_read(input(envelope, len))
}

#[allow(clippy::too_many_arguments)] // those of the export
pub unsafe extern "C" fn envelope_write(
    out: *mut u8,
    room: usize,
    head: Head,
    kdf: *const u8,
    kdf_len: usize,
    kdf_parameters: *const u8,
    kdf_parameters_len: usize,
    agreement: *const u8,
    agreement_len: usize,
    agreement_parameters: *const u8,
    agreement_parameters_len: usize,
    domain: *const u8,
    domain_len: usize,
    forest: *const u8,
    forest_len: usize,
    l1_key: *const u8,
    l1_key_len: usize,
    l2_key: *const u8,
    l2_key_len: usize,
) -> WrittenAnswer {
    let bodies = [
        input(kdf, kdf_len),
        input(kdf_parameters, kdf_parameters_len),
        input(agreement, agreement_len),
        input(agreement_parameters, agreement_parameters_len),
        input(domain, domain_len),
        input(forest, forest_len),
        input(l1_key, l1_key_len),
        input(l2_key, l2_key_len),
    ];
    expected::envelope_write(output(out, room), &head, bodies)
}

pub unsafe extern "C" fn envelope_reach(envelope: *const u8, len: usize) -> ReachAnswer {
    expected::envelope_reach(input(envelope, len))
}

pub unsafe extern "C" fn form_reach(form: u32, at: Identifier) -> ReachAnswer {
    expected::form_reach(form, at)
}

pub unsafe extern "C" fn time_identifier(time: u64) -> IdentifierAnswer {
    expected::time_identifier(time)
}

pub unsafe extern "C" fn identifier_start(at: Identifier) -> StartAnswer {
    expected::identifier_start(at)
}

pub unsafe extern "C" fn identifier_older(at: Identifier) -> IdentifierAnswer {
    expected::identifier_older(at)
}

pub unsafe extern "C" fn descriptor_check(descriptor: *const u8, len: usize) -> u32 {
    expected::descriptor_check(input(descriptor, len))
}

pub unsafe extern "C" fn decide(
    descriptor: *const u8,
    descriptor_len: usize,
    rights: u32,
    request: Request,
    clock: u64,
    table: *const u8,
    table_len: usize,
) -> DecisionAnswer {
    expected::decide(
        input(descriptor, descriptor_len),
        rights,
        &request,
        clock,
        input(table, table_len),
    )
}

pub unsafe extern "C" fn decide_by_verdict(
    verdict: u32,
    rights: u32,
    request: Request,
    clock: u64,
    table: *const u8,
    len: usize,
) -> DecisionAnswer {
    expected::decide_by_verdict(verdict, rights, &request, clock, input(table, len))
}

pub unsafe extern "C" fn trace_read(record: *const u8, len: usize) -> TraceAnswer {
    expected::recorded(plain::read(input(record, len)))
}

/// The state as plain Rust has it.
fn replay_of(state: &ReplayState) -> Replay {
    Replay {
        next: state.next,
        tally: expected::counted(&state.tally),
    }
}

/// The state as C has it.
fn state_of(replay: &Replay) -> ReplayState {
    ReplayState {
        next: replay.next,
        tally: expected::tally(&replay.tally),
    }
}

pub unsafe extern "C" fn replay_step(
    state: ReplayState,
    table: *const u8,
    table_len: usize,
    record: *const u8,
    len: usize,
) -> ReplayLine {
    let mut replay = replay_of(&state);
    match replay.step(input(table, table_len), input(record, len)) {
        Some(answer) => ReplayLine {
            answer: expected::decided(answer),
            number: state.next,
            state: state_of(&replay),
        },
        None => ReplayLine {
            state: state_of(&replay),
            ..ReplayLine::default()
        },
    }
}

#[allow(clippy::too_many_arguments)] // those of the export
pub unsafe extern "C" fn replay(
    out: *mut u8,
    room: usize,
    state: ReplayState,
    table: *const u8,
    table_len: usize,
    chunk: *const u8,
    len: usize,
    ends: u32,
) -> ReplayAnswer {
    let mut replay = replay_of(&state);
    let Progress {
        stopped,
        used,
        written,
    } = plain::replay(
        output(out, room),
        &mut replay,
        input(table, table_len),
        input(chunk, len),
        ends == codes::CHUNK_ENDS,
    );
    ReplayAnswer {
        stopped: match stopped {
            Stopped::Records => codes::REPLAY_RECORDS,
            Stopped::Room => codes::REPLAY_ROOM,
            Stopped::Full => codes::REPLAY_FULL,
        },
        reserved: 0,
        used,
        written,
        state: state_of(&replay),
    }
}

pub unsafe extern "C" fn replay_total(out: *mut u8, room: usize, tally: Tally) -> WrittenAnswer {
    expected::written(plain::total(output(out, room), &expected::counted(&tally)))
}

pub unsafe extern "C" fn tally_merge(first: Tally, second: Tally) -> MergeAnswer {
    expected::tally_merge(&first, &second)
}

pub unsafe extern "C" fn choose(
    root: Root,
    wanted: Identifier,
    cached: *const u8,
    cached_len: usize,
    fetched: *const u8,
    fetched_len: usize,
) -> ChoiceAnswer {
    expected::choose(
        &root,
        wanted,
        input(cached, cached_len),
        input(fetched, fetched_len),
    )
}
