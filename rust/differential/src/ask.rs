//! The questions that the library answers, asked with lent bytes.

use gishwarem::raw::{
    self, ChoiceAnswer, DecisionAnswer, EfsKeyAnswer, EntryAnswer, EnvelopeAnswer, Head,
    Identifier, IdentifierAnswer, ListAnswer, MergeAnswer, ReachAnswer, ReplayAnswer, ReplayLine,
    ReplayState, Root, SegmentAnswer, SizeAnswer, StartAnswer, StepAnswer, Tally, TraceAnswer,
    WrittenAnswer,
};
use gishwarem::SegmentHead;

use crate::lent::{lend, Output};
use crate::make::decision::Question;
use crate::rng::Rng;

// SAFETY, of every question here: `lend` and `Output` own the bytes behind each pointer for the length of the call, and
// no two of them share a byte.

/// Reads an entry.
pub fn entry_read(rng: &mut Rng, entry: &[u8]) -> EntryAnswer {
    lend(rng, [entry], |[entry]| unsafe {
        raw::gw_entry_read(entry.start, entry.len)
    })
}

/// Writes an entry.
pub fn entry_write(
    rng: &mut Rng,
    out: &mut Output,
    flags: u32,
    item: &[u8],
    fek: &[u8],
) -> WrittenAnswer {
    let (start, room) = (out.start(), out.room());
    lend(rng, [item, fek], |[item, fek]| unsafe {
        raw::gw_entry_write(start, room, flags, item.start, item.len, fek.start, fek.len)
    })
}

/// Judges a list.
pub fn list_judge(rng: &mut Rng, list: &[u8]) -> ListAnswer {
    lend(rng, [list], |[list]| unsafe {
        raw::gw_list_judge(list.start, list.len)
    })
}

/// Takes one step of a list's walk.
pub fn list_step(rng: &mut Rng, list: &[u8], at: usize, index: u32) -> StepAnswer {
    lend(rng, [list], |[list]| unsafe {
        raw::gw_list_step(list.start, list.len, at, index)
    })
}

/// Reads an EfsKey.
pub fn efskey_read(rng: &mut Rng, key: &[u8]) -> EfsKeyAnswer {
    lend(rng, [key], |[key]| unsafe {
        raw::gw_efskey_read(key.start, key.len)
    })
}

/// Writes an EfsKey.
pub fn efskey_write(
    rng: &mut Rng,
    out: &mut Output,
    sid: &[u8],
    certificate: &[u8],
) -> WrittenAnswer {
    let (start, room) = (out.start(), out.room());
    lend(rng, [sid, certificate], |[sid, certificate]| unsafe {
        raw::gw_efskey_write(
            start,
            room,
            sid.start,
            sid.len,
            certificate.start,
            certificate.len,
        )
    })
}

/// Reads a segment.
pub fn segment_read(rng: &mut Rng, segment: &[u8]) -> SegmentAnswer {
    lend(rng, [segment], |[segment]| unsafe {
        raw::gw_segment_read(segment.start, segment.len)
    })
}

/// The size of a segment's block.
pub fn segment_size(rng: &mut Rng, segment: &[u8], index: usize) -> SizeAnswer {
    lend(rng, [segment], |[segment]| unsafe {
        raw::gw_segment_size(segment.start, segment.len, index)
    })
}

/// The sizes of a segment's blocks, asked one by one from index 0 until there is none.
pub fn segment_sizes(rng: &mut Rng, segment: &[u8]) -> Vec<u32> {
    lend(rng, [segment], |[segment]| {
        (0..=segment.len)
            .map(|index| unsafe { raw::gw_segment_size(segment.start, segment.len, index) })
            .take_while(|answer| answer.found == 1)
            .map(|answer| answer.size)
            .collect()
    })
}

/// Writes a segment from its head and its sizes.
pub fn segment_write(
    rng: &mut Rng,
    out: &mut Output,
    head: &SegmentHead,
    sizes: &[u32],
) -> WrittenAnswer {
    let (start, room) = (out.start(), out.room());
    lend(rng, [sizes], |[sizes]| unsafe {
        raw::gw_segment_write(
            start,
            room,
            head.start_offset,
            head.bytes_in_stream,
            head.bytes_in_vdl,
            head.unit_shift,
            head.chunk_shift,
            head.cluster_shift,
            sizes.start,
            sizes.len,
        )
    })
}

/// Reads an envelope.
pub fn envelope_read(rng: &mut Rng, envelope: &[u8]) -> EnvelopeAnswer {
    lend(rng, [envelope], |[envelope]| unsafe {
        raw::gw_envelope_read(envelope.start, envelope.len)
    })
}

/// Writes an envelope from its head and its bodies in their order.
pub fn envelope_write(
    rng: &mut Rng,
    out: &mut Output,
    head: Head,
    bodies: [&[u8]; 8],
) -> WrittenAnswer {
    let (start, room) = (out.start(), out.room());
    lend(
        rng,
        bodies,
        |[kdf, kdf_parameters, agreement, agreement_parameters, domain, forest, l1_key, l2_key]| unsafe {
            raw::gw_envelope_write(
                start,
                room,
                head,
                kdf.start,
                kdf.len,
                kdf_parameters.start,
                kdf_parameters.len,
                agreement.start,
                agreement.len,
                agreement_parameters.start,
                agreement_parameters.len,
                domain.start,
                domain.len,
                forest.start,
                forest.len,
                l1_key.start,
                l1_key.len,
                l2_key.start,
                l2_key.len,
            )
        },
    )
}

/// The reach of an envelope.
pub fn envelope_reach(rng: &mut Rng, envelope: &[u8]) -> ReachAnswer {
    lend(rng, [envelope], |[envelope]| unsafe {
        raw::gw_envelope_reach(envelope.start, envelope.len)
    })
}

/// The reach of a form.
pub fn form_reach(form: u32, at: Identifier) -> ReachAnswer {
    unsafe { raw::gw_form_reach(form, at) }
}

/// The identifier of a reading.
pub fn time_identifier(time: u64) -> IdentifierAnswer {
    unsafe { raw::gw_time_identifier(time) }
}

/// The start of an identifier.
pub fn identifier_start(at: Identifier) -> StartAnswer {
    unsafe { raw::gw_identifier_start(at) }
}

/// The next older identifier.
pub fn identifier_older(at: Identifier) -> IdentifierAnswer {
    unsafe { raw::gw_identifier_older(at) }
}

/// Whether a descriptor is sound.
pub fn descriptor_check(rng: &mut Rng, descriptor: &[u8]) -> u32 {
    lend(rng, [descriptor], |[descriptor]| unsafe {
        raw::gw_descriptor_check(descriptor.start, descriptor.len)
    })
}

/// The GetKey decision, by the question's descriptor.
pub fn decide(rng: &mut Rng, question: &Question) -> DecisionAnswer {
    let (rights, request, clock) = (question.rights, question.request, question.clock);
    lend(
        rng,
        [&question.descriptor, &question.table],
        |[descriptor, table]| unsafe {
            raw::gw_decide(
                descriptor.start,
                descriptor.len,
                rights,
                request,
                clock,
                table.start,
                table.len,
            )
        },
    )
}

/// The GetKey decision, by the question's verdict.
pub fn decide_by_verdict(rng: &mut Rng, question: &Question) -> DecisionAnswer {
    let (verdict, rights) = (question.verdict, question.rights);
    let (request, clock) = (question.request, question.clock);
    lend(rng, [&question.table], |[table]| unsafe {
        raw::gw_decide_by_verdict(verdict, rights, request, clock, table.start, table.len)
    })
}

/// Reads a record of a trace.
pub fn trace_read(rng: &mut Rng, record: &[u8]) -> TraceAnswer {
    lend(rng, [record], |[record]| unsafe {
        raw::gw_trace_read(record.start, record.len)
    })
}

/// The state that a replay starts from.
pub fn replay_start() -> ReplayState {
    unsafe { raw::gw_replay_start() }
}

/// Replays a record.
pub fn replay_step(rng: &mut Rng, state: ReplayState, table: &[u8], record: &[u8]) -> ReplayLine {
    lend(rng, [table, record], |[table, record]| unsafe {
        raw::gw_replay_step(state, table.start, table.len, record.start, record.len)
    })
}

/// Replays a chunk.
pub fn replay(
    rng: &mut Rng,
    out: &mut Output,
    state: ReplayState,
    table: &[u8],
    chunk: &[u8],
    ends: u32,
) -> ReplayAnswer {
    let (start, room) = (out.start(), out.room());
    lend(rng, [table, chunk], |[table, chunk]| unsafe {
        raw::gw_replay(
            start,
            room,
            state,
            table.start,
            table.len,
            chunk.start,
            chunk.len,
            ends,
        )
    })
}

/// Writes the line of a total.
pub fn replay_total(out: &mut Output, tally: Tally) -> WrittenAnswer {
    unsafe { raw::gw_replay_total(out.start(), out.room(), tally) }
}

/// Two tallies as one.
pub fn tally_merge(first: Tally, second: Tally) -> MergeAnswer {
    unsafe { raw::gw_tally_merge(first, second) }
}

/// The choice between two envelopes.
pub fn choose(
    rng: &mut Rng,
    root: Root,
    wanted: Identifier,
    cached: &[u8],
    fetched: &[u8],
) -> ChoiceAnswer {
    lend(rng, [cached, fetched], |[cached, fetched]| unsafe {
        raw::gw_choose(
            root,
            wanted,
            cached.start,
            cached.len,
            fetched.start,
            fetched.len,
        )
    })
}
