//! The calls into the library, and the crate's only unsafe code: a slice goes in as its pointer
//! and its length, and values go in as they are.
//!
//! What the header asks of a caller is met by borrowing: a slice may be read, and `out` written,
//! for the length of the call; and `out` is borrowed alone, so it shares no byte with what is
//! handed in beside it.

use crate::raw;
use crate::{Bodies, SegmentHead};

pub(crate) fn version() -> u32 {
    // SAFETY: nothing is handed in.
    unsafe { raw::gw_version() }
}

pub(crate) fn entry_read(entry: &[u8]) -> raw::EntryAnswer {
    // SAFETY: pointer and length are a slice's.
    unsafe { raw::gw_entry_read(entry.as_ptr(), entry.len()) }
}

pub(crate) fn entry_write(
    out: &mut [u8],
    flags: u32,
    item: &[u8],
    fek: &[u8],
) -> raw::WrittenAnswer {
    // SAFETY: each pointer and its length are a slice's, and `out` is borrowed alone.
    unsafe {
        raw::gw_entry_write(
            out.as_mut_ptr(),
            out.len(),
            flags,
            item.as_ptr(),
            item.len(),
            fek.as_ptr(),
            fek.len(),
        )
    }
}

pub(crate) fn list_judge(list: &[u8]) -> raw::ListAnswer {
    // SAFETY: pointer and length are a slice's.
    unsafe { raw::gw_list_judge(list.as_ptr(), list.len()) }
}

pub(crate) fn list_step(list: &[u8], at: usize, index: u32) -> raw::StepAnswer {
    // SAFETY: pointer and length are a slice's; any place in the list gets an answer.
    unsafe { raw::gw_list_step(list.as_ptr(), list.len(), at, index) }
}

pub(crate) fn efskey_read(key: &[u8]) -> raw::EfsKeyAnswer {
    // SAFETY: pointer and length are a slice's.
    unsafe { raw::gw_efskey_read(key.as_ptr(), key.len()) }
}

pub(crate) fn efskey_write(out: &mut [u8], sid: &[u8], certificate: &[u8]) -> raw::WrittenAnswer {
    // SAFETY: each pointer and its length are a slice's, and `out` is borrowed alone.
    unsafe {
        raw::gw_efskey_write(
            out.as_mut_ptr(),
            out.len(),
            sid.as_ptr(),
            sid.len(),
            certificate.as_ptr(),
            certificate.len(),
        )
    }
}

pub(crate) fn segment_read(segment: &[u8]) -> raw::SegmentAnswer {
    // SAFETY: pointer and length are a slice's.
    unsafe { raw::gw_segment_read(segment.as_ptr(), segment.len()) }
}

pub(crate) fn segment_size(segment: &[u8], index: usize) -> raw::SizeAnswer {
    // SAFETY: pointer and length are a slice's; any index gets an answer.
    unsafe { raw::gw_segment_size(segment.as_ptr(), segment.len(), index) }
}

pub(crate) fn segment_write(
    out: &mut [u8],
    head: &SegmentHead,
    sizes: &[u32],
) -> raw::WrittenAnswer {
    // SAFETY: each pointer and its length are a slice's, aligned as its elements are, and `out` is
    // borrowed alone; any values beside them get an answer.
    unsafe {
        raw::gw_segment_write(
            out.as_mut_ptr(),
            out.len(),
            head.start_offset,
            head.bytes_in_stream,
            head.bytes_in_vdl,
            head.unit_shift,
            head.chunk_shift,
            head.cluster_shift,
            sizes.as_ptr(),
            sizes.len(),
        )
    }
}

pub(crate) fn envelope_read(envelope: &[u8]) -> raw::EnvelopeAnswer {
    // SAFETY: pointer and length are a slice's.
    unsafe { raw::gw_envelope_read(envelope.as_ptr(), envelope.len()) }
}

pub(crate) fn envelope_write(
    out: &mut [u8],
    head: raw::Head,
    bodies: &Bodies<'_>,
) -> raw::WrittenAnswer {
    // SAFETY: each pointer and its length are a slice's, and `out` is borrowed alone.
    unsafe {
        raw::gw_envelope_write(
            out.as_mut_ptr(),
            out.len(),
            head,
            bodies.kdf.as_ptr(),
            bodies.kdf.len(),
            bodies.kdf_parameters.as_ptr(),
            bodies.kdf_parameters.len(),
            bodies.agreement.as_ptr(),
            bodies.agreement.len(),
            bodies.agreement_parameters.as_ptr(),
            bodies.agreement_parameters.len(),
            bodies.domain.as_ptr(),
            bodies.domain.len(),
            bodies.forest.as_ptr(),
            bodies.forest.len(),
            bodies.l1_key.as_ptr(),
            bodies.l1_key.len(),
            bodies.l2_key.as_ptr(),
            bodies.l2_key.len(),
        )
    }
}

pub(crate) fn envelope_reach(envelope: &[u8]) -> raw::ReachAnswer {
    // SAFETY: pointer and length are a slice's.
    unsafe { raw::gw_envelope_reach(envelope.as_ptr(), envelope.len()) }
}

pub(crate) fn form_reach(form: u32, at: raw::Identifier) -> raw::ReachAnswer {
    // SAFETY: values alone, and any of them gets an answer.
    unsafe { raw::gw_form_reach(form, at) }
}

pub(crate) fn time_identifier(time: u64) -> raw::IdentifierAnswer {
    // SAFETY: a value alone, and any gets an answer.
    unsafe { raw::gw_time_identifier(time) }
}

pub(crate) fn identifier_start(at: raw::Identifier) -> raw::StartAnswer {
    // SAFETY: a value alone, and any gets an answer.
    unsafe { raw::gw_identifier_start(at) }
}

pub(crate) fn identifier_older(at: raw::Identifier) -> raw::IdentifierAnswer {
    // SAFETY: a value alone, and any gets an answer.
    unsafe { raw::gw_identifier_older(at) }
}

pub(crate) fn descriptor_check(descriptor: &[u8]) -> u32 {
    // SAFETY: pointer and length are a slice's.
    unsafe { raw::gw_descriptor_check(descriptor.as_ptr(), descriptor.len()) }
}

pub(crate) fn decide(
    descriptor: &[u8],
    rights: u32,
    request: raw::Request,
    clock: u64,
    table: &[u8],
) -> raw::DecisionAnswer {
    // SAFETY: each pointer and its length are a slice's; any values beside them get an answer.
    unsafe {
        raw::gw_decide(
            descriptor.as_ptr(),
            descriptor.len(),
            rights,
            request,
            clock,
            table.as_ptr(),
            table.len(),
        )
    }
}

pub(crate) fn decide_by_verdict(
    verdict: u32,
    rights: u32,
    request: raw::Request,
    clock: u64,
    table: &[u8],
) -> raw::DecisionAnswer {
    // SAFETY: pointer and length are a slice's; any values beside them get an answer.
    unsafe {
        raw::gw_decide_by_verdict(verdict, rights, request, clock, table.as_ptr(), table.len())
    }
}

pub(crate) fn trace_read(record: &[u8]) -> raw::TraceAnswer {
    // SAFETY: pointer and length are a slice's.
    unsafe { raw::gw_trace_read(record.as_ptr(), record.len()) }
}

pub(crate) fn replay_start() -> raw::ReplayState {
    // SAFETY: nothing is handed in.
    unsafe { raw::gw_replay_start() }
}

pub(crate) fn replay_step(state: raw::ReplayState, table: &[u8], record: &[u8]) -> raw::ReplayLine {
    // SAFETY: each pointer and its length are a slice's; any state beside them gets an answer.
    unsafe {
        raw::gw_replay_step(
            state,
            table.as_ptr(),
            table.len(),
            record.as_ptr(),
            record.len(),
        )
    }
}

pub(crate) fn replay(
    out: &mut [u8],
    state: raw::ReplayState,
    table: &[u8],
    chunk: &[u8],
    ends: u32,
) -> raw::ReplayAnswer {
    // SAFETY: each pointer and its length are a slice's, and `out` is borrowed alone; any values
    // beside them get an answer.
    unsafe {
        raw::gw_replay(
            out.as_mut_ptr(),
            out.len(),
            state,
            table.as_ptr(),
            table.len(),
            chunk.as_ptr(),
            chunk.len(),
            ends,
        )
    }
}

pub(crate) fn replay_total(out: &mut [u8], tally: raw::Tally) -> raw::WrittenAnswer {
    // SAFETY: pointer and length are a slice's, which is borrowed alone; any tally gets an answer.
    unsafe { raw::gw_replay_total(out.as_mut_ptr(), out.len(), tally) }
}

pub(crate) fn tally_merge(first: raw::Tally, second: raw::Tally) -> raw::MergeAnswer {
    // SAFETY: values alone, and any of them get an answer.
    unsafe { raw::gw_tally_merge(first, second) }
}

pub(crate) fn choose(
    root: raw::Root,
    wanted: raw::Identifier,
    cached: &[u8],
    fetched: &[u8],
) -> raw::ChoiceAnswer {
    // SAFETY: each pointer and its length are a slice's; any values beside them get an answer.
    unsafe {
        raw::gw_choose(
            root,
            wanted,
            cached.as_ptr(),
            cached.len(),
            fetched.as_ptr(),
            fetched.len(),
        )
    }
}
