//! What the header says of a part, read from the built library: where it is 0 and 0, and where an absent body stands.

use gishwarem::raw::{self, Part};

const NONE: Part = Part { at: 0, len: 0 };

/// The envelope of four texts of 2 bytes, which has no parameters and no key.
const ENVELOPE: &[u8] = include_bytes!("../../../crates/envinfo/stdin");

fn envelope_read(bytes: &[u8]) -> raw::EnvelopeAnswer {
    // SAFETY: pointer and length are a slice's.
    unsafe { raw::gw_envelope_read(bytes.as_ptr(), bytes.len()) }
}

#[test]
fn an_absent_body_is_empty_at_its_place() {
    let shown = envelope_read(ENVELOPE);
    assert_eq!(shown.refusal, 0);
    assert_eq!(shown.bodies.kdf_parameters, Part { at: 82, len: 0 });
    assert_eq!(shown.bodies.agreement_parameters, Part { at: 84, len: 0 });
    assert_eq!(shown.bodies.l1_key, Part { at: 88, len: 0 });
    assert_eq!(shown.bodies.l2_key, Part { at: 88, len: 0 });
}

#[test]
fn beside_a_refusal_there_are_zeros() {
    let expected = raw::EnvelopeAnswer {
        refusal: 2,
        ..raw::EnvelopeAnswer::default()
    };
    assert_eq!(envelope_read(&ENVELOPE[..79]), expected);
}

/// An EfsKey with this SID and a certificate of one byte, written and read.
fn efskey_read_back(sid: &[u8]) -> raw::EfsKeyAnswer {
    let mut key = vec![0; 32 + sid.len() + 1];
    let (out, room) = (key.as_mut_ptr(), key.len());
    // SAFETY: each pointer and its length are a slice's, and the output is borrowed alone.
    let written =
        unsafe { raw::gw_efskey_write(out, room, sid.as_ptr(), sid.len(), [7].as_ptr(), 1) };
    assert_eq!((written.refusal, written.len), (0, room));
    // SAFETY: pointer and length are a slice's.
    unsafe { raw::gw_efskey_read(key.as_ptr(), key.len()) }
}

#[test]
fn an_absent_sid_is_0_and_0() {
    let shown = efskey_read_back(&[]);
    assert_eq!((shown.refusal, shown.kind), (0, raw::codes::SID_NONE));
    assert_eq!(shown.sid, NONE);
    assert_eq!(shown.certificate, Part { at: 32, len: 1 });
}

#[test]
fn zeros_in_a_sids_place_are_a_part() {
    let shown = efskey_read_back(&[0; 5]);
    assert_eq!((shown.refusal, shown.kind), (0, raw::codes::SID_NO_HINT));
    assert_eq!(shown.sid, Part { at: 32, len: 5 });
    assert_eq!(shown.certificate, Part { at: 37, len: 1 });
}

#[test]
fn the_sizes_of_no_block_are_empty_at_their_place() {
    let mut segment = [0; 28];
    segment[8] = 28; // Length
    segment[25] = 1; // fixed

    // SAFETY: pointer and length are an array's.
    let shown = unsafe { raw::gw_segment_read(segment.as_ptr(), segment.len()) };
    assert_eq!((shown.refusal, shown.blocks), (0, 0));
    assert_eq!(shown.sizes, Part { at: 28, len: 0 });
}

#[test]
fn at_the_end_of_a_list_there_is_no_part() {
    let list = [0; 4];
    // SAFETY: pointer and length are an array's.
    let step = unsafe { raw::gw_list_step(list.as_ptr(), list.len(), 4, 0) };
    assert_eq!((step.refusal, step.found), (0, raw::codes::STEP_END));
    assert_eq!((step.item, step.fek), (NONE, NONE));
}
