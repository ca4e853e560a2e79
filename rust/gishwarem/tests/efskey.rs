//! An EfsKey laid out by hand with nothing, a SID or zeros in the SID's place: the three are told apart, and each is written
//! as it is read.

use gishwarem::{EfsKey, Refusal, SidHint};

/// A SID of one sub-authority.
const SID: [u8; 12] = [1, 1, 0, 0, 0, 0, 0, 5, 18, 0, 0, 0];

/// The most bytes that fit between the head and a certificate of one byte.
const MOST: usize = 65_535 - 32 - 1;

/// The certificate of every EfsKey here.
const CERTIFICATE: [u8; 1] = [0x30];

/// An EfsKey with this SID offset, and with these bytes between the head and the certificate, by the published layout.
fn laid_out(sid_offset: u32, area: &[u8]) -> Vec<u8> {
    let area_len = area.len() as u32;
    let head = [
        32 + area_len + 1, // Length1
        28 + area_len + 1, // Length2
        sid_offset,        // counted from byte 4
        2,                 // Reserved1
        1,                 // certificate length
        28 + area_len,     // certificate offset, counted from byte 4
        0,                 // Reserved2
        0,                 // Reserved2
    ];
    [&head.map(u32::to_le_bytes).concat(), area, &CERTIFICATE].concat()
}

#[test]
fn a_reader_tells_the_three_apart() {
    for (sid_offset, area, sid) in [
        (0, &[][..], SidHint::None),
        (28, &SID, SidHint::Sid(&SID)),
        (28, &[0; 12], SidHint::NoHint(&[0; 12])),
    ] {
        let bytes = laid_out(sid_offset, area);
        let certificate = &CERTIFICATE;
        assert_eq!(EfsKey::read(&bytes), Ok(EfsKey { sid, certificate }));
    }
}

#[test]
fn zeros_may_be_of_any_length() {
    for len in [1, 7, 8, 9, 68, 69, MOST] {
        let zeros = vec![0; len];
        let bytes = laid_out(28, &zeros);
        let key = EfsKey::read(&bytes).expect("an EfsKey");
        assert_eq!(key.sid, SidHint::NoHint(&zeros));
        assert_eq!(key.certificate, CERTIFICATE);
    }
}

#[test]
fn zeros_are_at_least_one_and_have_the_sids_offset() {
    let refusal = |sid_offset, area| EfsKey::read(&laid_out(sid_offset, area)).err();
    assert_eq!(refusal(28, &[]), Some(Refusal::MalformedSid));
    assert_eq!(refusal(0, &[0]), Some(Refusal::Misplaced));
}

#[test]
fn a_sid_may_have_zeros_behind_its_count() {
    for sid in [
        &[1, 0, 0, 0, 0, 0, 0, 0][..],
        &[1, 1, 0, 0, 0, 0, 0, 0, 0, 0, 0, 0],
    ] {
        let bytes = laid_out(28, sid);
        let key = EfsKey::read(&bytes).expect("an EfsKey");
        assert_eq!(key.sid, SidHint::Sid(sid));
    }
}

/// The SID rule decides then; 12 bytes are a SID only by two bytes that are not zero, the revision and the count.
#[test]
fn among_zeros_one_other_byte_is_refused() {
    for at in 0..12 {
        for byte in 1..=255 {
            let mut area = [0; 12];
            area[at] = byte;
            let read = laid_out(28, &area);
            assert_eq!(EfsKey::read(&read), Err(Refusal::MalformedSid));
            let mut out = [0xFF; 45];
            let written = EfsKey::write(&mut out, &area, &CERTIFICATE);
            assert_eq!(written, Err(Refusal::MalformedSid));
            assert_eq!(out, [0xFF; 45]);
        }
    }
}

#[test]
fn a_writer_lays_out_what_it_is_given() {
    for (sid_offset, sid) in [(0, &[][..]), (28, &SID), (28, &[0]), (28, &[0; MOST])] {
        let expected = laid_out(sid_offset, sid);
        let length = expected.len();
        let mut out = vec![0xFF; length + 1];
        assert_eq!(EfsKey::write(&mut out, sid, &CERTIFICATE), Ok(length));
        assert_eq!(out[..length], expected);
        assert_eq!(out[length], 0xFF);
    }
}
