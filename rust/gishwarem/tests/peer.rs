//! An envelope that another implementation made (sample data of the test suite of Samba 4.22), with the values that it has to show.

use gishwarem::{Bodies, Envelope, Form, Gkid, Head, Reach, RootId};

const PEER: &[u8] = include_bytes!("../../../crates/vectors_envelopes_written/stdin");

const HEAD: Head = Head {
    version: 1,
    flags: 0,
    at: Gkid {
        l0: 362,
        l1: 1,
        l2: 14,
    },
    root: RootId([
        0x8c, 0xc4, 0x8c, 0xde, 0x76, 0x70, 0x94, 0x97, 0x05, 0x6d, 0x89, 0x37, 0x7b, 0x5a, 0x80,
        0x52,
    ]),
    private_length: 512,
    public_length: 2048,
};

/// A text with its terminator, as an envelope has it.
fn text(letters: &str) -> Vec<u8> {
    letters
        .encode_utf16()
        .chain([0])
        .flat_map(u16::to_le_bytes)
        .collect()
}

#[test]
fn it_shows_each_value_and_part() {
    let name = text("example.com");
    let bodies = Bodies {
        kdf: &text("SP800_108_CTR_HMAC"),
        kdf_parameters: &PEER[118..148],
        agreement: &text("DH"),
        agreement_parameters: &PEER[154..678],
        domain: &name,
        forest: &name,
        l1_key: &PEER[726..790],
        l2_key: &PEER[790..854],
    };
    let envelope = Envelope::read(PEER).expect("an envelope");
    assert_eq!(envelope.head, HEAD);
    assert_eq!(envelope.bodies, bodies);
    assert_eq!((envelope.form, envelope.is_public), (Form::Both, false));
    assert_eq!(envelope.texts.kdf.to_string(), "SP800_108_CTR_HMAC");
    assert_eq!(envelope.texts.agreement.to_string(), "DH");
    assert_eq!(envelope.texts.domain.to_string(), "example.com");
    assert_eq!(envelope.texts.forest.to_string(), "example.com");
}

#[test]
fn it_reaches_47_identifiers() {
    let reach = Reach::of_envelope(PEER).expect("an envelope");
    assert_eq!(reach.total, 32 + 14 + 1);
}

#[test]
fn written_again_it_is_the_same() {
    let envelope = Envelope::read(PEER).expect("an envelope");
    let mut out = [0; 854];
    assert_eq!(
        Envelope::write(&mut out, &envelope.head, &envelope.bodies),
        Ok(854)
    );
    assert_eq!(out, PEER);
}
