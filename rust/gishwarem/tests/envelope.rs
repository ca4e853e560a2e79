//! An envelope laid out by hand: each value and each body is shown under its own name.

use gishwarem::{Bodies, Envelope, Form, Gkid, Head, RootId};

/// A head whose values are all different.
const HEAD: Head = Head {
    version: 9,
    flags: 2,
    at: Gkid {
        l0: 5,
        l1: 3,
        l2: 7,
    },
    root: RootId([1, 2, 3, 4, 5, 6, 7, 8, 9, 10, 11, 12, 13, 14, 15, 16]),
    private_length: 512,
    public_length: 2048,
};

/// Eight bodies that are all different.
const BODIES: Bodies<'static> = Bodies {
    kdf: &[b'k', 0, 0, 0],
    kdf_parameters: &[21],
    agreement: &[b'a', 0, b'a', 0, 0, 0],
    agreement_parameters: &[22, 23],
    domain: &[b'd', 0, 0, 0],
    forest: &[0, 0],
    l1_key: &[24; 64],
    l2_key: &[25; 64],
};

/// The envelope of that head and those bodies, by the published layout.
fn laid_out() -> Vec<u8> {
    let numbers = |numbers: &[u32]| -> Vec<u8> {
        numbers
            .iter()
            .flat_map(|number| number.to_le_bytes())
            .collect()
    };
    let root: Vec<u8> = (1..=16).collect();
    [
        &numbers(&[9])[..],
        b"KDSK",
        &numbers(&[2, 5, 3, 7]),
        &root,
        &numbers(&[4, 1, 6, 2]), // KDF algorithm and parameters, agreement algorithm and parameters
        &numbers(&[512, 2048]),  // private key, public key
        &numbers(&[64, 64]),     // L1 key, L2 key
        &numbers(&[4, 2]),       // domain, forest
        &[b'k', 0, 0, 0],
        &[21],
        &[b'a', 0, b'a', 0, 0, 0],
        &[22, 23],
        &[b'd', 0, 0, 0],
        &[0, 0],
        &[24; 64],
        &[25; 64],
    ]
    .concat()
}

/// The form of an envelope with these flags and this L2 key, and whether it is public.
fn form(flags: u32, l2_key: &[u8]) -> (Form, bool) {
    let head = Head {
        flags,
        public_length: 3,
        ..HEAD
    };
    let bodies = Bodies {
        l1_key: &[],
        l2_key,
        ..BODIES
    };
    let mut out = [0; 256];
    let length = Envelope::write(&mut out, &head, &bodies).expect("an envelope");
    let envelope = Envelope::read(&out[..length]).expect("an envelope");
    (envelope.form, envelope.is_public)
}

#[test]
fn a_reader_shows_what_is_laid_out() {
    let bytes = laid_out();
    let envelope = Envelope::read(&bytes).expect("an envelope");
    assert_eq!(envelope.head, HEAD);
    assert_eq!(envelope.bodies, BODIES);
    assert_eq!((envelope.form, envelope.is_public), (Form::Both, false));
    let texts = envelope.texts;
    let shown = [texts.kdf, texts.agreement, texts.domain, texts.forest];
    assert_eq!(shown.map(|text| text.to_string()), ["k", "aa", "d", ""]);
}

#[test]
fn a_writer_lays_out_what_it_is_given() {
    let mut out = vec![0; laid_out().len()];
    assert_eq!(Envelope::write(&mut out, &HEAD, &BODIES), Ok(out.len()));
    assert_eq!(out, laid_out());
}

#[test]
fn the_public_bit_has_the_value_1() {
    assert_eq!(form(1, &[26; 3]), (Form::Public, true));
    assert_eq!(form(1, &[]), (Form::Keyless, true));
    assert_eq!(form(0x8000_0000, &[26; 64]), (Form::L2Only, false));
    assert_eq!(form(0x8000_0000, &[]), (Form::Keyless, false));
}
