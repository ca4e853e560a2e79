//! The key rule of `docs/RULES.md`, with its house rule: which lengths an envelope's two keys may have, at every L1 and L2
//! index, written and read.

use gishwarem::{Bodies, Envelope, Form, Gkid, Head, Reach, Refusal};

/// Lengths at which the rule turns: none, a public key's 20, a seed key's 64, and those beside them.
const LENGTHS: [usize; 8] = [0, 1, 19, 20, 21, 63, 64, 65];

const KEY: [u8; 65] = [7; 65];

/// Whether keys of these lengths are allowed: the table of the key rule.
fn is_allowed(head: &Head, l1_key: usize, l2_key: usize) -> bool {
    if head.flags & 1 == 1 {
        return l1_key == 0 && [0, head.public_length as usize].contains(&l2_key);
    }
    let last = head.at.l2 == 31;
    let l1_allowed = l1_key == 0 || l1_key == 64 && (head.at.l1 != 0 || last);
    let l2_allowed = l2_key == 0 || l2_key == 64 && !last;
    l1_allowed && l2_allowed
}

/// The form by the keys present.
fn form_of(head: &Head, l1_key: usize, l2_key: usize) -> Form {
    match (l1_key, l2_key) {
        (0, 0) => Form::Keyless,
        _ if head.flags & 1 == 1 => Form::Public,
        (_, 0) => Form::L1Only,
        (0, _) => Form::L2Only,
        _ => Form::Both,
    }
}

/// Writes an envelope of four 2-byte texts and keys of these lengths, and reads what is accepted.
fn check(head: &Head, l1_key: usize, l2_key: usize) {
    let empty_text = &[0, 0][..];
    let bodies = Bodies {
        kdf: empty_text,
        agreement: empty_text,
        domain: empty_text,
        forest: empty_text,
        l1_key: &KEY[..l1_key],
        l2_key: &KEY[..l2_key],
        ..Bodies::default()
    };
    let length = 88 + l1_key + l2_key;
    let expected = if head.at.l1 > 31 || head.at.l2 > 31 {
        Err(Refusal::IndexAbove31)
    } else if is_allowed(head, l1_key, l2_key) {
        Ok(length)
    } else {
        Err(Refusal::KeyLength)
    };
    let mut out = [0; 88 + 2 * KEY.len()];
    let told = (head, l1_key, l2_key);
    assert_eq!(
        Envelope::write(&mut out, head, &bodies),
        expected,
        "{told:?}"
    );
    if expected.is_ok() {
        let envelope = Envelope::read(&out[..length]).expect("what was written is read");
        assert_eq!(
            (envelope.head, envelope.bodies),
            (*head, bodies),
            "{told:?}"
        );
        assert_eq!(envelope.form, form_of(head, l1_key, l2_key), "{told:?}");
        let reach = Reach::of_envelope(&out[..length]).expect("what is read has a reach");
        let reaches = !matches!(envelope.form, Form::Keyless | Form::Public);
        assert_eq!(reach.total != 0, reaches, "{told:?}");
    }
}

/// Seed and public envelopes at every identifier of an L0 group, and with an index of 32.
#[test]
fn at_every_identifier() {
    for (l1, l2) in (0..33).flat_map(|l1| (0..33).map(move |l2| (l1, l2))) {
        for (flags, public_length) in [(0, 20), (0, 64), (1, 0), (1, 20), (1, 64)] {
            let head = Head {
                flags,
                at: Gkid { l0: 5, l1, l2 },
                public_length,
                ..Head::default()
            };
            for (l1_key, l2_key) in LENGTHS.iter().flat_map(|&a| LENGTHS.map(|b| (a, b))) {
                check(&head, l1_key, l2_key);
            }
        }
    }
}
