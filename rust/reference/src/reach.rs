//! The reach of a form and of an envelope (document 01, "Reach, and the two
//! envelopes").

use crate::envelope::{self, Envelope, Head};
use crate::time::{Gkid, MAX_INDEX};

/// Which keys an envelope carries.
#[derive(Debug, Clone, Copy, PartialEq, Eq)]
pub enum Form {
    /// No key.
    Keyless,
    /// A seed envelope with the L1 key alone.
    L1Only,
    /// A seed envelope with the L2 key alone.
    L2Only,
    /// A seed envelope with both keys.
    Both,
    /// A public envelope with a key.
    Public,
}

impl Form {
    /// The form of an envelope, by the keys present.
    pub fn of(envelope: &Envelope) -> Self {
        let has_l1 = envelope.l1_key.len != 0;
        let has_l2 = envelope.l2_key.len != 0;
        match (has_l1, has_l2) {
            (false, false) => Form::Keyless,
            _ if envelope.head.is_public() => Form::Public,
            (true, false) => Form::L1Only,
            (false, true) => Form::L2Only,
            (true, true) => Form::Both,
        }
    }

    /// Whether the form has an L1 seed key.
    fn has_l1_seed(self) -> bool {
        matches!(self, Form::L1Only | Form::Both)
    }

    /// Whether the form has an L2 seed key.
    fn has_l2_seed(self) -> bool {
        matches!(self, Form::L2Only | Form::Both)
    }
}

/// The identifiers of one L0 group that are reached.
#[derive(Debug, Clone, Copy, PartialEq, Eq)]
pub struct Reach {
    /// The form that has this reach.
    pub form: Form,
    /// One row for each L1 index; L2 index 0 is the most significant bit.
    pub rows: [u32; 32],
    /// The number of set bits.
    pub total: u32,
}

/// The reach of a seed envelope at `at` with just the keys of `form`. It
/// refuses 5, then 11, where such an envelope would be; public or keyless is
/// empty.
pub fn of_form(form: Form, at: Gkid) -> Result<Reach, u32> {
    at.check_indices()?;
    let seed = Head {
        version: 0,
        flags: 0,
        at,
        root: [0; 16],
        private_length: 0,
        public_length: 0,
    };
    let l1_length = if form.has_l1_seed() { 64 } else { 0 };
    let l2_length = if form.has_l2_seed() { 64 } else { 0 };
    envelope::check_keys(&seed, l1_length, l2_length)?;
    Ok(of_keys(form, at))
}

/// The reach of an envelope, with the form by the keys present.
pub fn of_envelope(bytes: &[u8]) -> Result<Reach, u32> {
    let envelope = envelope::read(bytes)?;
    Ok(of_keys(Form::of(&envelope), envelope.head.at))
}

/// The reach of the form's seed keys at an identifier whose indices are sound.
fn of_keys(form: Form, at: Gkid) -> Reach {
    let own_row = at.l1 as usize;
    let mut rows = [0; 32];
    if form.has_l1_seed() {
        // All of rows 0 to L1 if L2 = 31, else rows 0 to L1-1.
        let end = if at.l2 == MAX_INDEX {
            own_row + 1
        } else {
            own_row
        };
        rows[..end].fill(u32::MAX);
    }
    if form.has_l2_seed() {
        // The own row from index 0 to the own.
        rows[own_row] = u32::MAX << (MAX_INDEX - at.l2);
    }
    let total = rows.iter().map(|row| row.count_ones()).sum();
    Reach { form, rows, total }
}

#[cfg(test)]
mod tests {
    use super::*;
    use crate::envelope::Bodies;

    const FORMS: [Form; 5] = [
        Form::Keyless,
        Form::L1Only,
        Form::L2Only,
        Form::Both,
        Form::Public,
    ];

    fn id(l1: u32, l2: u32) -> Gkid {
        Gkid { l0: 5, l1, l2 }
    }

    fn total(form: Form, l1: u32, l2: u32) -> Result<u32, u32> {
        of_form(form, id(l1, l2)).map(|reach| reach.total)
    }

    fn envelope(flags: u32, at: Gkid, l1_length: usize, l2_length: usize) -> Vec<u8> {
        let key = [0x55; 64];
        let head = Head {
            version: 1,
            flags,
            at,
            root: [7; 16],
            private_length: 0,
            public_length: 64,
        };
        let bodies = Bodies {
            kdf: &[0, 0],
            kdf_parameters: &[],
            agreement: &[0, 0],
            agreement_parameters: &[],
            domain: &[0, 0],
            forest: &[0, 0],
            l1_key: &key[..l1_length],
            l2_key: &key[..l2_length],
        };
        let mut out = vec![0; 88 + l1_length + l2_length];
        envelope::write(&mut out, &head, &bodies).unwrap();
        out
    }

    #[test]
    fn bench_cases() {
        assert_eq!(total(Form::Both, 3, 7), Ok(104));
        assert_eq!(total(Form::L1Only, 31, 31), Ok(1_024));
        assert_eq!(total(Form::L2Only, 0, 2), Ok(3));
    }

    #[test]
    fn maps() {
        let mut rows = [0; 32];
        rows[..3].fill(0xFFFF_FFFF);
        rows[3] = 0xFF00_0000;
        assert_eq!(
            of_form(Form::Both, id(3, 7)),
            Ok(Reach {
                form: Form::Both,
                rows,
                total: 104,
            })
        );
        rows[3] = 0;
        assert_eq!(
            of_form(Form::L1Only, id(3, 7)),
            Ok(Reach {
                form: Form::L1Only,
                rows,
                total: 96,
            })
        );
        rows[3] = 0xFFFF_FFFF;
        assert_eq!(
            of_form(Form::L1Only, id(3, 31)),
            Ok(Reach {
                form: Form::L1Only,
                rows,
                total: 128,
            })
        );
        let mut rows = [0; 32];
        rows[3] = 0xFF00_0000;
        assert_eq!(
            of_form(Form::L2Only, id(3, 7)),
            Ok(Reach {
                form: Form::L2Only,
                rows,
                total: 8,
            })
        );
        let mut rows = [0; 32];
        rows[0] = 0x8000_0000;
        assert_eq!(
            of_form(Form::L2Only, id(0, 0)),
            Ok(Reach {
                form: Form::L2Only,
                rows,
                total: 1,
            })
        );
        for form in [Form::Keyless, Form::Public] {
            assert_eq!(
                of_form(form, id(3, 31)),
                Ok(Reach {
                    form,
                    rows: [0; 32],
                    total: 0,
                })
            );
        }
    }

    #[test]
    fn edges() {
        assert_eq!(total(Form::L2Only, 0, 30), Ok(31));
        assert_eq!(total(Form::L1Only, 0, 31), Ok(32));
        assert_eq!(total(Form::L1Only, 1, 0), Ok(32));
        assert_eq!(total(Form::Both, 1, 0), Ok(33));
        assert_eq!(total(Form::Both, 31, 30), Ok(1_023));
        let far = Gkid {
            l0: u32::MAX,
            l1: 31,
            l2: 31,
        };
        assert_eq!(of_form(Form::L1Only, far).unwrap().total, 1_024);
    }

    #[test]
    fn form_refusals() {
        for form in FORMS {
            assert_eq!(total(form, 32, 0), Err(5));
            assert_eq!(total(form, 0, 32), Err(5));
            assert_eq!(total(form, u32::MAX, u32::MAX), Err(5));
        }
        assert_eq!(total(Form::L1Only, 0, 30), Err(11));
        assert_eq!(total(Form::L1Only, 0, 0), Err(11));
        assert_eq!(total(Form::Both, 0, 30), Err(11));
        assert_eq!(total(Form::Both, 0, 31), Err(11));
        assert_eq!(total(Form::Both, 3, 31), Err(11));
        assert_eq!(total(Form::L2Only, 0, 31), Err(11));
        assert_eq!(total(Form::L2Only, 3, 31), Err(11));
        for (l1, l2) in [(0, 0), (0, 31), (31, 0), (31, 31)] {
            assert_eq!(total(Form::Public, l1, l2), Ok(0));
            assert_eq!(total(Form::Keyless, l1, l2), Ok(0));
        }
    }

    #[test]
    fn envelopes() {
        // (flags, L1, L2, L1 key, L2 key, form, total)
        for (flags, l1, l2, l1_length, l2_length, form, total) in [
            (0, 3, 7, 0, 0, Form::Keyless, 0),
            (0, 3, 7, 64, 0, Form::L1Only, 96),
            (0, 3, 7, 0, 64, Form::L2Only, 8),
            (0, 3, 7, 64, 64, Form::Both, 104),
            (0x8000_0002, 3, 7, 64, 64, Form::Both, 104),
            (0, 3, 31, 64, 0, Form::L1Only, 128),
            (0, 0, 31, 64, 0, Form::L1Only, 32),
            (0, 0, 31, 0, 0, Form::Keyless, 0),
            (1, 3, 7, 0, 64, Form::Public, 0),
            (1, 3, 7, 0, 0, Form::Keyless, 0),
            (1, 3, 31, 0, 0, Form::Keyless, 0),
            (1, 3, 31, 0, 64, Form::Public, 0),
        ] {
            let reach = of_envelope(&envelope(flags, id(l1, l2), l1_length, l2_length)).unwrap();
            assert_eq!((reach.form, reach.total), (form, total));
            let expected = if total == 0 {
                [0; 32]
            } else {
                of_form(form, id(l1, l2)).unwrap().rows
            };
            assert_eq!(reach.rows, expected);
        }
    }

    #[test]
    fn refused_envelopes() {
        assert_eq!(of_envelope(&[]), Err(2));
        assert_eq!(of_envelope(&[0; 80]), Err(4));
        assert_eq!(of_envelope(&[0; 65_536]), Err(1));
    }
}
