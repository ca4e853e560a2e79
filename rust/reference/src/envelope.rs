//! The Group Key Envelope (MS-GKDI 2.2.4; document 01, "Group Key Envelope";
//! document 02, No. 4 and No. 6).

use crate::time::Gkid;
use crate::{put_u32, record_length, u32_at, Part, MAX_LENGTH};

/// The length of the fixed head.
const HEAD: usize = 80;

/// The fixed mark, at 4.
const MARK: [u8; 4] = [0x4B, 0x44, 0x53, 0x4B];

/// "Bit 31 (LSB)" of dwFlags: the envelope is public.
const PUBLIC: u32 = 1;

/// The length of a key that isn't a public one.
const SEED_LENGTH: usize = 64;

/// Where the bodies' lengths stand, in the order of the bodies: KDF algorithm
/// and parameters, agreement algorithm and parameters, domain, forest, L1 key,
/// L2 key. The keys' lengths come before those of domain and forest, but their
/// bodies come after.
const LENGTHS_AT: [usize; 8] = [40, 44, 48, 52, 72, 76, 64, 68];

/// The numbers of an envelope that stand in its head.
#[derive(Debug, Clone, Copy, PartialEq, Eq)]
pub struct Head {
    /// The version; it may be anything.
    pub version: u32,
    /// dwFlags; the value 1 means public, the others may be anything.
    pub flags: u32,
    /// The identifier of the enveloped key.
    pub at: Gkid,
    /// The root key identifier.
    pub root: [u8; 16],
    /// The private key length, which has no body.
    pub private_length: u32,
    /// The public key length, which has no body.
    pub public_length: u32,
}

impl Head {
    /// Whether the envelope is public.
    pub(crate) fn is_public(&self) -> bool {
        self.flags & PUBLIC != 0
    }
}

/// What an accepted envelope shows. An empty body has the place that the layout
/// gives it.
#[derive(Debug, Clone, Copy, PartialEq, Eq)]
pub struct Envelope {
    /// The numbers in the head.
    pub head: Head,
    /// The KDF algorithm, a text.
    pub kdf: Part,
    /// The KDF parameters.
    pub kdf_parameters: Part,
    /// The secret agreement algorithm, a text.
    pub agreement: Part,
    /// The secret agreement parameters.
    pub agreement_parameters: Part,
    /// The domain name, a text.
    pub domain: Part,
    /// The forest name, a text.
    pub forest: Part,
    /// The L1 key.
    pub l1_key: Part,
    /// The L2 key, or the public key.
    pub l2_key: Part,
}

/// The bodies that a writer is given.
#[derive(Debug, Clone, Copy, PartialEq, Eq)]
pub struct Bodies<'a> {
    /// The KDF algorithm, a text.
    pub kdf: &'a [u8],
    /// The KDF parameters.
    pub kdf_parameters: &'a [u8],
    /// The secret agreement algorithm, a text.
    pub agreement: &'a [u8],
    /// The secret agreement parameters.
    pub agreement_parameters: &'a [u8],
    /// The domain name, a text.
    pub domain: &'a [u8],
    /// The forest name, a text.
    pub forest: &'a [u8],
    /// The L1 key.
    pub l1_key: &'a [u8],
    /// The L2 key, or the public key.
    pub l2_key: &'a [u8],
}

/// Reads one envelope, which is all of `bytes`.
pub fn read(bytes: &[u8]) -> Result<Envelope, u32> {
    if bytes.len() > MAX_LENGTH {
        return Err(1);
    }
    if bytes.len() < HEAD {
        return Err(2);
    }
    if bytes[4..8] != MARK {
        return Err(4);
    }
    let head = read_head(bytes);
    head.at.check_indices()?;

    let lengths = LENGTHS_AT.map(|at| u32_at(bytes, at));
    let sum: u64 = lengths.iter().map(|&length| u64::from(length)).sum();
    if HEAD as u64 + sum != bytes.len() as u64 {
        return Err(3);
    }

    let mut end = HEAD;
    let [kdf, kdf_parameters, agreement, agreement_parameters, domain, forest, l1_key, l2_key] =
        lengths.map(|length| {
            let part = Part {
                at: end,
                len: length as usize,
            };
            end += part.len;
            part
        });

    check_texts([kdf, agreement, domain, forest].map(|text| text.of(bytes)))?;
    check_keys(&head, l1_key.len, l2_key.len)?;
    Ok(Envelope {
        head,
        kdf,
        kdf_parameters,
        agreement,
        agreement_parameters,
        domain,
        forest,
        l1_key,
        l2_key,
    })
}

fn read_head(bytes: &[u8]) -> Head {
    let mut root = [0; 16];
    root.copy_from_slice(&bytes[24..40]);
    Head {
        version: u32_at(bytes, 0),
        flags: u32_at(bytes, 8),
        at: Gkid {
            l0: u32_at(bytes, 12),
            l1: u32_at(bytes, 16),
            l2: u32_at(bytes, 20),
        },
        root,
        private_length: u32_at(bytes, 56),
        public_length: u32_at(bytes, 60),
    }
}

/// Judges the texts in body order, each whole before the next.
fn check_texts(texts: [&[u8]; 4]) -> Result<(), u32> {
    texts.into_iter().try_for_each(check_text)
}

/// Refuses 10 unless the bytes are a text: even length, at least 2, the last
/// 16-bit unit zero, no earlier one zero. Then refuses 24 for an unpaired
/// surrogate: a high one that no low one follows, or a low one that stands
/// behind no high one.
fn check_text(bytes: &[u8]) -> Result<(), u32> {
    let mut units = bytes.chunks_exact(2);
    if !units.remainder().is_empty() || units.next_back() != Some(&[0, 0]) {
        return Err(10);
    }
    let mut behind_high = false;
    let mut unpaired = false;
    for unit in units {
        let unit = u16::from_le_bytes([unit[0], unit[1]]);
        if unit == 0 {
            return Err(10);
        }
        unpaired |= behind_high != matches!(unit, 0xDC00..=0xDFFF);
        behind_high = matches!(unit, 0xD800..=0xDBFF);
    }
    // The terminator is no low one.
    if unpaired || behind_high {
        return Err(24);
    }
    Ok(())
}

/// Refuses 11 if a key's length breaks the key rules.
pub(crate) fn check_keys(head: &Head, l1_length: usize, l2_length: usize) -> Result<(), u32> {
    let Gkid { l1, l2, .. } = head.at;

    // The L1 key: 0 or 64, and 0 if public or if L1 = 0 and L2 is not 31.
    let l1_allowed = !head.is_public() && (l1 != 0 || l2 == 31);
    if l1_length != 0 && !(l1_allowed && l1_length == SEED_LENGTH) {
        return Err(11);
    }

    // The L2 key: 0, or 64 for a seed, or the public key length for a public
    // envelope. At L2 = 31 it is absent, by document 02, No. 4 for seed
    // envelopes only.
    let l2_full = if head.is_public() {
        u64::from(head.public_length)
    } else {
        SEED_LENGTH as u64
    };
    let l2_allowed = head.is_public() || l2 != 31;
    if l2_length != 0 && !(l2_allowed && l2_length as u64 == l2_full) {
        return Err(11);
    }
    Ok(())
}

/// Writes an envelope into the first bytes of `out` and tells its length. The
/// lengths are derived from the bodies.
pub fn write(out: &mut [u8], head: &Head, bodies: &Bodies<'_>) -> Result<usize, u32> {
    // In the order of the bodies.
    let all = [
        bodies.kdf,
        bodies.kdf_parameters,
        bodies.agreement,
        bodies.agreement_parameters,
        bodies.domain,
        bodies.forest,
        bodies.l1_key,
        bodies.l2_key,
    ];
    let length = record_length(HEAD, &all)?;
    head.at.check_indices()?;
    check_texts([bodies.kdf, bodies.agreement, bodies.domain, bodies.forest])?;
    check_keys(head, bodies.l1_key.len(), bodies.l2_key.len())?;
    let record = out.get_mut(..length).ok_or(13u32)?;

    write_head(record, head);
    let mut at = HEAD;
    for (body, length_at) in all.into_iter().zip(LENGTHS_AT) {
        put_u32(record, length_at, body.len() as u32);
        record[at..at + body.len()].copy_from_slice(body);
        at += body.len();
    }
    Ok(length)
}

fn write_head(record: &mut [u8], head: &Head) {
    put_u32(record, 0, head.version);
    record[4..8].copy_from_slice(&MARK);
    put_u32(record, 8, head.flags);
    put_u32(record, 12, head.at.l0);
    put_u32(record, 16, head.at.l1);
    put_u32(record, 20, head.at.l2);
    record[24..40].copy_from_slice(&head.root);
    put_u32(record, 56, head.private_length);
    put_u32(record, 60, head.public_length);
}

#[cfg(test)]
mod tests {
    use super::*;

    const EMPTY: &[u8] = &[0, 0];

    /// The 88-byte envelope of four 2-byte texts at (0,0,0).
    fn least() -> [u8; 88] {
        let mut bytes = [0; 88];
        bytes[4..8].copy_from_slice(&[0x4B, 0x44, 0x53, 0x4B]);
        for at in [40, 48, 72, 76] {
            bytes[at] = 2;
        }
        bytes
    }

    fn head(flags: u32, l1: u32, l2: u32, public_length: u32) -> Head {
        Head {
            version: 1,
            flags,
            at: Gkid { l0: 9, l1, l2 },
            root: *b"root identifier!",
            private_length: 512,
            public_length,
        }
    }

    fn bodies<'a>(l1_key: &'a [u8], l2_key: &'a [u8]) -> Bodies<'a> {
        Bodies {
            kdf: EMPTY,
            kdf_parameters: &[],
            agreement: EMPTY,
            agreement_parameters: &[],
            domain: EMPTY,
            forest: EMPTY,
            l1_key,
            l2_key,
        }
    }

    /// The bytes of an envelope with keys of these lengths, whether or not it
    /// is to be accepted.
    fn with_keys(head: &Head, l1_length: usize, l2_length: usize) -> Vec<u8> {
        let mut bytes = vec![0; 88 + l1_length + l2_length];
        bytes[..88].copy_from_slice(&least());
        write_head(&mut bytes, head);
        put_u32(&mut bytes, 64, l1_length as u32);
        put_u32(&mut bytes, 68, l2_length as u32);
        bytes
    }

    fn number(bytes: &[u8]) -> u32 {
        read(bytes).err().unwrap_or(0)
    }

    fn least_with(at: usize, value: u32) -> [u8; 88] {
        let mut bytes = least();
        put_u32(&mut bytes, at, value);
        bytes
    }

    #[test]
    fn bench_cases() {
        assert_eq!(
            read(&least()),
            Ok(Envelope {
                head: Head {
                    version: 0,
                    flags: 0,
                    at: Gkid {
                        l0: 0,
                        l1: 0,
                        l2: 0
                    },
                    root: [0; 16],
                    private_length: 0,
                    public_length: 0,
                },
                kdf: Part { at: 80, len: 2 },
                kdf_parameters: Part { at: 82, len: 0 },
                agreement: Part { at: 82, len: 2 },
                agreement_parameters: Part { at: 84, len: 0 },
                domain: Part { at: 84, len: 2 },
                forest: Part { at: 86, len: 2 },
                l1_key: Part { at: 88, len: 0 },
                l2_key: Part { at: 88, len: 0 },
            })
        );
        assert_eq!(number(&least()[..79]), 2);
    }

    #[test]
    fn length_limits() {
        assert_eq!(number(&[]), 2);
        assert_eq!(number(&[0; 80]), 4);
        assert_eq!(number(&least()[..80]), 3);
        // KDF parameters may have any length; they take up what is left.
        let mut bytes = vec![0; 65_536];
        bytes[..88].copy_from_slice(&least());
        put_u32(&mut bytes, 44, 65_535 - 88);
        assert_eq!(number(&bytes[..65_535]), 0);
        put_u32(&mut bytes, 44, 65_536 - 88);
        assert_eq!(number(&bytes), 1);
    }

    #[test]
    fn mark() {
        for at in 4..8 {
            let mut bytes = least();
            bytes[at] ^= 1;
            assert_eq!(number(&bytes), 4);
            // Before the indices and the lengths.
            put_u32(&mut bytes, 16, 32);
            put_u32(&mut bytes, 40, 1);
            assert_eq!(number(&bytes), 4);
        }
    }

    #[test]
    fn indices() {
        for at in [16, 20] {
            assert_eq!(number(&least_with(at, 31)), 0);
            assert_eq!(number(&least_with(at, 32)), 5);
            assert_eq!(number(&least_with(at, u32::MAX)), 5);
            let mut bytes = least_with(at, 32);
            put_u32(&mut bytes, 40, 1);
            assert_eq!(number(&bytes), 5);
        }
        assert_eq!(number(&least_with(12, u32::MAX)), 0);
    }

    #[test]
    fn lengths() {
        for at in LENGTHS_AT {
            let old = u32_at(&least(), at);
            assert_eq!(number(&least_with(at, old + 1)), 3);
            assert_eq!(number(&least_with(at, u32::MAX)), 3);
        }
        assert_eq!(number(&least_with(40, 1)), 3);
        assert_eq!(number(&least()[..87]), 3);
        // Eight equal lengths of 2^29 + 1 add up to 8 in 32 bits.
        let mut bytes = least();
        for at in LENGTHS_AT {
            put_u32(&mut bytes, at, 0x2000_0001);
        }
        assert_eq!(number(&bytes), 3);
        // Private and public key length don't count.
        assert_eq!(number(&least_with(56, u32::MAX)), 0);
        assert_eq!(number(&least_with(60, u32::MAX)), 0);
    }

    #[test]
    fn texts() {
        for good in [
            &[0, 0][..],
            &[0x41, 0, 0, 0],
            &[0, 1, 0, 0],
            // Two zero bytes across units are no zero unit.
            &[0x41, 0, 0, 0x41, 0, 0],
            // The units beside the surrogates, and a pair.
            &[0xFF, 0xD7, 0x00, 0xE0, 0, 0],
            &[0x00, 0xD8, 0xFF, 0xDF, 0, 0],
        ] {
            assert_eq!(check_text(good), Ok(()));
        }
        for bad in [
            &[][..],
            &[0],
            &[0, 0, 0],
            &[0x41, 0],
            &[0, 1],
            &[0, 0, 0, 0],
            &[0, 0, 0x41, 0, 0, 0],
            &[0x41, 0, 0, 0, 0],
            // 10 before 24, also where the surrogate comes first.
            &[0x00, 0xD8],
            &[0x00, 0xD8, 0, 0, 0, 0],
        ] {
            assert_eq!(check_text(bad), Err(10));
        }
        for unpaired in [
            &[0x00, 0xD8, 0, 0][..],
            &[0xFF, 0xDB, 0x41, 0, 0, 0],
            &[0x00, 0xDC, 0, 0],
            &[0xFF, 0xDF, 0, 0],
            &[0x00, 0xDC, 0x00, 0xD8, 0, 0],
            &[0x00, 0xD8, 0x00, 0xD8, 0x00, 0xDC, 0, 0],
            &[0x00, 0xD8, 0x00, 0xDC, 0x00, 0xDC, 0, 0],
        ] {
            assert_eq!(check_text(unpaired), Err(24));
        }
        // Each of the four is judged.
        for at in 80..88 {
            let mut bytes = least();
            bytes[at] = 1;
            assert_eq!(number(&bytes), 10);
        }
        for at in [40, 48, 72, 76] {
            let mut bytes = least_with(at, 0);
            put_u32(&mut bytes, 44, 2);
            assert_eq!(number(&bytes), 10);
        }
        // Before the keys: the forest is missing and the L2 key has 2 bytes.
        let mut bytes = least_with(76, 0);
        put_u32(&mut bytes, 68, 2);
        assert_eq!(number(&bytes), 10);
    }

    #[test]
    fn texts_after_an_odd_body() {
        let mut bytes = least().to_vec();
        bytes.insert(82, 0xFF);
        put_u32(&mut bytes, 44, 1);
        let shown = read(&bytes).unwrap();
        assert_eq!(shown.kdf_parameters, Part { at: 82, len: 1 });
        assert_eq!(shown.agreement, Part { at: 83, len: 2 });
    }

    #[test]
    fn seed_keys() {
        // (L1, L2, L1 key, L2 key, answer)
        for (l1, l2, l1_length, l2_length, expected) in [
            (3, 7, 0, 0, 0),
            (3, 7, 64, 0, 0),
            (3, 7, 0, 64, 0),
            (3, 7, 64, 64, 0),
            (3, 7, 63, 0, 11),
            (3, 7, 65, 0, 11),
            (3, 7, 128, 0, 11),
            (3, 7, 0, 63, 11),
            (3, 7, 0, 65, 11),
            (3, 7, 0, 100, 11),
            (3, 31, 64, 0, 0),
            (3, 31, 0, 0, 0),
            (3, 31, 0, 64, 11),
            (3, 31, 64, 64, 11),
            (3, 31, 0, 1, 11),
            (0, 31, 64, 0, 0),
            (0, 31, 0, 64, 11),
            (0, 30, 64, 0, 11),
            (0, 30, 0, 64, 0),
            (0, 30, 64, 64, 11),
            (0, 0, 64, 0, 11),
            (0, 0, 0, 64, 0),
            (1, 0, 64, 64, 0),
        ] {
            // The public key length has no say in a seed envelope, whatever
            // the other flags are.
            for flags in [0, 2, 0x8000_0000, 0xFFFF_FFFE] {
                let head = head(flags, l1, l2, 100);
                assert_eq!(number(&with_keys(&head, l1_length, l2_length)), expected);
            }
        }
    }

    #[test]
    fn public_keys() {
        // (L1, L2, public key length, L1 key, L2 key, answer)
        for (l1, l2, public, l1_length, l2_length, expected) in [
            (3, 7, 100, 0, 0, 0),
            (3, 7, 100, 0, 100, 0),
            (3, 7, 100, 0, 64, 11),
            (3, 7, 100, 0, 99, 11),
            (3, 7, 100, 64, 0, 11),
            (3, 7, 100, 64, 100, 11),
            (3, 7, 64, 0, 64, 0),
            (3, 7, 0, 0, 0, 0),
            (3, 7, 0, 0, 64, 11),
            (3, 7, u32::MAX, 0, 0, 0),
            (3, 7, 65_536 + 64, 0, 64, 11),
            (0, 0, 100, 0, 100, 0),
            // The house rule: at L2 = 31 as elsewhere.
            (3, 31, 100, 0, 0, 0),
            (3, 31, 100, 0, 100, 0),
            (3, 31, 100, 0, 64, 11),
            (3, 31, 100, 0, 99, 11),
            (3, 31, 100, 0, 101, 11),
            (3, 31, 100, 64, 0, 11),
            (3, 31, 100, 64, 100, 11),
            (3, 31, 64, 0, 64, 0),
            (3, 31, 64, 64, 0, 11),
            (3, 31, 0, 0, 0, 0),
            (3, 31, 0, 0, 1, 11),
            (3, 31, 0, 0, 64, 11),
            (3, 31, 65_536 + 64, 0, 64, 11),
            (0, 31, 100, 0, 100, 0),
            (31, 31, 100, 0, 100, 0),
        ] {
            for flags in [1, 3, u32::MAX] {
                let head = head(flags, l1, l2, public);
                assert_eq!(number(&with_keys(&head, l1_length, l2_length)), expected);
            }
        }
    }

    #[test]
    fn written_bytes() {
        let (l1_key, l2_key) = ([0x11; 64], [0x22; 64]);
        let head = Head {
            version: 0x0403_0201,
            flags: 0x8000_0002,
            at: Gkid {
                l0: 0x0807_0605,
                l1: 3,
                l2: 7,
            },
            root: *b"root identifier!",
            private_length: 0x0C0B_0A09,
            public_length: 0x100F_0E0D,
        };
        let bodies = Bodies {
            kdf: &[0x4B, 0, 0, 0],
            kdf_parameters: &[1, 2, 3],
            agreement: &[0x44, 0, 0x48, 0, 0, 0],
            agreement_parameters: &[4],
            domain: &[0x64, 0, 0x2E, 0, 0x65, 0, 0, 0],
            forest: EMPTY,
            l1_key: &l1_key,
            l2_key: &l2_key,
        };
        // 80 + 4 + 3 + 6 + 1 + 8 + 2 + 64 + 64 = 232.
        let mut out = [0xEE; 240];
        assert_eq!(write(&mut out, &head, &bodies), Ok(232));
        let mut expected = Vec::new();
        expected.extend_from_slice(&[1, 2, 3, 4, 0x4B, 0x44, 0x53, 0x4B, 2, 0, 0, 0x80]);
        expected.extend_from_slice(&[5, 6, 7, 8, 3, 0, 0, 0, 7, 0, 0, 0]);
        expected.extend_from_slice(b"root identifier!");
        expected.extend_from_slice(&[4, 0, 0, 0, 3, 0, 0, 0, 6, 0, 0, 0, 1, 0, 0, 0]);
        expected.extend_from_slice(&[9, 10, 11, 12, 13, 14, 15, 16]);
        expected.extend_from_slice(&[64, 0, 0, 0, 64, 0, 0, 0, 8, 0, 0, 0, 2, 0, 0, 0]);
        expected.extend_from_slice(&[0x4B, 0, 0, 0, 1, 2, 3, 0x44, 0, 0x48, 0, 0, 0, 4]);
        expected.extend_from_slice(&[0x64, 0, 0x2E, 0, 0x65, 0, 0, 0, 0, 0]);
        expected.extend_from_slice(&l1_key);
        expected.extend_from_slice(&l2_key);
        assert_eq!(out[..232], expected);
        assert_eq!(out[232..], [0xEE; 8]);
        assert_eq!(
            read(&out[..232]),
            Ok(Envelope {
                head,
                kdf: Part { at: 80, len: 4 },
                kdf_parameters: Part { at: 84, len: 3 },
                agreement: Part { at: 87, len: 6 },
                agreement_parameters: Part { at: 93, len: 1 },
                domain: Part { at: 94, len: 8 },
                forest: Part { at: 102, len: 2 },
                l1_key: Part { at: 104, len: 64 },
                l2_key: Part { at: 168, len: 64 },
            })
        );
    }

    #[test]
    fn writer_refusals() {
        let mut out = [0xEE; 87];
        let key = [0x33; 64];
        let long = vec![0; 65_448];
        // 88 + 65,448 is too long, before the indices.
        let mut bodies_long = bodies(&[], &[]);
        bodies_long.kdf_parameters = &long;
        assert_eq!(write(&mut out, &head(0, 32, 0, 0), &bodies_long), Err(1));
        bodies_long.kdf_parameters = &long[1..];
        assert_eq!(write(&mut out, &head(0, 32, 0, 0), &bodies_long), Err(5));
        assert_eq!(write(&mut out, &head(0, 3, 7, 0), &bodies_long), Err(13));
        // The indices before the texts, the texts before the keys.
        let mut bad_text = bodies(&key[1..], &[]);
        bad_text.forest = &[];
        assert_eq!(write(&mut out, &head(0, 0, 32, 0), &bad_text), Err(5));
        assert_eq!(write(&mut out, &head(0, 3, 7, 0), &bad_text), Err(10));
        // The keys before the room.
        let l1 = bodies(&key, &[]);
        assert_eq!(write(&mut out, &head(0, 0, 0, 0), &l1), Err(11));
        assert_eq!(write(&mut out, &head(1, 3, 7, 64), &l1), Err(11));
        assert_eq!(write(&mut out, &head(0, 3, 7, 0), &l1), Err(13));
        let l2 = bodies(&[], &key);
        assert_eq!(write(&mut out, &head(0, 3, 31, 0), &l2), Err(11));
        assert_eq!(write(&mut out, &head(1, 3, 7, 65), &l2), Err(11));
        assert_eq!(write(&mut out, &head(1, 3, 7, 64), &l2), Err(13));
        // At L2 = 31 for seed envelopes only.
        assert_eq!(write(&mut out, &head(0, 3, 31, 64), &l2), Err(11));
        assert_eq!(write(&mut out, &head(1, 3, 31, 65), &l2), Err(11));
        assert_eq!(write(&mut out, &head(1, 3, 31, 64), &l2), Err(13));
        assert_eq!(
            write(&mut out, &head(0, 3, 7, 0), &bodies(&[], &[])),
            Err(13)
        );
        assert_eq!(out, [0xEE; 87]);
    }

    #[test]
    fn least_written() {
        let mut out = [0xEE; 88];
        let head = read(&least()).unwrap().head;
        assert_eq!(write(&mut out, &head, &bodies(&[], &[])), Ok(88));
        assert_eq!(out, least());
    }
}
