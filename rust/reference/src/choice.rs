//! The choice between a cached and a fetched envelope (document 01, "Reach, and
//! the two envelopes").

use crate::envelope;
use crate::time::{Gkid, MAX_INDEX};
use crate::Part;

/// Which of the two envelopes serves.
#[derive(Debug, Clone, Copy, PartialEq, Eq)]
pub enum Which {
    /// The cached one.
    Cached,
    /// The fetched one.
    Fetched,
}

/// Which of an envelope's keys reaches the identifier.
#[derive(Debug, Clone, Copy, PartialEq, Eq)]
pub enum Key {
    /// The L1 key.
    L1,
    /// The L2 key.
    L2,
}

/// The key that reaches the identifier.
#[derive(Debug, Clone, Copy, PartialEq, Eq)]
pub struct Choice {
    /// The envelope that the key is in.
    pub which: Which,
    /// Which key it is.
    pub key: Key,
    /// The key's part of that envelope's bytes.
    pub part: Part,
}

/// Chooses the key for a wanted root and identifier: from the cached envelope if
/// that serves, else from the fetched one, else 23.
pub fn choose(root: &[u8; 16], wanted: Gkid, cached: &[u8], fetched: &[u8]) -> Result<Choice, u32> {
    for (which, bytes) in [(Which::Cached, cached), (Which::Fetched, fetched)] {
        if let Some((key, part)) = serving_key(root, wanted, bytes) {
            return Ok(Choice { which, key, part });
        }
    }
    Err(23)
}

/// The key of an envelope that reaches the identifier. An envelope serves if it
/// is accepted, has the root and L0, and reaches the identifier.
fn serving_key(root: &[u8; 16], wanted: Gkid, bytes: &[u8]) -> Option<(Key, Part)> {
    // No map has a bit for an index above 31.
    if wanted.l1 > MAX_INDEX || wanted.l2 > MAX_INDEX {
        return None;
    }
    let envelope = envelope::read(bytes).ok()?;
    let head = &envelope.head;
    if head.root != *root || head.at.l0 != wanted.l0 || head.is_public() {
        return None;
    }

    // The L2 key reaches its own row from index 0 to its own.
    let own_row = wanted.l1 == head.at.l1;
    if envelope.l2_key.len != 0 && own_row && wanted.l2 <= head.at.l2 {
        return Some((Key::L2, envelope.l2_key));
    }
    // The L1 key reaches all rows before its own, and its own if L2 = 31.
    if envelope.l1_key.len != 0 && (wanted.l1 < head.at.l1 || (own_row && head.at.l2 == MAX_INDEX))
    {
        return Some((Key::L1, envelope.l1_key));
    }
    None
}

#[cfg(test)]
mod tests {
    use super::*;
    use crate::envelope::{Bodies, Head};
    use crate::reach;

    const ROOT: [u8; 16] = [0xA1; 16];

    fn id(l0: u32, l1: u32, l2: u32) -> Gkid {
        Gkid { l0, l1, l2 }
    }

    /// An envelope of 88 bytes and the keys.
    fn envelope(flags: u32, at: Gkid, l1_length: usize, l2_length: usize) -> Vec<u8> {
        let key = [0x55; 64];
        let head = Head {
            version: 1,
            flags,
            at,
            root: ROOT,
            private_length: 0,
            public_length: 64,
        };
        let bodies = Bodies {
            kdf: &[0, 0],
            kdf_parameters: &[],
            agreement: &[0, 0],
            agreement_parameters: &[],
            domain: &[0, 0],
            forest: &[0, 0],
            l1_key: &key[..l1_length],
            l2_key: &key[..l2_length],
        };
        let mut out = vec![0; 88 + l1_length + l2_length];
        envelope::write(&mut out, &head, &bodies).unwrap();
        out
    }

    fn chosen(which: Which, key: Key, at: usize) -> Result<Choice, u32> {
        Ok(Choice {
            which,
            key,
            part: Part { at, len: 64 },
        })
    }

    #[test]
    fn keys() {
        let both = envelope(0, id(5, 3, 7), 64, 64);
        for (wanted, expected) in [
            (id(5, 3, 7), chosen(Which::Cached, Key::L2, 152)),
            (id(5, 3, 0), chosen(Which::Cached, Key::L2, 152)),
            (id(5, 2, 31), chosen(Which::Cached, Key::L1, 88)),
            (id(5, 0, 0), chosen(Which::Cached, Key::L1, 88)),
            (id(5, 3, 8), Err(23)),
            (id(5, 4, 0), Err(23)),
            (id(4, 3, 7), Err(23)),
            (id(6, 0, 0), Err(23)),
            // Indices above 31.
            (id(5, 2, 32), Err(23)),
            (id(5, 32, 0), Err(23)),
            (id(5, u32::MAX, u32::MAX), Err(23)),
        ] {
            assert_eq!(choose(&ROOT, wanted, &both, &[]), expected);
        }
    }

    #[test]
    fn absent_keys_are_absent() {
        let l1_only = envelope(0, id(5, 3, 7), 64, 0);
        let l2_only = envelope(0, id(5, 3, 7), 0, 64);
        let keyless = envelope(0, id(5, 3, 7), 0, 0);
        let at_31 = envelope(0, id(5, 3, 31), 64, 0);
        assert_eq!(choose(&ROOT, id(5, 3, 7), &l1_only, &[]), Err(23));
        assert_eq!(
            choose(&ROOT, id(5, 2, 31), &l1_only, &[]),
            chosen(Which::Cached, Key::L1, 88)
        );
        assert_eq!(choose(&ROOT, id(5, 2, 31), &l2_only, &[]), Err(23));
        assert_eq!(
            choose(&ROOT, id(5, 3, 0), &l2_only, &[]),
            chosen(Which::Cached, Key::L2, 88)
        );
        assert_eq!(choose(&ROOT, id(5, 0, 0), &keyless, &[]), Err(23));
        assert_eq!(
            choose(&ROOT, id(5, 3, 31), &at_31, &[]),
            chosen(Which::Cached, Key::L1, 88)
        );
        assert_eq!(choose(&ROOT, id(5, 4, 0), &at_31, &[]), Err(23));
    }

    #[test]
    fn cached_comes_first() {
        let both = envelope(0, id(5, 3, 7), 64, 64);
        let l2_only = envelope(0, id(5, 3, 7), 0, 64);
        let wanted = id(5, 3, 7);
        assert_eq!(
            choose(&ROOT, wanted, &both, &both),
            chosen(Which::Cached, Key::L2, 152)
        );
        assert_eq!(
            choose(&ROOT, wanted, &both, &l2_only),
            chosen(Which::Cached, Key::L2, 152)
        );
        assert_eq!(
            choose(&ROOT, wanted, &l2_only, &both),
            chosen(Which::Cached, Key::L2, 88)
        );
        // The cached one is sound but doesn't reach.
        assert_eq!(
            choose(&ROOT, id(5, 2, 0), &l2_only, &both),
            chosen(Which::Fetched, Key::L1, 88)
        );
        // The cached one is refused.
        for refused in [&[][..], &both[..79], &both[1..]] {
            assert_eq!(
                choose(&ROOT, wanted, refused, &both),
                chosen(Which::Fetched, Key::L2, 152)
            );
            assert_eq!(choose(&ROOT, wanted, refused, refused), Err(23));
        }
    }

    #[test]
    fn another_root() {
        let both = envelope(0, id(5, 3, 7), 64, 64);
        for at in 0..16 {
            let mut other = ROOT;
            other[at] ^= 0x80;
            assert_eq!(choose(&other, id(5, 3, 7), &both, &both), Err(23));
        }
    }

    #[test]
    fn public_ones_never_serve() {
        let both = envelope(0, id(5, 3, 7), 64, 64);
        for l2 in [7, 31] {
            let public = envelope(1, id(5, 3, l2), 0, 64);
            assert_eq!(choose(&ROOT, id(5, 3, l2), &public, &public), Err(23));
            assert_eq!(
                choose(&ROOT, id(5, 3, 7), &public, &both),
                chosen(Which::Fetched, Key::L2, 152)
            );
        }
    }

    #[test]
    fn serves_what_is_reached() {
        for (flags, l1, l2, l1_length, l2_length) in [
            (0, 3, 7, 64, 64),
            (0, 3, 7, 64, 0),
            (0, 3, 7, 0, 64),
            (0, 3, 7, 0, 0),
            (0, 0, 31, 64, 0),
            (0, 0, 30, 0, 64),
            (0, 31, 31, 64, 0),
            (0, 31, 30, 64, 64),
            (1, 3, 7, 0, 64),
            (1, 3, 31, 0, 64),
        ] {
            let bytes = envelope(flags, id(5, l1, l2), l1_length, l2_length);
            let reach = reach::of_envelope(&bytes).unwrap();
            for l1 in 0..32 {
                for l2 in 0..32 {
                    let reached = reach.rows[l1 as usize] >> (31 - l2) & 1 == 1;
                    let choice = choose(&ROOT, id(5, l1, l2), &[], &bytes);
                    assert_eq!(choice.is_ok(), reached);
                }
            }
        }
    }
}
