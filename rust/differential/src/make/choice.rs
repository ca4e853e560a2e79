//! Questions to the choice between two envelopes.

use std::fmt;

use gishwarem::raw::{Identifier, Root};

use super::envelope::{self, Envelope};
use super::{identifier, Kind};
use crate::hex::Hex;
use crate::rng::Rng;

/// A question to the choice.
pub struct Question {
    /// The wanted root.
    pub root: Root,
    /// The wanted identifier.
    pub wanted: Identifier,
    /// The cached envelope.
    pub cached: Vec<u8>,
    /// The fetched envelope.
    pub fetched: Vec<u8>,
}

impl fmt::Debug for Question {
    fn fmt(&self, out: &mut fmt::Formatter<'_>) -> fmt::Result {
        write!(
            out,
            "{:?}, {:?}, cached {:?}, fetched {:?}",
            Hex(&self.root.bytes),
            self.wanted,
            Hex(&self.cached),
            Hex(&self.fetched)
        )
    }
}

/// A question.
pub fn question(rng: &mut Rng, kind: Kind) -> Question {
    if kind == Kind::Junk {
        return Question {
            root: envelope::root(rng),
            wanted: identifier::identifier(rng, Kind::Moved),
            cached: envelope::record(rng, Kind::Junk),
            fetched: envelope::record(rng, Kind::Junk),
        };
    }
    let (mut serving, wanted) = serving(rng);
    let mut root = serving.head.root;
    let mut asked = wanted;
    if kind == Kind::Moved {
        for _ in 0..rng.within(1, 2) {
            match rng.below(6) {
                0 => asked = identifier::moved(rng, asked),
                1 => root.bytes[rng.below(16)] ^= 1,
                2 => serving.head.flags ^= 1,
                3 => serving.head.at = identifier::moved(rng, serving.head.at),
                4 => serving.move_text(rng),
                _ => serving.head.root = envelope::root(rng),
            }
        }
    }
    let serving = serving.bytes();
    let other = other(rng, &serving, root, wanted);
    let (cached, fetched) = if rng.chance(2) {
        (serving, other)
    } else {
        (other, serving)
    };
    Question {
        root,
        wanted: asked,
        cached,
        fetched,
    }
}

/// A seed envelope, and an identifier that one of its keys reaches.
fn serving(rng: &mut Rng) -> (Envelope, Identifier) {
    loop {
        let envelope = if rng.chance(100) {
            Envelope::valid(rng)
        } else {
            Envelope::short(rng)
        };
        if let Some(wanted) = reached(rng, &envelope) {
            return (envelope, wanted);
        }
    }
}

/// An identifier that a seed key of a valid envelope reaches: its L2 key its own row up to itself, its L1 key all rows
/// before its own, and its own if L2 = 31.
fn reached(rng: &mut Rng, envelope: &Envelope) -> Option<Identifier> {
    let [.., l1_key, l2_key] = &envelope.bodies;
    let at = envelope.head.at;
    if envelope.head.flags & 1 == 1 || l1_key.is_empty() && l2_key.is_empty() {
        return None;
    }
    if l1_key.is_empty() || !l2_key.is_empty() && rng.chance(2) {
        let any = rng.below(at.l2 as usize + 1) as u32;
        let l2 = rng.pick(&[0, any, at.l2]);
        return Some(Identifier { l2, ..at });
    }
    let last = if at.l2 == 31 { at.l1 } else { at.l1 - 1 };
    let any = rng.below(last as usize + 1) as u32;
    Some(Identifier {
        l0: at.l0,
        l1: rng.pick(&[0, any, last]),
        l2: identifier::index(rng),
    })
}

/// The other envelope: the same bytes, none, one of any kind, or one of the wanted root and group at any indices.
fn other(rng: &mut Rng, serving: &[u8], root: Root, wanted: Identifier) -> Vec<u8> {
    match rng.below(8) {
        0 => serving.to_vec(),
        1 => Vec::new(),
        2 | 3 => {
            let kind = Kind::draw(rng);
            envelope::record(rng, kind)
        }
        _ => {
            let mut envelope = Envelope::short(rng);
            envelope.head.root = root;
            envelope.head.at.l0 = wanted.l0;
            envelope.bytes()
        }
    }
}
