//! Group Key Envelopes.

use gishwarem::raw::{Head, Identifier, Root};

use super::{identifier, junk, junk_with, move_end, move_numbers, put_number, Kind, LIMIT, LONG};
use crate::rng::Rng;

/// The length of the head.
const HEAD: usize = 80;

/// The length of a seed key.
const SEED: usize = 64;

/// The mark, as a number.
const MARK: u32 = 0x4B53_444B;

/// Where the lengths of the bodies stand, in the order of the bodies: the lengths of the keys come before those of
/// domain and forest, their bodies after.
const LENGTHS: [usize; 8] = [40, 44, 48, 52, 72, 76, 64, 68];

/// Where the numbers of the head stand, but for the root identifier.
const NUMBERS: [usize; 16] = [0, 4, 8, 12, 16, 20, 40, 44, 48, 52, 56, 60, 64, 68, 72, 76];

/// The bodies that are texts: KDF algorithm, agreement algorithm, domain, forest.
const TEXTS: [usize; 4] = [0, 2, 4, 5];

/// The bodies that are parameters, of any bytes.
const PARAMETERS: [usize; 2] = [1, 3];

/// The place of the L1 key among the bodies.
const L1_KEY: usize = 6;

/// The place of the L2 key among the bodies.
const L2_KEY: usize = 7;

/// An envelope before it is laid out, and what the writer is given.
pub struct Envelope {
    /// The head's values.
    pub head: Head,
    /// The bodies, in their order.
    pub bodies: [Vec<u8>; 8],
}

/// A root identifier out of a few, some of which differ in one byte only, so that two often agree.
pub fn root(rng: &mut Rng) -> Root {
    let mut bytes = [0xA1; 16];
    match rng.below(8) {
        0 => bytes[15] = 0xA0,
        1 => bytes[0] = 0x21,
        2 => bytes[7] = 0,
        3 => bytes = [0; 16],
        _ => {}
    }
    Root { bytes }
}

/// Units that are characters by themselves: the least ones and those with a zero byte, beside the surrogates, a byte order mark
/// in either order, and noncharacters.
const SINGLE: [u16; 8] = [
    0x0001, 0x0100, 0xD7FF, 0xE000, 0xFEFF, 0xFFFE, 0xFDD0, 0xFFFF,
];

/// High surrogates: the first, one between, the last.
const HIGH: [u16; 3] = [0xD800, 0xD83D, 0xDBFF];

/// Low surrogates: the first, one between, the last.
const LOW: [u16; 3] = [0xDC00, 0xDD11, 0xDFFF];

/// A text: `units` units that aren't zero and make whole characters, then one that is.
fn text(rng: &mut Rng, units: usize) -> Vec<u8> {
    let mut text = Vec::with_capacity(units + 1);
    while text.len() < units {
        match rng.below(4) {
            0 if text.len() + 2 <= units => text.extend([rng.pick(&HIGH), rng.pick(&LOW)]),
            1 => text.push(rng.pick(&SINGLE)),
            _ => text.push(rng.within(0x0001, 0xD7FF) as u16),
        }
    }
    text.push(0);
    text.into_iter().flat_map(u16::to_le_bytes).collect()
}

impl Envelope {
    /// A valid short envelope.
    pub fn short(rng: &mut Rng) -> Self {
        let mut head = Head {
            version: rng.number(),
            flags: rng.number() & !1,
            at: identifier::identifier(rng, Kind::Valid),
            root: root(rng),
            private_length: rng.number(),
            public_length: rng.number(),
        };
        let mut bodies = [0; 8].map(|_: usize| Vec::new());
        for body in TEXTS {
            let units = rng.below(6);
            bodies[body] = text(rng, units);
        }
        for body in PARAMETERS {
            let len = rng.below(12);
            bodies[body] = rng.bytes(len);
        }
        if rng.chance(4) {
            head.flags |= 1;
        }
        let (l1, l2) = key_lengths(rng, &mut head);
        bodies[L1_KEY] = rng.bytes(l1);
        bodies[L2_KEY] = rng.bytes(l2);
        Envelope { head, bodies }
    }

    /// A valid envelope, at times a long one.
    pub fn valid(rng: &mut Rng) -> Self {
        let mut envelope = Envelope::short(rng);
        if rng.chance(LONG) {
            let least = envelope.length();
            let any = rng.within(least, LIMIT);
            let length = rng.pick(&[LIMIT, LIMIT - 1, any]);
            envelope.grow(rng, length);
        }
        envelope
    }

    /// A valid envelope, then one or two of its values or bodies moved, or its record one byte over the limit.
    pub fn moved(rng: &mut Rng) -> Self {
        let mut envelope = Envelope::valid(rng);
        if rng.chance(LONG) {
            envelope.grow(rng, LIMIT + 1);
            return envelope;
        }
        for _ in 0..rng.within(1, 2) {
            envelope.move_one(rng);
        }
        envelope
    }

    /// A head and bodies by no rule.
    pub fn junk(rng: &mut Rng) -> Self {
        Envelope {
            head: Head {
                version: rng.number(),
                flags: rng.number(),
                at: identifier::identifier(rng, Kind::Moved),
                root: root(rng),
                private_length: rng.number(),
                public_length: rng.moved(64),
            },
            bodies: [0; 8].map(|_: usize| {
                if rng.chance(2) {
                    return vec![0, 0];
                }
                let mut body = junk(rng);
                body.truncate(LIMIT / 4);
                body
            }),
        }
    }

    /// As the kind says.
    pub fn of(rng: &mut Rng, kind: Kind) -> Self {
        match kind {
            Kind::Valid => Envelope::valid(rng),
            Kind::Moved => Envelope::moved(rng),
            Kind::Junk => Envelope::junk(rng),
        }
    }

    /// The length of its record.
    pub fn length(&self) -> usize {
        HEAD + self.bodies.iter().map(Vec::len).sum::<usize>()
    }

    /// The bodies as they are lent.
    pub fn lent(&self) -> [&[u8]; 8] {
        self.bodies.each_ref().map(Vec::as_slice)
    }

    /// Its record.
    pub fn bytes(&self) -> Vec<u8> {
        let mut bytes = vec![0; HEAD];
        let head = &self.head;
        let numbers = [
            (0, head.version),
            (4, MARK),
            (8, head.flags),
            (12, head.at.l0),
            (16, head.at.l1),
            (20, head.at.l2),
            (56, head.private_length),
            (60, head.public_length),
        ];
        for (at, number) in numbers {
            put_number(&mut bytes, at, number);
        }
        bytes[24..40].copy_from_slice(&head.root.bytes);
        for (body, at) in self.bodies.iter().zip(LENGTHS) {
            put_number(&mut bytes, at, body.len() as u32);
            bytes.extend_from_slice(body);
        }
        bytes
    }

    /// Makes a text or the parameters longer, so that the record has this length.
    fn grow(&mut self, rng: &mut Rng, length: usize) {
        let mut more = length - self.length();
        if rng.chance(2) {
            let longer = text(rng, more / 2);
            let body = rng.pick(&TEXTS);
            let units = longer.len() - 2;
            self.bodies[body].splice(0..0, longer[..units].iter().copied());
            more -= units;
        }
        let grown = rng.bytes(more);
        self.bodies[rng.pick(&PARAMETERS)].extend(grown);
    }

    /// Moves one value of the head, one text or one key.
    fn move_one(&mut self, rng: &mut Rng) {
        let head = &mut self.head;
        match rng.below(10) {
            0 => head.at = identifier::moved(rng, head.at),
            1 => head.at.l1 = rng.pick(&[0, 1, 31, 32]),
            2 => head.at.l2 = rng.pick(&[0, 30, 31, 32]),
            3 => head.flags ^= rng.pick(&[1, 2, 0x8000_0000]),
            4 => head.public_length = rng.moved(head.public_length),
            5 | 6 => {
                let key = rng.pick(&[L1_KEY, L2_KEY]);
                let len = rng.pick(&[0, 1, SEED - 1, SEED, SEED, SEED + 1, 2 * SEED]);
                self.bodies[key] = rng.bytes(len);
            }
            7 => {
                // One byte more or less than its key has.
                let key = rng.pick(&[L1_KEY, L2_KEY]);
                let len = self.bodies[key].len();
                let near = rng.pick(&[len + 1, len.saturating_sub(1)]);
                self.bodies[key] = rng.bytes(near);
            }
            _ => self.move_text(rng),
        }
    }

    /// Breaks one of its texts, or nearly.
    pub fn move_text(&mut self, rng: &mut Rng) {
        let body = rng.pick(&TEXTS);
        move_text(rng, &mut self.bodies[body]);
    }
}

/// Breaks a text, or nearly: its length, its last unit, or a unit before.
fn move_text(rng: &mut Rng, text: &mut Vec<u8>) {
    let len = text.len();
    // A place between two units, the ends included; there may be a pair across it.
    let at = 2 * rng.below(len / 2 + 1);
    match rng.below(9) {
        0 => text.clear(),
        1 => text.truncate(len.saturating_sub(1)),
        2 => text.push(0),
        3 => text.truncate(len.saturating_sub(2)),
        4 => {
            // A zero unit at any place: one more at the end, or one before.
            text.splice(at..at, [0, 0]);
        }
        5 | 6 => {
            // A half pair, which a surrogate beside it may complete.
            text.splice(at..at, half_a_pair(rng));
        }
        7 => {
            // Two surrogates in each of the four orders.
            let two = [half_a_pair(rng), half_a_pair(rng)];
            text.splice(at..at, two.concat());
        }
        _ => {
            // Two zero bytes across two units are no zero unit.
            text.splice(0..0, [1, 0, 0, 1]);
        }
    }
}

/// A surrogate, high or low.
fn half_a_pair(rng: &mut Rng) -> [u8; 2] {
    let halves = rng.pick(&[HIGH, LOW]);
    rng.pick(&halves).to_le_bytes()
}

/// Lengths of keys that the key rules allow, and a public key length to match.
fn key_lengths(rng: &mut Rng, head: &mut Head) -> (usize, usize) {
    let Identifier { l1, l2, .. } = head.at;
    if head.flags & 1 == 1 {
        if rng.chance(4) {
            return (0, 0);
        }
        let length = rng.pick(&[0, 1, 63, 64, 65, 100]);
        head.public_length = length as u32;
        return (0, length);
    }
    let l1_length = if l1 == 0 && l2 != 31 { 0 } else { SEED };
    let l2_length = if l2 == 31 { 0 } else { SEED };
    match rng.below(6) {
        0 => (0, 0),
        1 => (l1_length, 0),
        2 => (0, l2_length),
        _ => (l1_length, l2_length),
    }
}

/// An envelope's record; moved, also one or two of its numbers or its end.
pub fn record(rng: &mut Rng, kind: Kind) -> Vec<u8> {
    match kind {
        Kind::Valid => Envelope::valid(rng).bytes(),
        Kind::Moved if rng.chance(2) => Envelope::moved(rng).bytes(),
        Kind::Moved => {
            let mut bytes = Envelope::valid(rng).bytes();
            if rng.chance(6) {
                move_end(rng, &mut bytes);
            } else {
                move_numbers(rng, &mut bytes, &NUMBERS);
            }
            bytes
        }
        Kind::Junk if rng.chance(4) => Envelope::junk(rng).bytes(),
        Kind::Junk => junk_with(
            rng,
            &[(4, |_| MARK), (16, |length| length % 33), (20, |_| 31)],
        ),
    }
}
