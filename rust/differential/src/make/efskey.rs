//! EfsKeys.

use gishwarem::raw::codes;

use super::{junk, junk_with, move_end, move_numbers, moved_length, number_at, put_number};
use super::{valid_length, Kind, LIMIT};
use crate::rng::Rng;

/// The length of the head.
const HEAD: usize = 32;

/// The least EfsKey: no SID, and a certificate of one byte.
const LEAST: usize = 33;

/// How much longer than the least a short EfsKey is at most.
const SHORT: usize = 110;

/// Where the numbers of the head stand, but for Reserved2.
const NUMBERS: [usize; 6] = [0, 4, 8, 12, 16, 20];

/// Where the SID offset stands.
const SID_OFFSET: usize = 8;

/// A SID's length without its parts.
pub const SID: usize = 8;

/// Numbers of zeros: three that a SID has for its length, and three that none has.
const ZEROS: [usize; 6] = [8, 12, 68, 1, 7, 9];

/// Reserved2: ignored when read, zero when written.
pub const RESERVED2: std::ops::Range<usize> = 24..32;

/// An EfsKey.
pub fn record(rng: &mut Rng, kind: Kind) -> Vec<u8> {
    if kind == Kind::Junk {
        return junk_with(
            rng,
            &[
                (0, |length| length),
                (4, |length| length - 4),
                (SID_OFFSET, |length| length % 2 * 28),
                (12, |_| 2),
                // A SID area of up to two bytes.
                (16, |length| length.wrapping_sub(32 + length % 3)),
                (20, |length| 28 + length % 3),
            ],
        );
    }
    let (sid, certificate) = parts(rng, kind);
    let mut bytes = layout(rng, &sid, &certificate);
    if kind == Kind::Moved && bytes.len() <= LIMIT {
        match rng.below(10) {
            0 => move_end(rng, &mut bytes),
            1 => move_sid_offset(&mut bytes),
            2..=4 => {}
            _ => move_numbers(rng, &mut bytes, &NUMBERS),
        }
    }
    bytes
}

/// Moves the SID offset to the other permitted one: an empty area gets a place, or one that isn't empty loses it.
fn move_sid_offset(bytes: &mut [u8]) {
    let other = 28 - number_at(bytes, SID_OFFSET);
    put_number(bytes, SID_OFFSET, other);
}

/// A SID, empty for none or zeros for no hint, and a certificate; the writer is given these. Moved, the SID's size or one of
/// its two judged bytes goes to a boundary, or one of the zeros becomes another byte, or the certificate is empty, or their
/// record one byte over the limit; junk has no rule.
pub fn parts(rng: &mut Rng, kind: Kind) -> (Vec<u8>, Vec<u8>) {
    let length = match kind {
        Kind::Valid => valid_length(rng, LEAST, SHORT),
        Kind::Moved => moved_length(rng, LEAST, SHORT),
        Kind::Junk => return (junk(rng), junk(rng)),
    };
    let mut sid = area(rng, length - LEAST);
    let mut certificate = rng.bytes(length - HEAD - sid.len());
    if kind == Kind::Moved {
        match rng.below(8) {
            0 => certificate.clear(),
            1..=4 => move_area(rng, &mut sid),
            _ => {}
        }
    }
    (sid, certificate)
}

/// What stands in the SID's place, of at most `spare` bytes: nothing, zeros or a SID.
fn area(rng: &mut Rng, spare: usize) -> Vec<u8> {
    match rng.below(3) {
        0 if spare > 0 => zeros(rng, spare),
        1 if spare >= SID => sid(rng, spare),
        _ => Vec::new(),
    }
}

/// Zeros, at least one and at most `spare` of them.
fn zeros(rng: &mut Rng, spare: usize) -> Vec<u8> {
    let any = rng.within(1, spare);
    let turn = rng.pick(&ZEROS).min(spare);
    vec![0; rng.pick(&[turn, any, spare])]
}

/// A SID of at most `spare` bytes, at least 8; at times all that isn't judged is zeros.
pub fn sid(rng: &mut Rng, spare: usize) -> Vec<u8> {
    let most = ((spare - SID) / 4).min(15);
    let any = rng.below(most + 1);
    let count = rng.pick(&[0, any, most]);
    let mut sid = vec![0; SID + 4 * count];
    if !rng.chance(3) {
        rng.fill(&mut sid);
    }
    sid[0] = 1;
    sid[1] = count as u8;
    sid
}

/// Moves what stands in the SID's place off its rule.
fn move_area(rng: &mut Rng, area: &mut Vec<u8>) {
    match kind_of(area) {
        codes::SID_NONE => {
            let len = rng.within(1, 12);
            *area = rng.bytes(len);
            area[0] = 1;
        }
        codes::SID_NO_HINT => {
            let last = area.len() - 1;
            let any = rng.within(0, last);
            let at = rng.pick(&[0, last.min(1), any, any, last]);
            area[at] = rng.pick(&[1, 2, 128, 255]);
        }
        _ => move_sid(rng, area),
    }
}

/// Moves a SID's revision, count or size.
fn move_sid(rng: &mut Rng, sid: &mut Vec<u8>) {
    match rng.below(5) {
        0 => sid[0] = rng.pick(&[0, 2, 255]),
        1 => sid[1] = sid[1].wrapping_add(rng.pick(&[1, 255, 16, 64])),
        2 => sid.truncate(rng.below(sid.len() + 1)),
        3 => sid.push(0),
        _ => {
            // One part more than a SID may have, with a size that agrees.
            sid[1] = 16;
            sid.resize(SID + 4 * 16, 9);
        }
    }
}

/// The record of these parts; Reserved2 is random.
fn layout(rng: &mut Rng, sid: &[u8], certificate: &[u8]) -> Vec<u8> {
    let mut bytes = rng.bytes(HEAD);
    bytes.extend_from_slice(sid);
    bytes.extend_from_slice(certificate);
    let length = bytes.len() as u32;
    let sid_offset = if sid.is_empty() { 0 } else { 28 };
    let head = [
        length,
        length - 4,
        sid_offset,
        2,
        certificate.len() as u32,
        28 + sid.len() as u32,
    ];
    for (at, number) in NUMBERS.into_iter().zip(head) {
        put_number(&mut bytes, at, number);
    }
    bytes
}

/// The length of the record of these parts.
pub fn length(sid: &[u8], certificate: &[u8]) -> usize {
    HEAD + sid.len() + certificate.len()
}

/// What an accepted EfsKey has in its SID's place, by the code of its kind.
pub const CASES: [&str; 3] = ["no SID", "SID", "no hint"];

/// The kind that a SID's bytes tell, if they are accepted: none where there are none, no hint where all are zeros.
pub fn kind_of(sid: &[u8]) -> u32 {
    if sid.is_empty() {
        codes::SID_NONE
    } else if sid.iter().all(|&byte| byte == 0) {
        codes::SID_NO_HINT
    } else {
        codes::SID_GIVEN
    }
}
