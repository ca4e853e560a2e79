//! Self-relative security descriptors.

use super::efskey::{sid, SID};
use super::{junk_with, move_end, number_at, put_number, valid_length, Kind, LIMIT};
use crate::rng::Rng;

/// The length of the head.
const HEAD: usize = 20;

/// The least sound descriptor: revision 1, the control bit 0x8000, and no item.
pub const LEAST: [u8; HEAD] = {
    let mut head = [0; HEAD];
    head[0] = 1;
    head[3] = 0x80;
    head
};

/// How much longer than the least a short descriptor is at most.
const SHORT: usize = 120;

/// The length of an ACL's head.
const ACL: usize = 8;

/// The length of an entry's head.
const ENTRY: usize = 4;

/// Where the offsets of the owner and the group stand, and those of the two ACLs.
const SID_OFFSETS: [usize; 2] = [4, 8];
const ACL_OFFSETS: [usize; 2] = [12, 16];

/// A descriptor, with what is judged of it.
struct Made {
    bytes: Vec<u8>,
    /// Where SIDs stand, some of them inside an ACL.
    sids: Vec<usize>,
    /// Where ACLs stand, some of them inside another.
    acls: Vec<usize>,
    /// Where the sizes and counts of ACLs and entries stand, 16 bits each.
    halves: Vec<usize>,
}

/// A descriptor.
pub fn bytes(rng: &mut Rng, kind: Kind) -> Vec<u8> {
    match kind {
        Kind::Valid => sound(rng).bytes,
        Kind::Moved => {
            let mut made = sound(rng);
            for _ in 0..rng.within(1, 2) {
                move_one(rng, &mut made);
            }
            made.bytes
        }
        Kind::Junk => junk_with(
            rng,
            &[
                (0, |_| 0x8000_0001),
                (4, |length| length % 2 * 20),
                (8, |length| length % 3 / 2 * 28),
                (12, |length| length % 5 / 4 * 20),
                (16, |length| length % 7 / 6 * 21),
            ],
        ),
    }
}

/// A sound descriptor: up to four items, in any order and with bytes between them, some of them named twice or inside
/// another.
fn sound(rng: &mut Rng) -> Made {
    let length = valid_length(rng, HEAD, SHORT);
    let mut made = Made {
        bytes: rng.bytes(HEAD),
        sids: vec![],
        acls: vec![],
        halves: vec![],
    };
    made.bytes[0] = 1;
    made.bytes[3] |= 0x80;
    for _ in 0..rng.below(5) {
        gap(rng, &mut made, length);
        let spare = length - made.bytes.len();
        if rng.chance(2) {
            if spare >= SID {
                made.sids.push(made.bytes.len());
                made.bytes.extend(sid(rng, spare));
            }
        } else if spare >= ACL {
            acl(rng, &mut made, spare);
        }
    }
    gap(rng, &mut made, length);
    for at in SID_OFFSETS {
        let offset = named(rng, &made.sids);
        put_number(&mut made.bytes, at, offset);
    }
    for at in ACL_OFFSETS {
        let offset = named(rng, &made.acls);
        put_number(&mut made.bytes, at, offset);
    }
    made
}

/// A few bytes that no item covers, or none.
fn gap(rng: &mut Rng, made: &mut Made, length: usize) {
    let bytes = rng.pick(&[0, 0, 1, 4]).min(length - made.bytes.len());
    made.bytes.extend(rng.bytes(bytes));
}

/// One of these items, or none.
fn named(rng: &mut Rng, items: &[usize]) -> u32 {
    if items.is_empty() || rng.chance(4) {
        return 0;
    }
    rng.pick(items) as u32
}

/// Appends an ACL of at most `spare` bytes, at least 8: entries end to end, and at times bytes behind them.
fn acl(rng: &mut Rng, made: &mut Made, spare: usize) {
    let start = made.bytes.len();
    let most = start + spare;
    made.bytes.extend(rng.bytes(ACL));
    let mut count = 0;
    let wished = if rng.chance(8) { spare } else { rng.below(5) };
    while count < wished && made.bytes.len() + ENTRY <= most {
        let spare = most - made.bytes.len();
        entry(rng, made, spare);
        count += 1;
    }
    let left = rng.pick(&[0, 0, 1, 5]).min(most - made.bytes.len());
    made.bytes.extend(rng.bytes(left));
    let size = made.bytes.len() - start;
    put_half(&mut made.bytes, start + 2, size);
    put_half(&mut made.bytes, start + 4, count);
    made.acls.push(start);
    made.halves.extend([start + 2, start + 4]);
}

/// Appends an entry of at most `spare` bytes, at least 4; at times a SID or an ACL stands in it.
fn entry(rng: &mut Rng, made: &mut Made, spare: usize) {
    let start = made.bytes.len();
    made.bytes.extend(rng.bytes(ENTRY));
    let spare = spare - ENTRY;
    match rng.below(8) {
        0 | 1 if spare >= SID => {
            made.sids.push(made.bytes.len());
            made.bytes.extend(sid(rng, spare));
        }
        2 if spare >= ACL => acl(rng, made, spare),
        3..=5 => {
            let more = rng.pick(&[1, 4, 8, 16]).min(spare);
            made.bytes.extend(rng.bytes(more));
        }
        _ => {}
    }
    let size = made.bytes.len() - start;
    put_half(&mut made.bytes, start + 2, size);
    made.halves.push(start + 2);
}

/// Puts a 16-bit number, little-endian.
fn put_half(bytes: &mut [u8], at: usize, number: usize) {
    bytes[at..at + 2].copy_from_slice(&(number as u16).to_le_bytes());
}

/// Moves one thing that is judged, unless the head has been cut off.
fn move_one(rng: &mut Rng, made: &mut Made) {
    if made.bytes.len() < HEAD {
        return;
    }
    match rng.below(16) {
        0 => made.bytes[0] = rng.pick(&[0, 2, 129, 255]),
        1 => made.bytes[3] ^= rng.pick(&[0x80, 0x80, 0x40, 1]),
        2 if made.bytes.len() <= LIMIT => move_end(rng, &mut made.bytes),
        3..=6 if !made.sids.is_empty() => {
            let at = rng.pick(&made.sids) + rng.below(2);
            move_byte(rng, &mut made.bytes, at);
        }
        7..=10 if !made.halves.is_empty() => {
            let at = rng.pick(&made.halves);
            move_half(rng, &mut made.bytes, at);
        }
        11 => inside_head(rng, &mut made.bytes),
        _ => move_offset(rng, made),
    }
}

/// Moves a SID's revision or count.
fn move_byte(rng: &mut Rng, bytes: &mut [u8], at: usize) {
    if let Some(byte) = bytes.get_mut(at) {
        let beside = [byte.wrapping_add(1), byte.wrapping_sub(1)];
        *byte = rng.pick(&[0, 1, 2, 15, 16, 255, beside[0], beside[1]]);
    }
}

/// Moves a size or a count.
fn move_half(rng: &mut Rng, bytes: &mut [u8], at: usize) {
    if at + 2 <= bytes.len() {
        let number = usize::from(u16::from_le_bytes([bytes[at], bytes[at + 1]]));
        let beside = [number.wrapping_add(1), number.wrapping_sub(1)];
        let moved = rng.pick(&[0, 3, 4, 7, 8, 65_535, beside[0], beside[1]]);
        put_half(bytes, at, moved);
    }
}

/// Moves an offset: to a boundary, to the end, or to another item, of the other kind too.
fn move_offset(rng: &mut Rng, made: &mut Made) {
    let at = rng.pick(&[4, 8, 12, 16]);
    let end = made.bytes.len() as u32;
    let number = number_at(&made.bytes, at);
    let moved = rng.moved(number);
    let items: Vec<usize> = made.sids.iter().chain(&made.acls).copied().collect();
    let other = named(rng, &items);
    let number = rng.pick(&[moved, other, 1, 19, 20, end, end - 1, end - 8]);
    put_number(&mut made.bytes, at, number);
}

/// Names what would be an item but for its place: a SID or an ACL at offset 1, inside the head.
fn inside_head(rng: &mut Rng, bytes: &mut Vec<u8>) {
    // The SID's revision and its count of 0. The ACL's size is 128, from the control's upper byte on, and its count 0.
    bytes[1] = 1;
    bytes[2] = 0;
    bytes[3] = 0x80;
    put_number(bytes, 4, 0);
    bytes.resize(bytes.len().max(129), 0);
    put_number(bytes, rng.pick(&[8, 12, 16]), 1);
}
