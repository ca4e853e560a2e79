//! Data Segment Encryption Headers.

use gishwarem::SegmentHead;

use super::{junk_with, move_end, move_numbers, moved_length, put_number, valid_length};
use super::{Kind, LIMIT, LONG};
use crate::rng::Rng;

/// The length of the head.
const HEAD: usize = 28;

/// The length of a size.
const SIZE: usize = 4;

/// The most blocks that a record has room for.
pub const MOST: usize = (LIMIT - HEAD) / SIZE;

/// How much longer than the head a short segment is at most.
const SHORT: usize = 80;

/// Where Length stands.
pub const LENGTH: usize = 8;

/// Where the fixed bytes stand: two zeros, and a one.
const FIXED: [usize; 3] = [20, 21, 25];

/// Where the shifts stand: data unit, chunk and cluster.
const SHIFTS: [usize; 3] = [22, 23, 24];

/// Where the number of blocks stands.
const COUNT: usize = 26;

/// The length of an extended header, which may follow the sizes.
const EXTENDED: usize = 16;

/// Shifts where the rule turns, and some that would pass it if they were cut to a byte.
const TURNS: [u32; 9] = [0, 30, 31, 32, 64, 255, 256, 256 + 31, u32::MAX];

/// A segment before it is laid out, and what the writer is given.
pub struct Segment {
    /// The head's numbers.
    pub head: SegmentHead,
    /// The sizes of the blocks.
    pub sizes: Vec<u32>,
}

/// A shift from 0 to 31, often one of the ends.
fn shift(rng: &mut Rng) -> u32 {
    let any = rng.below(32) as u32;
    rng.pick(&[0, any, any, 31])
}

/// How many blocks a record of this length has room for.
fn blocks_in(length: usize) -> usize {
    (length - HEAD) / SIZE
}

impl Segment {
    /// A valid segment of so many blocks, which may be too many for a record.
    fn with(rng: &mut Rng, blocks: usize) -> Self {
        let unit_shift = shift(rng);
        let head = SegmentHead {
            start_offset: rng.draw(),
            bytes_in_stream: rng.number(),
            bytes_in_vdl: rng.number(),
            unit_shift,
            chunk_shift: unit_shift,
            cluster_shift: shift(rng),
        };
        let unit = 1 << unit_shift;
        let mut size = || {
            let any = rng.number();
            rng.pick(&[unit - 1, unit, unit + 1, any])
        };
        let sizes = (0..blocks).map(|_| size()).collect();
        Segment { head, sizes }
    }

    /// A valid segment, at times a long one.
    fn valid(rng: &mut Rng) -> Self {
        let length = valid_length(rng, HEAD, SHORT);
        Segment::with(rng, blocks_in(length))
    }

    /// A valid segment, at times with one block too many or with more than 16 bits can count, then mostly its shifts moved.
    fn moved(rng: &mut Rng) -> Self {
        let mut blocks = blocks_in(moved_length(rng, HEAD, SHORT));
        if rng.chance(4 * LONG) {
            blocks += 1 << 16;
        }
        let mut segment = Segment::with(rng, blocks);
        if !rng.chance(3) {
            segment.move_shifts(rng);
        }
        segment
    }

    /// Numbers by no rule.
    fn junk(rng: &mut Rng) -> Self {
        let blocks = rng.below(SHORT);
        let mut segment = Segment::with(rng, blocks);
        segment.head.unit_shift = rng.moved(9);
        segment.head.chunk_shift = rng.moved(9);
        segment.head.cluster_shift = rng.moved(12);
        segment
    }

    /// As the kind says.
    pub fn of(rng: &mut Rng, kind: Kind) -> Self {
        match kind {
            Kind::Valid => Segment::valid(rng),
            Kind::Moved => Segment::moved(rng),
            Kind::Junk => Segment::junk(rng),
        }
    }

    /// Moves a shift, or those of the data unit and the chunk alike.
    fn move_shifts(&mut self, rng: &mut Rng) {
        let moved = rng.pick(&TURNS);
        let head = &mut self.head;
        match rng.below(5) {
            0 => head.unit_shift = moved,
            1 => head.chunk_shift = moved,
            2 => head.cluster_shift = moved,
            // Cut to a byte, it would be what it was.
            3 => head.chunk_shift += 256,
            _ => (head.unit_shift, head.chunk_shift) = (moved, moved),
        }
    }

    /// The length of its record.
    pub fn length(&self) -> usize {
        HEAD + SIZE * self.sizes.len()
    }

    /// The bytes of its sizes.
    pub fn size_bytes(&self) -> Vec<u8> {
        self.sizes
            .iter()
            .flat_map(|size| size.to_le_bytes())
            .collect()
    }

    /// Its record, half of the time with bytes after the sizes as far as the limit allows. A shift and the number of blocks are
    /// cut to their bytes.
    fn bytes(&self, rng: &mut Rng) -> Vec<u8> {
        let some = rng.below(40);
        let spare = LIMIT.saturating_sub(self.length());
        let after = rng.pick(&[0, 0, EXTENDED, some]).min(spare);
        let length = self.length() + after;

        let head = &self.head;
        let mut bytes = head.start_offset.to_le_bytes().to_vec();
        for number in [length as u32, head.bytes_in_stream, head.bytes_in_vdl] {
            bytes.extend(number.to_le_bytes());
        }
        let shifts = [head.unit_shift, head.chunk_shift, head.cluster_shift];
        bytes.extend([0, 0]);
        bytes.extend(shifts.map(|shift| shift as u8));
        bytes.push(1);
        bytes.extend((self.sizes.len() as u16).to_le_bytes());
        bytes.extend(self.size_bytes());
        bytes.extend(rng.bytes(after));
        bytes
    }
}

/// A segment's record; moved, also one or two of its fields or its end.
pub fn record(rng: &mut Rng, kind: Kind) -> Vec<u8> {
    match kind {
        Kind::Valid => Segment::valid(rng).bytes(rng),
        Kind::Moved if rng.chance(3) => Segment::moved(rng).bytes(rng),
        Kind::Moved => {
            let mut bytes = Segment::valid(rng).bytes(rng);
            for _ in 0..rng.within(1, 2) {
                if bytes.len() >= HEAD {
                    move_one(rng, &mut bytes);
                }
            }
            bytes
        }
        Kind::Junk => junk_with(
            rng,
            &[
                (LENGTH, |length| length),
                // The zeros, and a data unit and a chunk shift that agree.
                (20, |length| length % 34 * 0x0101_0000),
                // A cluster shift, the one, and as many blocks as there is room for.
                (24, |length| {
                    length % 34 + 0x0100 + length.saturating_sub(28) / 4 * 0x1_0000
                }),
            ],
        ),
    }
}

/// Moves one field of a record to a boundary, or its end.
fn move_one(rng: &mut Rng, bytes: &mut Vec<u8>) {
    match rng.below(7) {
        0 => move_end(rng, bytes),
        1 => {
            // With a Length that agrees.
            move_end(rng, bytes);
            let length = bytes.len() as u32;
            if bytes.len() >= HEAD {
                put_number(bytes, LENGTH, length);
            }
        }
        2 => move_numbers(rng, bytes, &[LENGTH]),
        3 => bytes[rng.pick(&FIXED)] ^= 1 << rng.below(8),
        4 => bytes[rng.pick(&SHIFTS)] = rng.pick(&TURNS) as u8,
        _ => move_count(rng, bytes),
    }
}

/// Moves the number of blocks: to as many as there is room for, or one more, or so many that their bytes wrap in 16 bits.
fn move_count(rng: &mut Rng, bytes: &mut [u8]) {
    let most = blocks_in(bytes.len()) as u16;
    let any = rng.number() as u16;
    let count = rng.pick(&[0, most, most, most + 1, most + 0x4000, u16::MAX, any]);
    bytes[COUNT..HEAD].copy_from_slice(&count.to_le_bytes());
}

/// The index of a block: one that the record has, one at its count, or one far beyond, where its place wraps.
pub fn index(rng: &mut Rng, record: &[u8]) -> usize {
    let count = match record.get(COUNT..HEAD) {
        Some(count) => usize::from(u16::from_le_bytes([count[0], count[1]])),
        None => 0,
    };
    let near = rng.below(count + 1);
    let wraps = near + rng.pick(&[1 << 14, 1 << 16, 1 << 30, 1 << 32, 1 << 62]);
    let last = count.saturating_sub(1);
    rng.pick(&[near, near, 0, last, count, count + 1, wraps, usize::MAX])
}
