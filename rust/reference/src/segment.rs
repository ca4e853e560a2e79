//! The Data Segment Encryption Header (MS-EFSR 2.2.3.3; document 02, No. 1).

use crate::{put_u32, u16_at, u32_at, Part, MAX_LENGTH};

/// The length of the fixed head; the block sizes stand from here on.
const HEAD: usize = 28;

/// The length of a block size.
const SIZE: usize = 4;

/// The two fixed bytes at 20.
const ZEROS: [u8; 2] = [0, 0];

/// The fixed byte at 25.
const ONE: u8 = 1;

/// The highest shift.
const MAX_SHIFT: u32 = 31;

/// The numbers of a segment that stand in its head and that a writer is given.
#[derive(Debug, Clone, Copy, PartialEq, Eq)]
pub struct Head {
    /// The starting file offset.
    pub start_offset: u64,
    /// The bytes within the stream size.
    pub bytes_in_stream: u32,
    /// The bytes within the VDL.
    pub bytes_in_vdl: u32,
    /// The data unit shift.
    pub unit_shift: u32,
    /// The chunk shift.
    pub chunk_shift: u32,
    /// The cluster shift.
    pub cluster_shift: u32,
}

impl Head {
    /// Refuses 25 if chunk and unit shift differ or any of the three is over 31.
    fn check_shifts(&self) -> Result<(), u32> {
        let shifts = [self.unit_shift, self.chunk_shift, self.cluster_shift];
        if self.chunk_shift != self.unit_shift || shifts.iter().any(|&shift| shift > MAX_SHIFT) {
            return Err(25);
        }
        Ok(())
    }

    /// The size of the data unit.
    fn unit(&self) -> u32 {
        1 << self.unit_shift
    }
}

/// What an accepted segment shows.
#[derive(Debug, Clone, Copy, PartialEq, Eq)]
pub struct Segment {
    /// The number in Length.
    pub length: u32,
    /// The numbers in the head.
    pub head: Head,
    /// The number of data blocks.
    pub blocks: u32,
    /// How many of the blocks are larger than the data unit.
    pub larger: u32,
    /// The block sizes, four bytes each.
    pub sizes: Part,
}

/// Reads one segment, which is all of `bytes`.
pub fn read(bytes: &[u8]) -> Result<Segment, u32> {
    let (head, sizes) = judge(bytes)?;
    Ok(Segment {
        length: u32_at(bytes, 8),
        head,
        blocks: (sizes.len / SIZE) as u32,
        larger: count_larger(sizes.of(bytes), head.unit()),
        sizes,
    })
}

/// The size of the block with this index, counted from 0, if there is one.
pub fn size(bytes: &[u8], index: usize) -> Result<Option<u32>, u32> {
    let (_, sizes) = judge(bytes)?;
    let mut sizes = sizes.of(bytes).chunks_exact(SIZE);
    Ok(sizes.nth(index).map(|size| u32_at(size, 0)))
}

/// Runs the checks, and tells the head's numbers and where the block sizes
/// stand. Bytes after the sizes are ignored.
fn judge(bytes: &[u8]) -> Result<(Head, Part), u32> {
    if bytes.len() > MAX_LENGTH {
        return Err(1);
    }
    if bytes.len() < HEAD {
        return Err(2);
    }
    let sizes = Part {
        at: HEAD,
        len: SIZE * usize::from(u16_at(bytes, 26)),
    };
    if u32_at(bytes, 8) as usize != bytes.len() || bytes.len() < HEAD + sizes.len {
        return Err(3);
    }
    if bytes[20..22] != ZEROS || bytes[25] != ONE {
        return Err(4);
    }
    let head = read_head(bytes);
    head.check_shifts()?;
    Ok((head, sizes))
}

fn read_head(bytes: &[u8]) -> Head {
    let mut start_offset = [0; 8];
    start_offset.copy_from_slice(&bytes[..8]);
    Head {
        start_offset: u64::from_le_bytes(start_offset),
        bytes_in_stream: u32_at(bytes, 12),
        bytes_in_vdl: u32_at(bytes, 16),
        unit_shift: u32::from(bytes[22]),
        chunk_shift: u32::from(bytes[23]),
        cluster_shift: u32::from(bytes[24]),
    }
}

/// How many of these sizes are larger than the data unit.
fn count_larger(sizes: &[u8], unit: u32) -> u32 {
    sizes
        .chunks_exact(SIZE)
        .map(|size| u32::from(u32_at(size, 0) > unit))
        .sum()
}

/// Writes a segment into the first bytes of `out` and tells its length. Length
/// and the number of blocks are derived from the sizes, and no byte is written
/// after them.
pub fn write(out: &mut [u8], head: &Head, sizes: &[u32]) -> Result<usize, u32> {
    // A slice has at most `isize::MAX` bytes, so the sum doesn't wrap.
    let length = HEAD + size_of_val(sizes);
    if length > MAX_LENGTH {
        return Err(1);
    }
    head.check_shifts()?;
    let record = out.get_mut(..length).ok_or(13u32)?;

    let blocks = sizes.len() as u16;
    write_head(record, head);
    put_u32(record, 8, length as u32);
    record[26..HEAD].copy_from_slice(&blocks.to_le_bytes());
    for (bytes, size) in record[HEAD..].chunks_exact_mut(SIZE).zip(sizes) {
        bytes.copy_from_slice(&size.to_le_bytes());
    }
    Ok(length)
}

fn write_head(record: &mut [u8], head: &Head) {
    record[..8].copy_from_slice(&head.start_offset.to_le_bytes());
    put_u32(record, 12, head.bytes_in_stream);
    put_u32(record, 16, head.bytes_in_vdl);
    record[20..22].copy_from_slice(&ZEROS);
    record[22] = head.unit_shift as u8;
    record[23] = head.chunk_shift as u8;
    record[24] = head.cluster_shift as u8;
    record[25] = ONE;
}

#[cfg(test)]
mod tests {
    use super::*;

    /// Numbers that are all different, but for the chunk shift; data units of
    /// 512 bytes.
    const NUMBERS: Head = Head {
        start_offset: 0x0807_0605_0403_0201,
        bytes_in_stream: 0x1413_1211,
        bytes_in_vdl: 0x2423_2221,
        unit_shift: 9,
        chunk_shift: 9,
        cluster_shift: 12,
    };

    /// Those numbers with two blocks, the second one byte larger than the data
    /// unit.
    const TWO: [u8; 36] = [
        1, 2, 3, 4, 5, 6, 7, 8, 36, 0, 0, 0, 0x11, 0x12, 0x13, 0x14, //
        0x21, 0x22, 0x23, 0x24, 0, 0, 9, 9, 12, 1, 2, 0, //
        0, 2, 0, 0, 1, 2, 0, 0,
    ];

    fn number(bytes: &[u8]) -> u32 {
        let number = read(bytes).err().unwrap_or(0);
        assert_eq!(size(bytes, 0).err().unwrap_or(0), number);
        number
    }

    fn number_with(at: usize, value: u8) -> u32 {
        let mut bytes = TWO;
        bytes[at] = value;
        number(&bytes)
    }

    /// A segment of these shifts and sizes.
    fn written(shift: u32, sizes: &[u32]) -> Vec<u8> {
        let head = Head {
            unit_shift: shift,
            chunk_shift: shift,
            ..NUMBERS
        };
        let mut out = vec![0xEE; HEAD + SIZE * sizes.len()];
        assert_eq!(write(&mut out, &head, sizes), Ok(out.len()));
        out
    }

    #[test]
    fn two_blocks() {
        assert_eq!(
            read(&TWO),
            Ok(Segment {
                length: 36,
                head: NUMBERS,
                blocks: 2,
                larger: 1,
                sizes: Part { at: 28, len: 8 },
            })
        );
        let mut out = [0xEE; 38];
        assert_eq!(write(&mut out, &NUMBERS, &[512, 513]), Ok(36));
        assert_eq!(out[..36], TWO);
        assert_eq!(out[36..], [0xEE; 2]);
    }

    #[test]
    fn no_block() {
        let bytes = written(9, &[]);
        let shown = read(&bytes).unwrap();
        assert_eq!((shown.length, shown.blocks, shown.larger), (28, 0, 0));
        assert_eq!(shown.sizes, Part { at: 28, len: 0 });
        assert_eq!(size(&bytes, 0), Ok(None));
    }

    #[test]
    fn length_limits() {
        let mut bytes = written(9, &[0; 16_376]);
        assert_eq!(number(&bytes), 0);
        bytes.resize(65_535, 0);
        put_u32(&mut bytes, 8, 65_535);
        assert_eq!(number(&bytes), 0);
        bytes.push(0);
        put_u32(&mut bytes, 8, 65_536);
        assert_eq!(number(&bytes), 1);
        assert_eq!(number(&TWO[..27]), 2);
        assert_eq!(number(&[]), 2);
        assert_eq!(number(&TWO[..28]), 3);
    }

    #[test]
    fn lengths() {
        for wrong in [0, 28, 35, 37, 36 + 256] {
            let mut bytes = TWO;
            put_u32(&mut bytes, 8, wrong);
            assert_eq!(number(&bytes), 3);
        }
        // More blocks than there is room for, in either byte of the count.
        assert_eq!(number_with(26, 3), 3);
        assert_eq!(number_with(27, 1), 3);
        assert_eq!(number_with(27, 0x40), 3);
        assert_eq!(number_with(27, 0xFF), 3);
        // Before the marks.
        let mut bytes = TWO;
        bytes[26] = 3;
        bytes[25] = 0;
        assert_eq!(number(&bytes), 3);
    }

    #[test]
    fn marks() {
        for (at, wrong) in [(20, 1), (21, 0x80), (25, 0), (25, 2), (25, 0x81)] {
            assert_eq!(number_with(at, wrong), 4);
        }
        // Before the shifts.
        let mut bytes = TWO;
        bytes[20] = 1;
        bytes[22] = 32;
        assert_eq!(number(&bytes), 4);
    }

    #[test]
    fn shifts() {
        // Unit and chunk differ.
        assert_eq!(number_with(22, 8), 25);
        assert_eq!(number_with(23, 10), 25);
        // The cluster's stands alone.
        assert_eq!(number_with(24, 0), 0);
        assert_eq!(number_with(24, 31), 0);
        assert_eq!(number_with(24, 32), 25);
        // Unit and chunk alike.
        for (shift, expected) in [(0, 0), (31, 0), (32, 25), (255, 25)] {
            let mut bytes = TWO;
            bytes[22..24].fill(shift);
            assert_eq!(number(&bytes), expected);
        }
    }

    #[test]
    fn larger_is_strictly_more() {
        let larger = |shift, sizes: &[u32]| read(&written(shift, sizes)).unwrap().larger;
        assert_eq!(larger(0, &[0, 1, 2, u32::MAX]), 2);
        assert_eq!(larger(9, &[511, 512, 513]), 1);
        // At 31 a size can still be larger.
        assert_eq!(larger(31, &[0x7FFF_FFFF, 0x8000_0000]), 0);
        assert_eq!(larger(31, &[0x8000_0001, u32::MAX]), 2);
        assert_eq!(larger(9, &[513; 16_376]), 16_376);
    }

    #[test]
    fn bytes_after_the_sizes_are_ignored() {
        let shown = read(&TWO).unwrap();
        for more in 1..=20 {
            let mut bytes = TWO.to_vec();
            bytes.resize(36 + more, 0xFF);
            bytes[8] += more as u8;
            let length = shown.length + more as u32;
            assert_eq!(read(&bytes), Ok(Segment { length, ..shown }));
            assert_eq!(size(&bytes, 2), Ok(None));
        }
        // With a count of 1 the second size is such bytes too.
        let mut bytes = TWO;
        bytes[26] = 1;
        assert_eq!(read(&bytes).unwrap().larger, 0);
    }

    #[test]
    fn sizes_by_index() {
        let bytes = written(9, &[0x0403_0201, u32::MAX, 0]);
        assert_eq!(size(&bytes, 0), Ok(Some(0x0403_0201)));
        assert_eq!(size(&bytes, 1), Ok(Some(u32::MAX)));
        assert_eq!(size(&bytes, 2), Ok(Some(0)));
        // Four times the last three wraps, in 32 bits or in 64.
        for beyond in [3, 4, 65_536, 1 << 30, 1 << 62, usize::MAX] {
            assert_eq!(size(&bytes, beyond), Ok(None));
        }
    }

    #[test]
    fn writer_refusals() {
        let with_shifts = |unit_shift, chunk_shift, cluster_shift| Head {
            unit_shift,
            chunk_shift,
            cluster_shift,
            ..NUMBERS
        };
        let mut out = [0xEE; 31];
        // 28 + 4 * 16,377 is too long, before any look at the shifts.
        assert_eq!(write(&mut out, &with_shifts(1, 2, 3), &[0; 16_377]), Err(1));
        assert_eq!(write(&mut out, &NUMBERS, &[0; 65_536]), Err(1));
        assert_eq!(
            write(&mut out, &with_shifts(1, 2, 3), &[0; 16_376]),
            Err(25)
        );
        for (unit, chunk, cluster) in [
            (9, 8, 0),
            (32, 32, 0),
            (9, 9, 32),
            (9, 9, 255),
            (256, 256, 0),
            (9, 9, 256),
            (9 + 256, 9, 0),
            (9, 9 + 256, 0),
            (u32::MAX, u32::MAX, 0),
        ] {
            let head = with_shifts(unit, chunk, cluster);
            assert_eq!(write(&mut out, &head, &[1]), Err(25));
        }
        assert_eq!(write(&mut out, &NUMBERS, &[1]), Err(13));
        assert_eq!(write(&mut out, &NUMBERS, &[0; 16_376]), Err(13));
        assert_eq!(out, [0xEE; 31]);
        assert_eq!(write(&mut out, &NUMBERS, &[]), Ok(28));
        assert_eq!(out[28..], [0xEE; 3]);
    }
}
