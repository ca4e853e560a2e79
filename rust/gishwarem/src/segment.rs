//! The Data Segment Encryption Header (MS-EFSR 2.2.3.3), read and written.

use std::iter::FusedIterator;

use crate::answer::{accepted, cut, written};
use crate::{calls, raw, Refusal};

/// The numbers of a segment's head, as a reader shows them and a writer takes them.
///
/// ```
/// use gishwarem::{Refusal, Segment, SegmentHead};
///
/// let head = SegmentHead {
///     start_offset: 0x1_0000_0000,
///     bytes_in_stream: 5000,
///     bytes_in_vdl: 4096,
///     unit_shift: 13,
///     chunk_shift: 13,
///     cluster_shift: 12,
/// };
/// let mut out = [0; 28];
/// Segment::write(&mut out, &head, &[])?;
/// assert_eq!(out[..8], [0, 0, 0, 0, 1, 0, 0, 0]); // starting file offset
/// assert_eq!(out[22..25], [13, 13, 12]); // shifts
/// assert_eq!(Segment::read(&out)?.head(), head);
///
/// // The chunk is the data unit, and no shift is over 31.
/// let write = |head| Segment::write(&mut [0; 28], &head, &[]);
/// let differ = SegmentHead { chunk_shift: 12, ..head };
/// assert_eq!(write(differ), Err(Refusal::WrongShifts));
/// let over_31 = SegmentHead { cluster_shift: 32, ..head };
/// assert_eq!(write(over_31), Err(Refusal::WrongShifts));
/// # Ok::<(), Refusal>(())
/// ```
#[derive(Debug, Clone, Copy, PartialEq, Eq, Hash, Default)]
pub struct SegmentHead {
    /// The offset, in the stream, of the segment's first data byte.
    pub start_offset: u64,
    /// How many of the segment's bytes lie within the stream size.
    pub bytes_in_stream: u32,
    /// How many of them lie within the valid data length (VDL).
    pub bytes_in_vdl: u32,
    /// The base-2 logarithm of the data unit size.
    pub unit_shift: u32,
    /// The base-2 logarithm of the chunk size, which is the data unit size.
    pub chunk_shift: u32,
    /// The base-2 logarithm of the cluster size.
    pub cluster_shift: u32,
}

impl From<raw::SegmentAnswer> for SegmentHead {
    fn from(answer: raw::SegmentAnswer) -> SegmentHead {
        SegmentHead {
            start_offset: answer.start_offset,
            bytes_in_stream: answer.bytes_in_stream,
            bytes_in_vdl: answer.bytes_in_vdl,
            unit_shift: answer.unit_shift,
            chunk_shift: answer.chunk_shift,
            cluster_shift: answer.cluster_shift,
        }
    }
}

/// A Data Segment Encryption Header that was accepted: the numbers of its head, and a size for
/// each data block. What follows the sizes, such as an extended header, is ignored.
///
/// ```
/// use gishwarem::{Segment, SegmentHead};
///
/// // Data units of 512 bytes; the third block is larger than that.
/// let head = SegmentHead { unit_shift: 9, chunk_shift: 9, ..SegmentHead::default() };
/// let mut out = [0; 64];
/// let length = Segment::write(&mut out, &head, &[512, 100, 513])?;
/// assert_eq!(length, 28 + 3 * 4);
///
/// // What was written reads back.
/// let segment = Segment::read(&out[..length])?;
/// assert_eq!(segment.head(), head);
/// assert!(segment.sizes().eq([512, 100, 513]));
/// assert_eq!(segment.larger(), 1);
/// # Ok::<(), gishwarem::Refusal>(())
/// ```
#[derive(Debug, Clone, Copy, PartialEq, Eq, Hash)]
pub struct Segment<'a> {
    record: &'a [u8],
    head: SegmentHead,
    blocks: u32,
    larger: u32,
    size_bytes: &'a [u8],
}

impl<'a> Segment<'a> {
    /// Reads a segment's header, which the bytes have to be from the first to the last.
    ///
    /// ```
    /// use gishwarem::{Refusal, Segment};
    ///
    /// // One data block of 7 bytes, and an extended header of 16 bytes behind its size.
    /// let mut bytes = [0; 28 + 4 + 16];
    /// bytes[8] = 48; // Length
    /// bytes[22..25].copy_from_slice(&[9, 9, 12]); // shifts
    /// bytes[25] = 1; // fixed
    /// bytes[26] = 1; // number of data blocks
    /// bytes[28] = 7; // the block's size
    /// bytes[32..].fill(0xEE);
    /// let segment = Segment::read(&bytes)?;
    /// assert_eq!(segment.blocks(), 1);
    /// assert_eq!(segment.size(0), Some(7));
    ///
    /// // Five sizes would just fit, six do not.
    /// bytes[26] = 5;
    /// assert_eq!(Segment::read(&bytes).map(|segment| segment.blocks()), Ok(5));
    /// bytes[26] = 6;
    /// assert_eq!(Segment::read(&bytes), Err(Refusal::LengthsDisagree));
    /// # Ok::<(), Refusal>(())
    /// ```
    pub fn read(bytes: &'a [u8]) -> Result<Segment<'a>, Refusal> {
        let answer = calls::segment_read(bytes);
        accepted(answer.refusal)?;
        Ok(Segment {
            record: bytes,
            head: answer.into(),
            blocks: answer.blocks,
            larger: answer.larger,
            size_bytes: cut(bytes, answer.sizes),
        })
    }

    /// The numbers of the head.
    ///
    /// ```
    /// use gishwarem::{Segment, SegmentHead};
    ///
    /// let head = SegmentHead { bytes_in_vdl: 4096, ..SegmentHead::default() };
    /// let mut out = [0; 28];
    /// Segment::write(&mut out, &head, &[])?;
    /// assert_eq!(Segment::read(&out)?.head().bytes_in_vdl, 4096);
    /// # Ok::<(), gishwarem::Refusal>(())
    /// ```
    pub fn head(&self) -> SegmentHead {
        self.head
    }

    /// The number of data blocks.
    ///
    /// ```
    /// use gishwarem::{Segment, SegmentHead};
    ///
    /// let mut out = [0; 36];
    /// Segment::write(&mut out, &SegmentHead::default(), &[1, 1])?;
    /// assert_eq!(Segment::read(&out)?.blocks(), 2);
    /// # Ok::<(), gishwarem::Refusal>(())
    /// ```
    pub fn blocks(&self) -> u32 {
        self.blocks
    }

    /// How many of the data blocks are larger than the data unit. They may be, across the VDL or
    /// a hole.
    ///
    /// ```
    /// use gishwarem::{Segment, SegmentHead};
    ///
    /// // The largest data unit there is, of 2 to the 31 bytes.
    /// let head = SegmentHead { unit_shift: 31, chunk_shift: 31, ..SegmentHead::default() };
    /// let mut out = [0; 36];
    /// Segment::write(&mut out, &head, &[1 << 31, (1 << 31) + 1])?;
    /// assert_eq!(Segment::read(&out)?.larger(), 1);
    /// # Ok::<(), gishwarem::Refusal>(())
    /// ```
    pub fn larger(&self) -> u32 {
        self.larger
    }

    /// The size of the data block at an index from 0, which there is none of from the count on.
    ///
    /// ```
    /// use gishwarem::{Segment, SegmentHead};
    ///
    /// let mut out = [0; 36];
    /// Segment::write(&mut out, &SegmentHead::default(), &[7, 0x0102_0304])?;
    /// let segment = Segment::read(&out)?;
    /// assert_eq!(segment.size(1), Some(0x0102_0304));
    /// assert_eq!(segment.size(2), None);
    /// assert_eq!(segment.size(usize::MAX), None);
    /// # Ok::<(), gishwarem::Refusal>(())
    /// ```
    pub fn size(&self, index: usize) -> Option<u32> {
        let answer = calls::segment_size(self.record, index);
        accepted(answer.refusal).expect("an accepted segment is not refused");
        (answer.found == 1).then_some(answer.size)
    }

    /// The sizes of the data blocks, in their order.
    ///
    /// ```
    /// use gishwarem::{Segment, SegmentHead};
    ///
    /// let mut out = [0; 36];
    /// Segment::write(&mut out, &SegmentHead::default(), &[7, 9])?;
    /// let mut sizes = Segment::read(&out)?.sizes();
    /// assert_eq!(sizes.len(), 2);
    /// assert_eq!(sizes.next(), Some(7));
    /// assert_eq!(sizes.next(), Some(9));
    /// assert_eq!(sizes.next(), None);
    /// # Ok::<(), gishwarem::Refusal>(())
    /// ```
    pub fn sizes(&self) -> impl ExactSizeIterator<Item = u32> + FusedIterator + 'a {
        let segment = *self;
        (0..segment.blocks as usize)
            .map(move |index| segment.size(index).expect("a segment has its blocks"))
    }

    /// The bytes of the sizes, four for each data block, least significant first.
    ///
    /// ```
    /// use gishwarem::{Segment, SegmentHead};
    ///
    /// let mut out = [0; 36];
    /// Segment::write(&mut out, &SegmentHead::default(), &[7, 0x0102_0304])?;
    /// assert_eq!(Segment::read(&out)?.size_bytes(), [7, 0, 0, 0, 4, 3, 2, 1]);
    /// # Ok::<(), gishwarem::Refusal>(())
    /// ```
    pub fn size_bytes(&self) -> &'a [u8] {
        self.size_bytes
    }

    /// Writes a segment's header at the start of `out`, with nothing behind the sizes, and answers
    /// its length. The bytes behind it stay; a refusal changes no byte.
    ///
    /// ```
    /// use gishwarem::{Refusal, Segment, SegmentHead};
    ///
    /// let head = SegmentHead::default();
    /// let mut out = [0xFF; 33];
    /// assert_eq!(Segment::write(&mut out, &head, &[7]), Ok(32));
    /// assert_eq!(out[8..12], [32, 0, 0, 0]); // Length
    /// assert_eq!(out[20..28], [0, 0, 0, 0, 0, 1, 1, 0]); // fixed, shifts, fixed, number of blocks
    /// assert_eq!(out[28..], [7, 0, 0, 0, 0xFF]);
    ///
    /// let refused = Segment::write(&mut out[..31], &head, &[7]);
    /// assert_eq!(refused, Err(Refusal::NoRoom));
    ///
    /// // 65,535 bytes have room for 16,376 sizes.
    /// let refused = Segment::write(&mut out, &head, &[7; 16_377]);
    /// assert_eq!(refused, Err(Refusal::TooLong));
    /// ```
    pub fn write(out: &mut [u8], head: &SegmentHead, sizes: &[u32]) -> Result<usize, Refusal> {
        written(calls::segment_write(out, head, sizes))
    }
}
