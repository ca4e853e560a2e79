//! A Data Segment Encryption Header laid out by hand: each number and each size is shown under its own name.

use gishwarem::{Refusal, Segment, SegmentHead};

/// A head whose numbers are all different, but for the chunk shift.
const HEAD: SegmentHead = SegmentHead {
    start_offset: 0x0807_0605_0403_0201,
    bytes_in_stream: 0x1413_1211,
    bytes_in_vdl: 0x2423_2221,
    unit_shift: 16,
    chunk_shift: 16,
    cluster_shift: 12,
};

/// Three sizes, one of them just larger than the data unit.
const SIZES: [u32; 3] = [0x1_0000, 0x1_0001, 0x0201];

/// The header of that head and those sizes, by the published layout, with these bytes behind it.
fn laid_out(after: &[u8]) -> Vec<u8> {
    let length = 28 + 4 * 3 + after.len() as u8;
    [
        &[1, 2, 3, 4, 5, 6, 7, 8][..],         // starting file offset
        &[length, 0, 0, 0],                    // Length
        &[0x11, 0x12, 0x13, 0x14],             // bytes within stream size
        &[0x21, 0x22, 0x23, 0x24],             // bytes within VDL
        &[0, 0],                               // fixed
        &[16, 16, 12],                         // data unit, chunk and cluster shift
        &[1],                                  // fixed
        &[3, 0],                               // number of data blocks
        &[0, 0, 1, 0, 1, 0, 1, 0, 1, 2, 0, 0], // data block sizes
        after,
    ]
    .concat()
}

#[test]
fn a_reader_shows_what_is_laid_out() {
    let bytes = laid_out(&[]);
    let segment = Segment::read(&bytes).expect("a segment");
    assert_eq!(segment.head(), HEAD);
    assert_eq!(segment.blocks(), 3);
    assert_eq!(segment.larger(), 1);
    assert!(segment.sizes().eq(SIZES));
    assert_eq!(segment.size_bytes(), &bytes[28..]);
}

#[test]
fn what_follows_the_sizes_is_ignored() {
    // An extended header's 16 bytes; read as sizes, they would be larger than the data unit.
    let bytes = laid_out(&[0xEE; 16]);
    let segment = Segment::read(&bytes).expect("a segment");
    assert_eq!(segment.head(), HEAD);
    assert_eq!(segment.larger(), 1);
    assert!(segment.sizes().eq(SIZES));
    assert_eq!(segment.size_bytes(), &bytes[28..40]);
}

#[test]
fn a_writer_lays_out_what_it_is_given() {
    let mut out = [0xFF; 41];
    assert_eq!(Segment::write(&mut out, &HEAD, &SIZES), Ok(40));
    assert_eq!(out[..40], laid_out(&[]));
    assert_eq!(out[40], 0xFF);
}

#[test]
fn a_shift_over_255_is_not_cut_off() {
    // Cut to a byte, both would be 16.
    let head = SegmentHead {
        unit_shift: 256 + 16,
        chunk_shift: 256 + 16,
        ..HEAD
    };
    let mut out = [0xFF; 40];
    let refused = Segment::write(&mut out, &head, &SIZES);
    assert_eq!(refused, Err(Refusal::WrongShifts));
    assert_eq!(out, [0xFF; 40]);
}
