//! A record of a trace laid out by hand: each field is shown under its own name, and each bit that a record may not have is
//! refused.

use gishwarem::{FileTime, Recorded, Refusal, Request, Rights, RootId};

/// A record whose fields are all different: a root, seed rights, the verdict yes.
const RECORD: [u8; 37] = [
    0x01,
    0x02,
    0x03,
    0x04,
    0x05,
    0x06,
    0x07,
    0x08,        // clock
    0b1101_0000, // root given, rights, verdict, spare
    0x00,
    0x00,
    0x00,
    0x05, // L0 index
    0xFF,
    0xFF,
    0xFF,
    0xFF, // L1 index
    0x80,
    0x00,
    0x00,
    0x00, // L2 index
    0xA0,
    0xA1,
    0xA2,
    0xA3,
    0xA4,
    0xA5,
    0xA6,
    0xA7, // root key
    0xA8,
    0xA9,
    0xAA,
    0xAB,
    0xAC,
    0xAD,
    0xAE,
    0xAF,
];

/// No root, no rights, the verdict no.
const ZEROS: [u8; 37] = [0; 37];

fn read_with(mut record: [u8; 37], at: usize, byte: u8) -> Result<Recorded, Refusal> {
    record[at] = byte;
    Recorded::read(&record)
}

#[test]
fn a_reader_shows_what_is_laid_out() {
    let root = [
        0xA0, 0xA1, 0xA2, 0xA3, 0xA4, 0xA5, 0xA6, 0xA7, 0xA8, 0xA9, 0xAA, 0xAB, 0xAC, 0xAD, 0xAE,
        0xAF,
    ];
    let expected = Recorded {
        clock: FileTime(0x0102_0304_0506_0708),
        rights: Rights::Seed,
        verdict: true,
        request: Request::named(Some(RootId(root)), 5, -1, i32::MIN),
    };
    assert_eq!(Recorded::read(&RECORD), Ok(expected));

    // What follows it is not looked at.
    let longer = [&RECORD[..], &[0xFF; 37]].concat();
    assert_eq!(Recorded::read(&longer), Ok(expected));
}

#[test]
fn each_of_the_first_four_flags_has_its_field() {
    for (byte, root, rights, verdict) in [
        (0b0000_0000, None, Rights::None, false),
        (0b1000_0000, Some(RootId([0; 16])), Rights::None, false),
        (0b0010_0000, None, Rights::Public, false),
        (0b0100_0000, None, Rights::Seed, false),
        (0b0001_0000, None, Rights::None, true),
    ] {
        let expected = Recorded {
            clock: FileTime(0),
            rights,
            verdict,
            request: Request::named(root, 0, 0, 0),
        };
        assert_eq!(read_with(ZEROS, 8, byte), Ok(expected), "{byte:08b}");
    }
}

#[test]
fn each_spare_bit_is_refused() {
    for bit in 0..4 {
        let flags = 1 << bit;
        assert_eq!(read_with(ZEROS, 8, flags), Err(Refusal::MalformedRecord));
        let flags = 0b1101_0000 | flags;
        assert_eq!(read_with(RECORD, 8, flags), Err(Refusal::MalformedRecord));
    }
}

#[test]
fn rights_3_are_refused() {
    for flags in [0b0110_0000, 0b0111_0000, 0b1110_0000, 0b1111_0000] {
        assert_eq!(read_with(ZEROS, 8, flags), Err(Refusal::MalformedRecord));
    }
}

#[test]
fn each_bit_of_a_root_key_is_refused_while_none_is_given() {
    for at in 21..37 {
        for bit in 0..8 {
            let refused = read_with(ZEROS, at, 1 << bit);
            assert_eq!(refused, Err(Refusal::MalformedRecord), "byte {at}");
        }
    }
}

#[test]
fn each_cut_is_refused() {
    for length in 0..37 {
        for record in [RECORD, ZEROS] {
            let refused = Recorded::read(&record[..length]);
            assert_eq!(refused, Err(Refusal::MalformedRecord), "{length} bytes");
        }
    }
}
