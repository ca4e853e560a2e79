//! The record of a trace: a request as it was recorded (document 02, No. 7).

use crate::decision::{Request, Rights};

/// The length of a record.
pub const LENGTH: usize = 37;

/// What an accepted record shows.
#[derive(Debug, Clone, Copy, PartialEq, Eq)]
pub struct Record {
    /// The clock.
    pub clock: u64,
    /// The rights.
    pub rights: Rights,
    /// The verdict on the security descriptor.
    pub verdict: bool,
    /// The request.
    pub request: Request,
}

/// Reads the record at the start of `bytes`. Refuses 26 if it is cut, a spare
/// bit is set, the rights are 3, or identifier bits are set while no root is
/// given.
pub fn read(bytes: &[u8]) -> Result<Record, u32> {
    if bytes.len() < LENGTH {
        return Err(26);
    }
    let mut bits = bits(bytes);
    let mut field = |width| number(&mut bits, width);

    let clock = field(64) as u64;
    let root_given = field(1) == 1;
    let rights = match field(2) {
        0 => Rights::None,
        1 => Rights::Public,
        2 => Rights::Seed,
        _ => return Err(26),
    };
    let verdict = field(1) == 1;
    if field(4) != 0 {
        return Err(26);
    }
    let mut index = || signed(field(32));
    let (l0, l1, l2) = (index(), index(), index());
    let root = match (root_given, field(128)) {
        (true, identifier) => Some(identifier.to_be_bytes()),
        (false, 0) => None,
        (false, _) => return Err(26),
    };
    Ok(Record {
        clock,
        rights,
        verdict,
        request: Request { root, l0, l1, l2 },
    })
}

/// The bits of these bytes, most significant first.
fn bits(bytes: &[u8]) -> impl Iterator<Item = u8> + '_ {
    bytes
        .iter()
        .flat_map(|byte| (0..8).rev().map(move |place| byte >> place & 1))
}

/// The number in the next so many bits.
fn number(bits: &mut impl Iterator<Item = u8>, width: usize) -> u128 {
    bits.take(width)
        .fold(0, |number, bit| 2 * number + u128::from(bit))
}

/// The number that 32 bits have in two's complement.
fn signed(number: u128) -> i32 {
    let number = number as i64;
    let value = if number < 1 << 31 {
        number
    } else {
        number - (1 << 32)
    };
    value as i32
}

#[cfg(test)]
mod tests {
    use super::*;

    /// Fields that are all different: clock 0x0102030405060708, root given, seed
    /// rights, verdict yes, (5,-1,-2147483648), root 0xA0 to 0xAF.
    const FIELDS: [u8; 37] = [
        1, 2, 3, 4, 5, 6, 7, 8, 0xD0, //
        0, 0, 0, 5, 0xFF, 0xFF, 0xFF, 0xFF, 0x80, 0, 0, 0, //
        0xA0, 0xA1, 0xA2, 0xA3, 0xA4, 0xA5, 0xA6, 0xA7, //
        0xA8, 0xA9, 0xAA, 0xAB, 0xAC, 0xAD, 0xAE, 0xAF,
    ];

    /// All zeros: no root, no rights, verdict no.
    const ZEROS: [u8; 37] = [0; 37];

    fn with(bytes: [u8; 37], at: usize, value: u8) -> Result<Record, u32> {
        let mut bytes = bytes;
        bytes[at] = value;
        read(&bytes)
    }

    #[test]
    fn each_field() {
        let root = [
            0xA0, 0xA1, 0xA2, 0xA3, 0xA4, 0xA5, 0xA6, 0xA7, 0xA8, 0xA9, 0xAA, 0xAB, 0xAC, 0xAD,
            0xAE, 0xAF,
        ];
        assert_eq!(
            read(&FIELDS),
            Ok(Record {
                clock: 0x0102_0304_0506_0708,
                rights: Rights::Seed,
                verdict: true,
                request: Request {
                    root: Some(root),
                    l0: 5,
                    l1: -1,
                    l2: i32::MIN,
                },
            })
        );
        assert_eq!(
            read(&ZEROS),
            Ok(Record {
                clock: 0,
                rights: Rights::None,
                verdict: false,
                request: Request {
                    root: None,
                    l0: 0,
                    l1: 0,
                    l2: 0,
                },
            })
        );
    }

    #[test]
    fn byte_8() {
        for (byte, given, rights, verdict) in [
            (0x00, false, Rights::None, false),
            (0x10, false, Rights::None, true),
            (0x20, false, Rights::Public, false),
            (0x40, false, Rights::Seed, false),
            (0x80, true, Rights::None, false),
            (0xD0, true, Rights::Seed, true),
        ] {
            let record = with(ZEROS, 8, byte).unwrap();
            assert_eq!(record.request.root, given.then_some([0; 16]));
            assert_eq!((record.rights, record.verdict), (rights, verdict));
        }
        // Rights 3, whatever stands beside them.
        for byte in [0x60, 0x70, 0xE0, 0xF0] {
            assert_eq!(with(ZEROS, 8, byte), Err(26));
        }
        // Each spare bit.
        for bit in 0..4 {
            assert_eq!(with(ZEROS, 8, 1 << bit), Err(26));
            assert_eq!(with(FIELDS, 8, 0xD0 | 1 << bit), Err(26));
        }
    }

    #[test]
    fn indices_are_signed() {
        for (bytes, value) in [
            ([0, 0, 0, 0], 0),
            ([0, 0, 0, 31], 31),
            ([0x7F, 0xFF, 0xFF, 0xFF], i32::MAX),
            ([0x80, 0, 0, 0], i32::MIN),
            ([0xFF, 0xFF, 0xFF, 0xFE], -2),
            ([0xFF, 0xFF, 0xFF, 0xFF], -1),
            ([0, 0, 1, 0], 256),
        ] {
            for place in 0..3 {
                let mut record = ZEROS;
                record[9 + 4 * place..][..4].copy_from_slice(&bytes);
                let Request { l0, l1, l2, .. } = read(&record).unwrap().request;
                let mut expected = [0; 3];
                expected[place] = value;
                assert_eq!([l0, l1, l2], expected);
            }
        }
    }

    #[test]
    fn identifier_bits_without_a_root() {
        for at in 21..37 {
            for bit in 0..8 {
                assert_eq!(with(ZEROS, at, 1 << bit), Err(26));
            }
        }
        // With a root they may be anything, and all zeros is a root like others.
        assert_eq!(with(ZEROS, 8, 0x80).unwrap().request.root, Some([0; 16]));
    }

    #[test]
    fn lengths() {
        for length in 0..37 {
            assert_eq!(read(&ZEROS[..length]), Err(26));
            assert_eq!(read(&FIELDS[..length]), Err(26));
        }
        // Bytes after the record aren't looked at.
        let longer = [&FIELDS[..], &[0xFF; 40]].concat();
        assert_eq!(read(&longer), read(&FIELDS));
    }
}
