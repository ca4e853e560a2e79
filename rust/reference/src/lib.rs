//! A plain implementation of document 01 and of document 02's No. 1 to No. 7:
//! readers and writers for the Key List Entry (MS-EFSR 2.2.2.1.2), the EfsKey
//! (MS-GPEF 2.2.1.2.2), the Data Segment Encryption Header (MS-EFSR 2.2.3.3)
//! and the Group Key Envelope (MS-GKDI 2.2.4), a reader for a list of entries,
//! the GetKey decision (MS-GKDI 3.1.4.1) with its check of the security
//! descriptor (MS-DTYP 2.4.6), the replay of recorded requests, the reach of an
//! envelope and the choice between a cached and a fetched one.
//!
//! A refusal is the number that the documents give it, as a `u32`. The checks
//! run in the order given there per record, and the first that applies is the
//! answer.

#![forbid(unsafe_code)]
#![deny(missing_docs)]

pub mod choice;
pub mod decision;
pub mod descriptor;
pub mod efskey;
pub mod entry;
pub mod envelope;
pub mod list;
pub mod reach;
pub mod replay;
pub mod segment;
mod sid;
pub mod time;
pub mod trace;

/// A part of a record: where it stands and how long it is.
#[derive(Debug, Clone, Copy, PartialEq, Eq)]
pub struct Part {
    /// Where the part's first byte stands.
    pub at: usize,
    /// The part's length in bytes.
    pub len: usize,
}

impl Part {
    /// The part's bytes in the record that it is a part of.
    pub(crate) fn of(self, bytes: &[u8]) -> &[u8] {
        &bytes[self.at..self.at + self.len]
    }
}

/// The longest record or list; a longer one is refused with 1.
pub(crate) const MAX_LENGTH: usize = 65_535;

/// The 16-bit number at `at`, little-endian.
pub(crate) fn u16_at(bytes: &[u8], at: usize) -> u16 {
    u16::from_le_bytes([bytes[at], bytes[at + 1]])
}

/// The record number at `at`: 32-bit, unsigned, little-endian.
pub(crate) fn u32_at(bytes: &[u8], at: usize) -> u32 {
    let mut number = [0; 4];
    number.copy_from_slice(&bytes[at..at + 4]);
    u32::from_le_bytes(number)
}

/// Puts a record number at `at`: 32-bit, unsigned, little-endian.
pub(crate) fn put_u32(bytes: &mut [u8], at: usize, number: u32) {
    bytes[at..at + 4].copy_from_slice(&number.to_le_bytes());
}

/// The length of a record made of a head and bodies, or 1 if it is over the
/// limit. The sum stops at `usize::MAX` instead of wrapping, which is over the
/// limit as well.
pub(crate) fn record_length(head: usize, bodies: &[&[u8]]) -> Result<usize, u32> {
    let length = bodies
        .iter()
        .fold(head, |sum, body| sum.saturating_add(body.len()));
    if length > MAX_LENGTH {
        return Err(1);
    }
    Ok(length)
}

#[cfg(test)]
mod tests {
    use super::*;

    #[test]
    fn numbers_are_little_endian() {
        assert_eq!(u32_at(&[9, 0x78, 0x56, 0x34, 0x12], 1), 0x1234_5678);
        let mut bytes = [9; 6];
        put_u32(&mut bytes, 1, 0x1234_5678);
        assert_eq!(bytes, [9, 0x78, 0x56, 0x34, 0x12, 9]);
    }

    #[test]
    fn record_length_has_a_limit() {
        let body = [0; 65_535];
        assert_eq!(record_length(0, &[&body]), Ok(65_535));
        assert_eq!(record_length(1, &[&body]), Err(1));
        assert_eq!(record_length(usize::MAX, &[&body]), Err(1));
        assert_eq!(record_length(20, &[&body[..5], &[], &body[..7]]), Ok(32));
    }
}
