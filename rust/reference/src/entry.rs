//! The Key List Entry (MS-EFSR 2.2.2.1.2; document 01, "Key List Entry and
//! list").

use crate::{put_u32, record_length, u32_at, Part, MAX_LENGTH};

/// The length of the fixed head; the Data Fields run from here to the end.
pub(crate) const HEAD: usize = 20;

/// The longest unused run in the Data Fields.
const MAX_UNUSED: u64 = 8;

/// The algorithm that Flags names.
#[derive(Debug, Clone, Copy, PartialEq, Eq)]
pub enum Algorithm {
    /// Flags 0.
    Rsa,
    /// Flags 1.
    Aes256,
    /// Any other Flags.
    Unsupported,
}

impl Algorithm {
    fn of_flags(flags: u32) -> Self {
        match flags {
            0 => Algorithm::Rsa,
            1 => Algorithm::Aes256,
            _ => Algorithm::Unsupported,
        }
    }
}

/// What an accepted entry shows. Places count from the entry's first byte.
#[derive(Debug, Clone, Copy, PartialEq, Eq)]
pub struct Entry {
    /// The number in Flags.
    pub flags: u32,
    /// The algorithm that Flags names.
    pub algorithm: Algorithm,
    /// The public key item, its own length field included.
    pub item: Part,
    /// The encrypted FEK.
    pub fek: Part,
}

/// Reads one entry, which is all of `bytes`.
pub fn read(bytes: &[u8]) -> Result<Entry, u32> {
    if bytes.len() > MAX_LENGTH {
        return Err(1);
    }
    if bytes.len() < HEAD {
        return Err(2);
    }
    let head = HEAD as u64;
    let length = bytes.len() as u64;
    if u64::from(u32_at(bytes, 0)) != length {
        return Err(3);
    }

    // The public key item: its own length is read only where its first four
    // bytes lie inside the Data Fields.
    let item_at = u64::from(u32_at(bytes, 4));
    if item_at < head || item_at + 4 > length {
        return Err(6);
    }
    let item_length = u64::from(u32_at(bytes, item_at as usize));
    if item_length < 4 {
        return Err(7);
    }
    let item_end = item_at + item_length;
    if item_end > length {
        return Err(6);
    }

    // The encrypted FEK.
    let fek_length = u64::from(u32_at(bytes, 8));
    if fek_length == 0 {
        return Err(7);
    }
    let fek_at = u64::from(u32_at(bytes, 12));
    let fek_end = fek_at + fek_length;
    if fek_at < head || fek_end > length {
        return Err(6);
    }

    // The two stand in any order, but apart, and with short runs around them.
    let (first_at, first_end, second_at, second_end) = if item_end <= fek_at {
        (item_at, item_end, fek_at, fek_end)
    } else if fek_end <= item_at {
        (fek_at, fek_end, item_at, item_end)
    } else {
        return Err(8);
    };
    if first_at - head > MAX_UNUSED
        || second_at - first_end > MAX_UNUSED
        || length - second_end > MAX_UNUSED
    {
        return Err(9);
    }

    // Flags never refuse.
    let flags = u32_at(bytes, 16);
    Ok(Entry {
        flags,
        algorithm: Algorithm::of_flags(flags),
        item: Part {
            at: item_at as usize,
            len: item_length as usize,
        },
        fek: Part {
            at: fek_at as usize,
            len: fek_length as usize,
        },
    })
}

/// Writes an entry into the first bytes of `out` and tells its length: the
/// public key item at 20 and the FEK straight after.
pub fn write(out: &mut [u8], flags: u32, item: &[u8], fek: &[u8]) -> Result<usize, u32> {
    let length = record_length(HEAD, &[item, fek])?;
    if item.len() < 4 {
        return Err(7);
    }
    if u64::from(u32_at(item, 0)) != item.len() as u64 {
        return Err(3);
    }
    if fek.is_empty() {
        return Err(7);
    }
    let record = out.get_mut(..length).ok_or(13u32)?;

    let fek_at = HEAD + item.len();
    put_u32(record, 0, length as u32);
    put_u32(record, 4, HEAD as u32);
    put_u32(record, 8, fek.len() as u32);
    put_u32(record, 12, fek_at as u32);
    put_u32(record, 16, flags);
    record[HEAD..fek_at].copy_from_slice(item);
    record[fek_at..].copy_from_slice(fek);
    Ok(length)
}

#[cfg(test)]
mod tests {
    use super::*;

    /// An entry of `length` bytes with an item (p, n) and a FEK (f, e), all
    /// other bytes 0. The item's length is put at p if there is room for it.
    fn entry(length: usize, p: u32, n: u32, f: u32, e: u32) -> Vec<u8> {
        let mut bytes = vec![0; length];
        put_u32(&mut bytes, 0, length as u32);
        put_u32(&mut bytes, 4, p);
        put_u32(&mut bytes, 8, e);
        put_u32(&mut bytes, 12, f);
        if p as usize <= length - 4 {
            put_u32(&mut bytes, p as usize, n);
        }
        bytes
    }

    fn number(bytes: &[u8]) -> u32 {
        read(bytes).err().unwrap_or(0)
    }

    #[test]
    fn bench_cases() {
        assert_eq!(
            read(&entry(304, 20, 28, 48, 256)),
            Ok(Entry {
                flags: 0,
                algorithm: Algorithm::Rsa,
                item: Part { at: 20, len: 28 },
                fek: Part { at: 48, len: 256 },
            })
        );
        assert_eq!(number(&entry(312, 20, 28, 56, 256)), 0);
        assert_eq!(number(&entry(313, 20, 28, 57, 256)), 9);
        assert_eq!(number(&entry(303, 20, 28, 47, 256)), 8);
        assert_eq!(number(&entry(304, 20, 28, 4_294_967_295, 256)), 6);
    }

    #[test]
    fn length_limits() {
        assert_eq!(number(&entry(65_535, 20, 65_514, 65_534, 1)), 0);
        assert_eq!(number(&entry(65_536, 20, 65_515, 65_535, 1)), 1);
        assert_eq!(number(&[0; 19]), 2);
        assert_eq!(number(&[]), 2);
        // Twenty bytes are a whole head; their Length of 0 is wrong.
        assert_eq!(number(&[0; 20]), 3);
    }

    #[test]
    fn length_field_is_the_number_of_bytes() {
        for wrong in [0, 303, 305, 65_840, u32::MAX] {
            let mut bytes = entry(304, 20, 28, 48, 256);
            put_u32(&mut bytes, 0, wrong);
            assert_eq!(number(&bytes), 3);
        }
    }

    #[test]
    fn item_place() {
        // In the head, even with a sound number there.
        for p in 16..20 {
            assert_eq!(number(&entry(40, p, 8, 28, 12)), 6);
        }
        // Four bytes have to fit at p; of 24 bytes only p = 20 leaves them.
        assert_eq!(number(&entry(24, 21, 4, 20, 1)), 6);
        assert_eq!(number(&entry(20, 20, 4, 20, 1)), 6);
        assert_eq!(number(&entry(40, u32::MAX, 8, 28, 12)), 6);
        // 20 + 20 is the end, 20 + 21 is beyond it; so is a wrapping length.
        assert_eq!(number(&entry(40, 20, 20, 20, 1)), 8);
        assert_eq!(number(&entry(40, 20, 21, 20, 1)), 6);
        assert_eq!(number(&entry(40, 20, u32::MAX - 7, 28, 12)), 6);
    }

    #[test]
    fn item_length_comes_before_the_fek() {
        for n in 0..4 {
            assert_eq!(number(&entry(40, 20, n, 0, 0)), 7);
        }
        assert_eq!(number(&entry(40, 20, 4, 24, 16)), 0);
        // An item too long wins over an empty FEK.
        assert_eq!(number(&entry(40, 20, 21, 0, 0)), 6);
    }

    #[test]
    fn fek_place() {
        // Empty wins over a wrong place.
        assert_eq!(number(&entry(40, 20, 8, 0, 0)), 7);
        assert_eq!(number(&entry(40, 20, 8, 28, 12)), 0);
        assert_eq!(number(&entry(40, 20, 8, 28, 13)), 6);
        assert_eq!(number(&entry(40, 20, 8, 19, 1)), 6);
        assert_eq!(number(&entry(40, 20, 8, 40, 1)), 6);
        // 28 plus this wraps to 27 in 32 bits.
        assert_eq!(number(&entry(40, 20, 8, 28, u32::MAX)), 6);
    }

    #[test]
    fn overlap() {
        // Touching is no overlap, in either order.
        assert_eq!(number(&entry(25, 20, 4, 24, 1)), 0);
        assert_eq!(number(&entry(25, 21, 4, 20, 1)), 0);
        // One byte shared, in either order.
        assert_eq!(number(&entry(25, 20, 4, 23, 1)), 8);
        assert_eq!(number(&entry(25, 21, 4, 20, 2)), 8);
        // One inside the other, and nothing else possible in 24 bytes.
        assert_eq!(number(&entry(24, 20, 4, 20, 1)), 8);
    }

    #[test]
    fn unused_runs() {
        // Before, between and after; item first, then FEK first.
        assert_eq!(number(&entry(33, 28, 4, 32, 1)), 0);
        assert_eq!(number(&entry(34, 29, 4, 33, 1)), 9);
        assert_eq!(number(&entry(33, 20, 4, 32, 1)), 0);
        assert_eq!(number(&entry(34, 20, 4, 33, 1)), 9);
        assert_eq!(number(&entry(33, 20, 4, 24, 1)), 0);
        assert_eq!(number(&entry(34, 20, 4, 24, 1)), 9);
        assert_eq!(number(&entry(33, 29, 4, 28, 1)), 0);
        assert_eq!(number(&entry(34, 30, 4, 29, 1)), 9);
        assert_eq!(number(&entry(33, 29, 4, 20, 1)), 0);
        assert_eq!(number(&entry(34, 30, 4, 20, 1)), 9);
        assert_eq!(number(&entry(33, 21, 4, 20, 1)), 0);
        assert_eq!(number(&entry(34, 21, 4, 20, 1)), 9);
        // All three at their most: 20 + 8 + 4 + 8 + 1 + 8 = 49.
        assert_eq!(
            read(&entry(49, 28, 4, 40, 1)),
            Ok(Entry {
                flags: 0,
                algorithm: Algorithm::Rsa,
                item: Part { at: 28, len: 4 },
                fek: Part { at: 40, len: 1 },
            })
        );
    }

    #[test]
    fn flags_never_refuse() {
        for (flags, algorithm) in [
            (0, Algorithm::Rsa),
            (1, Algorithm::Aes256),
            (2, Algorithm::Unsupported),
            (u32::MAX, Algorithm::Unsupported),
        ] {
            let mut bytes = entry(25, 20, 4, 24, 1);
            put_u32(&mut bytes, 16, flags);
            let shown = read(&bytes).unwrap();
            assert_eq!((shown.flags, shown.algorithm), (flags, algorithm));
        }
    }

    #[test]
    fn written_bytes() {
        let mut out = [0xEE; 30];
        let item = [5, 0, 0, 0, 0xAB];
        assert_eq!(write(&mut out, 0x0102_0304, &item, &[0xC1, 0xC2]), Ok(27));
        assert_eq!(
            out,
            [
                27, 0, 0, 0, 20, 0, 0, 0, 2, 0, 0, 0, 25, 0, 0, 0, 4, 3, 2, 1, //
                5, 0, 0, 0, 0xAB, 0xC1, 0xC2, 0xEE, 0xEE, 0xEE
            ]
        );
        assert_eq!(
            read(&out[..27]),
            Ok(Entry {
                flags: 0x0102_0304,
                algorithm: Algorithm::Unsupported,
                item: Part { at: 20, len: 5 },
                fek: Part { at: 25, len: 2 },
            })
        );
    }

    #[test]
    fn writer_refusals() {
        let mut out = [0xEE; 24];
        let long = [0; 65_516];
        // 20 + 65,516 is too long, before any look at the contents.
        assert_eq!(write(&mut out, 0, &long, &[]), Err(1));
        assert_eq!(write(&mut out, 0, &[], &long), Err(1));
        // 20 + 65,515 isn't.
        assert_eq!(write(&mut out, 0, &long[..65_515], &[]), Err(3));
        assert_eq!(write(&mut out, 0, &[3, 0, 0], &[]), Err(7));
        assert_eq!(write(&mut out, 0, &[], &long[..65_515]), Err(7));
        assert_eq!(write(&mut out, 0, &[5, 0, 0, 0], &[]), Err(3));
        assert_eq!(write(&mut out, 0, &[4, 0, 0, 1], &[]), Err(3));
        assert_eq!(write(&mut out, 0, &[4, 0, 0, 0], &[]), Err(7));
        assert_eq!(write(&mut out, 0, &[4, 0, 0, 0], &[1]), Err(13));
        assert_eq!(out, [0xEE; 24]);
        let mut out = [0xEE; 25];
        assert_eq!(write(&mut out, 0, &[4, 0, 0, 0], &[1]), Ok(25));
    }

    #[test]
    fn longest_written() {
        let mut item = vec![0; 65_514];
        put_u32(&mut item, 0, 65_514);
        let mut out = vec![0; 65_535];
        assert_eq!(write(&mut out, 0, &item, &[1]), Ok(65_535));
        assert_eq!(read(&out).unwrap().fek, Part { at: 65_534, len: 1 });
        assert_eq!(write(&mut out, 0, &item, &[1, 2]), Err(1));
    }
}
