//! The EfsKey (MS-GPEF 2.2.1.2.2; document 01, "EfsKey"; document 02, No. 2).

use crate::sid::is_sid;
use crate::{put_u32, record_length, u32_at, Part, MAX_LENGTH};

/// The length of the fixed head.
const HEAD: usize = 32;

/// Both offsets count from byte 4, where Length2 stands.
const ORIGIN: usize = 4;

/// The first offset after the head.
const FIRST_OFFSET: u32 = (HEAD - ORIGIN) as u32;

/// The number in Reserved1: 02 00 00 00.
const RESERVED1: u32 = 2;

/// What stands in the SID's place.
#[derive(Debug, Clone, Copy, PartialEq, Eq)]
pub enum Sid {
    /// Nothing: the SID offset is 0.
    Absent,
    /// Zeros, at least one: no hint given.
    NoHint(Part),
    /// A SID.
    Given(Part),
}

/// What an accepted EfsKey shows. Places count from byte 0 of the record.
#[derive(Debug, Clone, Copy, PartialEq, Eq)]
pub struct EfsKey {
    /// The SID, or what stands for it.
    pub sid: Sid,
    /// The certificate.
    pub certificate: Part,
}

/// Reads one EfsKey, which is all of `bytes`.
pub fn read(bytes: &[u8]) -> Result<EfsKey, u32> {
    if bytes.len() > MAX_LENGTH {
        return Err(1);
    }
    if bytes.len() < HEAD {
        return Err(2);
    }
    let length = bytes.len() as u64;
    if u64::from(u32_at(bytes, 0)) != length || u64::from(u32_at(bytes, 4)) != length - 4 {
        return Err(3);
    }
    if u32_at(bytes, 12) != RESERVED1 {
        return Err(4);
    }

    // The certificate ends the record.
    let certificate_length = u32_at(bytes, 16);
    if certificate_length == 0 {
        return Err(7);
    }
    let certificate_offset = u32_at(bytes, 20);
    let certificate_at = ORIGIN as u64 + u64::from(certificate_offset);
    if certificate_offset < FIRST_OFFSET || certificate_at + u64::from(certificate_length) != length
    {
        return Err(6);
    }
    let certificate = Part {
        at: certificate_at as usize,
        len: certificate_length as usize,
    };

    // The SID, or zeros, fill what lies between the head and the certificate.
    let sid = match u32_at(bytes, 8) {
        0 if certificate_offset == FIRST_OFFSET => Sid::Absent,
        FIRST_OFFSET => {
            let area = Part {
                at: HEAD,
                len: certificate.at - HEAD,
            };
            match area.of(bytes) {
                sid if is_sid(sid) => Sid::Given(area),
                zeros if is_no_hint(zeros) => Sid::NoHint(area),
                _ => return Err(12),
            }
        }
        _ => return Err(6),
    };

    // Reserved2, from 24 to 32, is ignored.
    Ok(EfsKey { sid, certificate })
}

/// Whether the bytes give no hint (document 02, No. 2): at least one, and all
/// of them zeros.
fn is_no_hint(bytes: &[u8]) -> bool {
    // The fold does not end early, so that many bytes are looked at in one step.
    bytes.first() == Some(&0) && bytes.iter().fold(0, |any, byte| any | byte) == 0
}

/// Writes an EfsKey into the first bytes of `out` and tells its length. An
/// empty SID means none, and zeros mean no hint.
pub fn write(out: &mut [u8], sid: &[u8], certificate: &[u8]) -> Result<usize, u32> {
    let length = record_length(HEAD, &[sid, certificate])?;
    if certificate.is_empty() {
        return Err(7);
    }
    if !sid.is_empty() && !is_sid(sid) && !is_no_hint(sid) {
        return Err(12);
    }
    let record = out.get_mut(..length).ok_or(13u32)?;

    let sid_offset = if sid.is_empty() { 0 } else { FIRST_OFFSET };
    let certificate_at = HEAD + sid.len();
    put_u32(record, 0, length as u32);
    put_u32(record, 4, (length - 4) as u32);
    put_u32(record, 8, sid_offset);
    put_u32(record, 12, RESERVED1);
    put_u32(record, 16, certificate.len() as u32);
    put_u32(record, 20, (certificate_at - ORIGIN) as u32);
    record[24..HEAD].fill(0);
    record[HEAD..certificate_at].copy_from_slice(sid);
    record[certificate_at..].copy_from_slice(certificate);
    Ok(length)
}

#[cfg(test)]
mod tests {
    use super::*;

    /// The least EfsKey: no SID and a certificate of one byte.
    const LEAST: [u8; 33] = [
        33, 0, 0, 0, 29, 0, 0, 0, 0, 0, 0, 0, 2, 0, 0, 0, //
        1, 0, 0, 0, 28, 0, 0, 0, 0, 0, 0, 0, 0, 0, 0, 0, 0xCE,
    ];

    /// A record with this SID area, SID offset 28 and a certificate of one byte.
    fn with_area(area: &[u8]) -> Vec<u8> {
        let mut bytes = LEAST[..32].to_vec();
        bytes.extend_from_slice(area);
        bytes.push(0xCE);
        let length = bytes.len() as u32;
        put_u32(&mut bytes, 0, length);
        put_u32(&mut bytes, 4, length - 4);
        put_u32(&mut bytes, 8, 28);
        put_u32(&mut bytes, 20, 28 + area.len() as u32);
        bytes
    }

    /// A SID of this many bytes with this count.
    fn sid(count: u8, size: usize) -> Vec<u8> {
        let mut sid = vec![0x77; size];
        sid[0] = 1;
        sid[1] = count;
        sid
    }

    fn number(bytes: &[u8]) -> u32 {
        read(bytes).err().unwrap_or(0)
    }

    fn number_with(at: usize, value: u32) -> u32 {
        let mut bytes = LEAST;
        put_u32(&mut bytes, at, value);
        number(&bytes)
    }

    #[test]
    fn bench_case() {
        assert_eq!(
            read(&LEAST),
            Ok(EfsKey {
                sid: Sid::Absent,
                certificate: Part { at: 32, len: 1 },
            })
        );
        let mut out = [0xEE; 35];
        assert_eq!(write(&mut out, &[], &[0xCE]), Ok(33));
        assert_eq!(out[..33], LEAST);
        assert_eq!(out[33..], [0xEE; 2]);
    }

    #[test]
    fn length_limits() {
        let mut bytes = vec![0; 65_536];
        bytes[..32].copy_from_slice(&LEAST[..32]);
        put_u32(&mut bytes, 0, 65_535);
        put_u32(&mut bytes, 4, 65_531);
        put_u32(&mut bytes, 16, 65_503);
        assert_eq!(number(&bytes[..65_535]), 0);
        put_u32(&mut bytes, 0, 65_536);
        put_u32(&mut bytes, 4, 65_532);
        put_u32(&mut bytes, 16, 65_504);
        assert_eq!(number(&bytes), 1);
        assert_eq!(number(&LEAST[..31]), 2);
        assert_eq!(number(&[]), 2);
        assert_eq!(number(&LEAST[..32]), 3);
    }

    #[test]
    fn lengths() {
        for wrong in [0, 3, 29, 32, 34, u32::MAX] {
            assert_eq!(number_with(0, wrong), 3);
        }
        for wrong in [0, 28, 30, 33, u32::MAX] {
            assert_eq!(number_with(4, wrong), 3);
        }
        // Both wrong in the same way, and before the mark.
        let mut bytes = LEAST;
        put_u32(&mut bytes, 0, 34);
        put_u32(&mut bytes, 4, 30);
        put_u32(&mut bytes, 12, 0);
        assert_eq!(number(&bytes), 3);
    }

    #[test]
    fn mark() {
        for wrong in [0, 1, 3, 0x0200_0000, 0x0102] {
            assert_eq!(number_with(12, wrong), 4);
        }
        // Before the empty certificate.
        let mut bytes = LEAST;
        put_u32(&mut bytes, 12, 0);
        put_u32(&mut bytes, 16, 0);
        assert_eq!(number(&bytes), 4);
    }

    #[test]
    fn certificate() {
        assert_eq!(number_with(16, 0), 7);
        assert_eq!(number_with(16, 2), 6);
        assert_eq!(number_with(16, u32::MAX), 6);
        for wrong in [0, 27, 29, 32, u32::MAX, u32::MAX - 3] {
            assert_eq!(number_with(20, wrong), 6);
        }
        // The sums agree, but the offset lies in the head: 4 + 27 + 2 = 33.
        let mut bytes = LEAST;
        put_u32(&mut bytes, 16, 2);
        put_u32(&mut bytes, 20, 27);
        assert_eq!(number(&bytes), 6);
        // 4 + (2^32 - 4) + 33 wraps to 33 in 32 bits.
        put_u32(&mut bytes, 16, 33);
        put_u32(&mut bytes, 20, u32::MAX - 3);
        assert_eq!(number(&bytes), 6);
    }

    #[test]
    fn sid_offset() {
        for wrong in [1, 27, 29, 32, u32::MAX] {
            assert_eq!(number_with(8, wrong), 6);
        }
        // An empty area is no SID, and has no zeros.
        assert_eq!(number_with(8, 28), 12);
        // No SID, but bytes between head and certificate.
        for area in [sid(0, 8), vec![0; 8]] {
            let mut bytes = with_area(&area);
            assert_eq!(number(&bytes), 0);
            put_u32(&mut bytes, 8, 0);
            assert_eq!(number(&bytes), 6);
            put_u32(&mut bytes, 8, 32);
            assert_eq!(number(&bytes), 6);
        }
    }

    #[test]
    fn sids() {
        assert_eq!(
            read(&with_area(&sid(5, 28))),
            Ok(EfsKey {
                sid: Sid::Given(Part { at: 32, len: 28 }),
                certificate: Part { at: 60, len: 1 },
            })
        );
        for count in 0..=15 {
            let size = 8 + 4 * usize::from(count);
            assert_eq!(number(&with_area(&sid(count, size))), 0);
            assert_eq!(number(&with_area(&sid(count, size + 1))), 12);
            assert_eq!(number(&with_area(&sid(count, size - 1))), 12);
        }
        assert_eq!(number(&with_area(&sid(16, 72))), 12);
        assert_eq!(number(&with_area(&sid(255, 1_028))), 12);
        for revision in [0, 2, 255] {
            let mut area = sid(1, 12);
            area[0] = revision;
            assert_eq!(number(&with_area(&area)), 12);
        }
        // An area of one byte; the certificate's byte isn't the count.
        assert_eq!(number(&with_area(&[1])), 12);
    }

    /// The most zeros that fit beside the head and a certificate of one byte.
    const MOST_ZEROS: usize = 65_535 - 32 - 1;

    #[test]
    fn zeros_give_no_hint() {
        // Also of lengths that no SID has: under 8, over 68, or no multiple of 4.
        for len in [1, 2, 7, 8, 9, 12, 68, 69, 72, MOST_ZEROS] {
            assert_eq!(
                read(&with_area(&vec![0; len])),
                Ok(EfsKey {
                    sid: Sid::NoHint(Part { at: 32, len }),
                    certificate: Part {
                        at: 32 + len,
                        len: 1
                    },
                })
            );
        }
        assert_eq!(number(&with_area(&[0; MOST_ZEROS + 1])), 1);
    }

    #[test]
    fn zeros_but_for_one_byte() {
        // Of 12 bytes, a SID needs its revision and its count.
        for at in 0..12 {
            for byte in [1, 2, 0x80, 0xFF] {
                let mut area = [0; 12];
                area[at] = byte;
                assert_eq!(number(&with_area(&area)), 12);
            }
        }
        // Of 8 bytes, the revision alone: a count of 0.
        assert_eq!(number(&with_area(&[0, 0, 0, 0, 0, 0, 0, 1])), 12);
        assert_eq!(number(&with_area(&[0, 1, 0, 0, 0, 0, 0, 0])), 12);
        assert_eq!(
            read(&with_area(&[1, 0, 0, 0, 0, 0, 0, 0])).unwrap().sid,
            Sid::Given(Part { at: 32, len: 8 })
        );
        for at in [0, 1, MOST_ZEROS / 2, MOST_ZEROS - 1] {
            let mut area = vec![0; MOST_ZEROS];
            area[at] = 1;
            assert_eq!(number(&with_area(&area)), 12);
        }
    }

    #[test]
    fn sids_of_zero_authorities() {
        for count in 0..=15 {
            let len = 8 + 4 * usize::from(count);
            let mut area = vec![0; len];
            area[..2].copy_from_slice(&[1, count]);
            assert_eq!(
                read(&with_area(&area)).unwrap().sid,
                Sid::Given(Part { at: 32, len })
            );
        }
    }

    #[test]
    fn reserved2_is_ignored() {
        for sound in [LEAST.to_vec(), with_area(&sid(1, 12)), with_area(&[0; 3])] {
            let mut bytes = sound.clone();
            bytes[24..32].fill(0xFF);
            assert_eq!(read(&bytes), read(&sound));
        }
    }

    #[test]
    fn written_bytes() {
        for area in [
            sid(1, 12),
            vec![1, 0, 0, 0, 0, 0, 0, 0],
            vec![0; 1],
            vec![0; 7],
            vec![0; 8],
            vec![0; 68],
            vec![0; MOST_ZEROS],
        ] {
            let length = 32 + area.len() + 1;
            let mut out = vec![0xEE; length + 1];
            assert_eq!(write(&mut out, &area, &[0xCE]), Ok(length));
            assert_eq!(out[..length], with_area(&area));
            assert_eq!(out[length], 0xEE);
        }
    }

    #[test]
    fn writer_refusals() {
        let long = [1; 65_504];
        let mut out = [0xEE; 32];
        assert_eq!(write(&mut out, &[], &long), Err(1));
        assert_eq!(write(&mut out, &long, &[]), Err(1));
        assert_eq!(write(&mut out, &long[..65_503], &[]), Err(7));
        assert_eq!(write(&mut out, &long[..65_502], &[1]), Err(12));
        assert_eq!(write(&mut out, &[0; 7], &[]), Err(7));
        assert_eq!(write(&mut out, &[1], &[1]), Err(12));
        for at in 0..12 {
            let mut area = [0; 12];
            area[at] = 1;
            assert_eq!(write(&mut out, &area, &[1]), Err(12));
        }
        assert_eq!(write(&mut out, &[0; MOST_ZEROS + 1], &[]), Err(7));
        assert_eq!(write(&mut out, &[0; MOST_ZEROS + 1], &[1]), Err(1));
        assert_eq!(write(&mut out, &[0; MOST_ZEROS], &[1]), Err(13));
        assert_eq!(write(&mut out, &[0], &[1]), Err(13));
        assert_eq!(write(&mut out, &[], &[1]), Err(13));
        assert_eq!(write(&mut out, &[], &long[..65_503]), Err(13));
        assert_eq!(out, [0xEE; 32]);
        let mut out = vec![0; 65_535];
        assert_eq!(write(&mut out, &[], &long[..65_503]), Ok(65_535));
        assert_eq!(number(&out), 0);
    }
}
