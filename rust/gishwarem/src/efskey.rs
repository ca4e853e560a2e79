//! The EfsKey (MS-GPEF 2.2.1.2.2), read and written.

use crate::answer::{accepted, cut, written};
use crate::raw::codes;
use crate::{calls, raw, Refusal};

/// What an EfsKey has for a SID, which is meant as a hint at the user who created the key.
///
/// ```
/// use gishwarem::{EfsKey, SidHint};
///
/// let mut out = [0; 64];
/// let length = EfsKey::write(&mut out, &[], &[0x30])?;
/// assert_eq!(EfsKey::read(&out[..length])?.sid, SidHint::None);
///
/// // A SID of revision 1 with no sub-authority is 8 bytes.
/// let sid = [1, 0, 0, 0, 0, 0, 0, 5];
/// let length = EfsKey::write(&mut out, &sid, &[0x30])?;
/// assert_eq!(EfsKey::read(&out[..length])?.sid, SidHint::Sid(&sid));
///
/// // Zeros may be of any length.
/// let length = EfsKey::write(&mut out, &[0; 5], &[0x30])?;
/// assert_eq!(EfsKey::read(&out[..length])?.sid, SidHint::NoHint(&[0; 5]));
/// # Ok::<(), gishwarem::Refusal>(())
/// ```
#[derive(Debug, Clone, Copy, PartialEq, Eq, Hash)]
pub enum SidHint<'a> {
    /// No SID: its offset is 0.
    None,
    /// A SID.
    Sid(&'a [u8]),
    /// No hint given: zeros, one or more, in the SID's place.
    NoHint(&'a [u8]),
}

impl<'a> SidHint<'a> {
    /// The case of the kind that the library answers, with the bytes at the place that it shows.
    fn cut_from(record: &'a [u8], answer: &raw::EfsKeyAnswer) -> SidHint<'a> {
        let bytes = cut(record, answer.sid);
        match answer.kind {
            codes::SID_NONE => SidHint::None,
            codes::SID_GIVEN => SidHint::Sid(bytes),
            codes::SID_NO_HINT => SidHint::NoHint(bytes),
            _ => unreachable!("the library answers a listed kind of SID"),
        }
    }

    /// The bytes in the SID's place, none for no SID. [`EfsKey::write`] takes them as they are.
    ///
    /// ```
    /// use gishwarem::{EfsKey, SidHint};
    ///
    /// assert!(SidHint::None.bytes().is_empty());
    ///
    /// // Writing what was read gives the same bytes, zeros too.
    /// let mut bytes = [0; 32 + 5 + 1];
    /// EfsKey::write(&mut bytes, &[0; 5], &[0x30])?;
    /// let key = EfsKey::read(&bytes)?;
    /// assert_eq!(key.sid.bytes(), [0; 5]);
    /// let mut again = [0xFF; 32 + 5 + 1];
    /// EfsKey::write(&mut again, key.sid.bytes(), key.certificate)?;
    /// assert_eq!(again, bytes);
    /// # Ok::<(), gishwarem::Refusal>(())
    /// ```
    pub fn bytes(self) -> &'a [u8] {
        match self {
            SidHint::None => &[],
            SidHint::Sid(bytes) | SidHint::NoHint(bytes) => bytes,
        }
    }
}

/// An EfsKey that was accepted, its parts cut from the caller's bytes.
///
/// ```
/// use gishwarem::{EfsKey, SidHint};
///
/// // A SID of revision 1 with no sub-authority is 8 bytes.
/// let sid = [1, 0, 0, 0, 0, 0, 0, 5];
/// let mut out = [0; 64];
/// let length = EfsKey::write(&mut out, &sid, &[0x30])?;
/// assert_eq!(length, 32 + 8 + 1);
///
/// // What was written reads back.
/// let key = EfsKey::read(&out[..length])?;
/// assert_eq!(key, EfsKey { sid: SidHint::Sid(&sid), certificate: &[0x30] });
/// # Ok::<(), gishwarem::Refusal>(())
/// ```
#[derive(Debug, Clone, Copy, PartialEq, Eq, Hash)]
pub struct EfsKey<'a> {
    /// The SID, or zeros in its place, or none.
    pub sid: SidHint<'a>,
    /// The certificate.
    pub certificate: &'a [u8],
}

impl<'a> EfsKey<'a> {
    /// Reads an EfsKey, which the bytes have to be from the first to the last.
    ///
    /// ```
    /// use gishwarem::{EfsKey, Refusal, SidHint};
    ///
    /// // No SID, and a certificate of 1 byte: 33 bytes. Offsets count from byte 4.
    /// let mut bytes = [0; 33];
    /// bytes[0] = 33; // Length1
    /// bytes[4] = 29; // Length2
    /// bytes[12] = 2; // Reserved1
    /// bytes[16] = 1; // certificate length
    /// bytes[20] = 28; // certificate offset
    /// bytes[32] = 0x30; // the certificate
    /// let key = EfsKey::read(&bytes)?;
    /// assert_eq!(key, EfsKey { sid: SidHint::None, certificate: &[0x30] });
    ///
    /// // With this SID offset, a SID or zeros have to stand from 32 to the certificate.
    /// bytes[8] = 28;
    /// assert_eq!(EfsKey::read(&bytes), Err(Refusal::MalformedSid));
    ///
    /// bytes[12] = 0;
    /// assert_eq!(EfsKey::read(&bytes), Err(Refusal::WrongMark));
    /// # Ok::<(), Refusal>(())
    /// ```
    pub fn read(bytes: &'a [u8]) -> Result<EfsKey<'a>, Refusal> {
        let answer = calls::efskey_read(bytes);
        accepted(answer.refusal)?;
        Ok(EfsKey {
            sid: SidHint::cut_from(bytes, &answer),
            certificate: cut(bytes, answer.certificate),
        })
    }

    /// Writes an EfsKey at the start of `out` and answers its length. An empty SID means none, and
    /// zeros mean no hint. The bytes behind it stay; a refusal changes no byte.
    ///
    /// ```
    /// use gishwarem::{EfsKey, Refusal};
    ///
    /// let mut out = [0xFF; 34];
    /// assert_eq!(EfsKey::write(&mut out, &[], &[0x30]), Ok(33));
    /// assert_eq!(out[..8], [33, 0, 0, 0, 29, 0, 0, 0]); // Length1, Length2
    /// assert_eq!(out[8], 0); // SID offset
    /// assert_eq!(out[24..32], [0; 8]); // Reserved2
    /// assert_eq!(out[32..], [0x30, 0xFF]);
    ///
    /// // No hint.
    /// assert_eq!(EfsKey::write(&mut out, &[0], &[0x30]), Ok(34));
    /// assert_eq!(out[8], 28); // SID offset
    /// assert_eq!(out[32..], [0, 0x30]);
    ///
    /// let refused = EfsKey::write(&mut out[..32], &[], &[0x30]);
    /// assert_eq!(refused, Err(Refusal::NoRoom));
    /// let refused = EfsKey::write(&mut out, &[1], &[0x30]);
    /// assert_eq!(refused, Err(Refusal::MalformedSid));
    /// ```
    pub fn write(out: &mut [u8], sid: &[u8], certificate: &[u8]) -> Result<usize, Refusal> {
        written(calls::efskey_write(out, sid, certificate))
    }
}
