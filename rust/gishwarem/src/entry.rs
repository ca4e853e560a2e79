//! The Key List Entry (MS-EFSR 2.2.2.1.2), read and written.

use crate::answer::{accepted, cut, written};
use crate::raw::codes;
use crate::{calls, raw, Refusal};

/// The algorithm of an entry's FEK, which its Flags name. Flags never refuse.
///
/// ```
/// use gishwarem::{Algorithm, Entry};
///
/// // A 4-byte public key item, which is its own length alone, and a 1-byte FEK.
/// let algorithm = |flags| {
///     let mut out = [0; 25];
///     Entry::write(&mut out, flags, &[4, 0, 0, 0], &[0xAB])?;
///     Entry::read(&out).map(|entry| entry.algorithm)
/// };
/// assert_eq!(algorithm(0), Ok(Algorithm::Rsa));
/// assert_eq!(algorithm(1), Ok(Algorithm::Aes256));
/// assert_eq!(algorithm(2), Ok(Algorithm::Unsupported));
/// ```
#[derive(Debug, Clone, Copy, PartialEq, Eq, Hash)]
pub enum Algorithm {
    /// RSA: Flags 0.
    Rsa,
    /// AES-256: Flags 1.
    Aes256,
    /// Any other Flags.
    Unsupported,
}

impl Algorithm {
    /// The algorithm of a code that the library answers.
    fn from_code(code: u32) -> Algorithm {
        match code {
            codes::ALGORITHM_RSA => Algorithm::Rsa,
            codes::ALGORITHM_AES256 => Algorithm::Aes256,
            codes::ALGORITHM_UNSUPPORTED => Algorithm::Unsupported,
            _ => unreachable!("the library answers a listed algorithm"),
        }
    }
}

/// A Key List Entry that was accepted, its parts cut from the caller's bytes.
///
/// ```
/// use gishwarem::{Entry, Refusal};
///
/// // A public key item of 28 bytes at 20, and a FEK of 256 bytes behind `unused` bytes.
/// let judge = |unused: usize| {
///     let fek_at = 48 + unused;
///     let mut bytes = vec![0; fek_at + 256];
///     let length = bytes.len() as u32;
///     bytes[0..4].copy_from_slice(&length.to_le_bytes());
///     bytes[4] = 20; // public key offset
///     bytes[9] = 1; // FEK length: 256
///     bytes[12] = fek_at as u8; // FEK offset
///     bytes[20] = 28; // the public key item's own length
///     Entry::read(&bytes).map(|entry| (entry.public_key.len(), entry.fek.len()))
/// };
/// assert_eq!(judge(0), Ok((28, 256)));
/// assert_eq!(judge(8), Ok((28, 256)));
/// assert_eq!(judge(9), Err(Refusal::UnusedRun));
/// ```
#[derive(Debug, Clone, Copy, PartialEq, Eq, Hash)]
pub struct Entry<'a> {
    /// Flags, as they stand.
    pub flags: u32,
    /// The algorithm that the Flags name.
    pub algorithm: Algorithm,
    /// The public key item; its first four bytes are its own length.
    pub public_key: &'a [u8],
    /// The FEK.
    pub fek: &'a [u8],
}

impl<'a> Entry<'a> {
    /// Reads an entry, which the bytes have to be from the first to the last.
    ///
    /// ```
    /// use gishwarem::{Algorithm, Entry, Refusal};
    ///
    /// let mut bytes = [0; 25];
    /// bytes[0] = 25; // Length
    /// bytes[4] = 20; // public key offset
    /// bytes[8] = 1; // FEK length
    /// bytes[12] = 24; // FEK offset
    /// bytes[16] = 1; // Flags
    /// bytes[20] = 4; // the public key item's own length
    /// bytes[24] = 0xAB; // the FEK
    ///
    /// let entry = Entry::read(&bytes)?;
    /// assert_eq!(entry.flags, 1);
    /// assert_eq!(entry.algorithm, Algorithm::Aes256);
    /// assert_eq!(entry.public_key, [4, 0, 0, 0]);
    /// assert_eq!(entry.fek, [0xAB]);
    ///
    /// assert_eq!(Entry::read(&bytes[..24]), Err(Refusal::LengthsDisagree));
    /// # Ok::<(), Refusal>(())
    /// ```
    pub fn read(bytes: &'a [u8]) -> Result<Entry<'a>, Refusal> {
        let answer = calls::entry_read(bytes);
        accepted(answer.refusal)?;
        Ok(Entry {
            flags: answer.flags,
            algorithm: Algorithm::from_code(answer.algorithm),
            public_key: cut(bytes, answer.item),
            fek: cut(bytes, answer.fek),
        })
    }

    /// The entry that a step of a list's walk shows, its parts counted from its own first byte.
    pub(crate) fn of_step(record: &'a [u8], step: &raw::StepAnswer) -> Entry<'a> {
        Entry {
            flags: step.flags,
            algorithm: Algorithm::from_code(step.algorithm),
            public_key: cut(record, step.item),
            fek: cut(record, step.fek),
        }
    }

    /// Writes an entry at the start of `out`, the public key item at 20 and the FEK straight
    /// after, and answers its length. The bytes behind it stay; a refusal changes no byte.
    ///
    /// ```
    /// use gishwarem::{Entry, Refusal};
    ///
    /// let mut out = [0xFF; 26];
    /// assert_eq!(Entry::write(&mut out, 1, &[4, 0, 0, 0], &[0xAB]), Ok(25));
    /// assert_eq!(out[..4], [25, 0, 0, 0]); // Length
    /// assert_eq!(out[16..20], [1, 0, 0, 0]); // Flags
    /// assert_eq!(out[20..], [4, 0, 0, 0, 0xAB, 0xFF]);
    ///
    /// // The item's first four bytes have to be its length.
    /// let refused = Entry::write(&mut out, 1, &[5, 0, 0, 0], &[0xAB]);
    /// assert_eq!(refused, Err(Refusal::LengthsDisagree));
    ///
    /// let refused = Entry::write(&mut out[..24], 1, &[4, 0, 0, 0], &[0xAB]);
    /// assert_eq!(refused, Err(Refusal::NoRoom));
    /// ```
    pub fn write(
        out: &mut [u8],
        flags: u32,
        public_key: &[u8],
        fek: &[u8],
    ) -> Result<usize, Refusal> {
        written(calls::entry_write(out, flags, public_key, fek))
    }
}
