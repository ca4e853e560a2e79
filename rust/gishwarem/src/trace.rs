//! Recorded requests: the records of a trace.

use crate::answer::accepted;
use crate::raw::codes;
use crate::{calls, decide_by_verdict, raw, Answer, FileTime, Refusal, Request, Rights};

/// A recorded request: when it was made, with which rights and which verdict on its security
/// descriptor, and what it asked.
///
/// A record is 37 bytes, bit-packed, most significant bit first: the clock 64 bits, root given 1,
/// rights 2, the verdict 1, spare 4, three indices of 32, the root key 128.
///
/// ```
/// use gishwarem::{FileTime, Recorded, Request, Rights, RootId};
///
/// let mut record = [0; Recorded::LEN];
/// record[7] = 9; // clock
/// record[8] = 0b1010_0000; // a root, public rights, the verdict no
/// record[12] = 4; // L0 index
/// record[16] = 31; // L1 index
/// record[17..21].fill(0xFF); // L2 index
/// record[21..].fill(7); // root key
///
/// let recorded = Recorded::read(&record)?;
/// assert_eq!(recorded.clock, FileTime(9));
/// assert_eq!(recorded.rights, Rights::Public);
/// assert!(!recorded.verdict);
/// assert_eq!(recorded.request, Request::named(Some(RootId([7; 16])), 4, 31, -1));
/// # Ok::<(), gishwarem::Refusal>(())
/// ```
#[derive(Debug, Clone, Copy, PartialEq, Eq, Hash)]
pub struct Recorded {
    /// The clock at the time of the request.
    pub clock: FileTime,
    /// The caller's rights.
    pub rights: Rights,
    /// The verdict on the security descriptor.
    pub verdict: bool,
    /// What was asked.
    pub request: Request,
}

impl Recorded {
    /// The length of a record.
    ///
    /// ```
    /// use gishwarem::Recorded;
    ///
    /// // 64 + 1 + 2 + 1 + 4 + 3 * 32 + 128 bits.
    /// assert_eq!(Recorded::LEN * 8, 296);
    /// ```
    pub const LEN: usize = raw::TRACE_RECORD;

    /// Reads the record at the start of the bytes; what follows its 37 is not looked at. Refuses
    /// fewer, a spare bit, rights 3, and bits of a root key while none is given.
    ///
    /// ```
    /// use gishwarem::{Recorded, Refusal};
    ///
    /// let zeros = [0; Recorded::LEN];
    /// assert!(Recorded::read(&zeros).is_ok());
    /// assert!(Recorded::read(&[&zeros[..], &[0xFF]].concat()).is_ok());
    /// assert_eq!(Recorded::read(&zeros[1..]), Err(Refusal::MalformedRecord));
    ///
    /// // The last spare bit; rights 3; the last bit of a root key, while none is given.
    /// for (at, bits) in [(8, 0b0000_0001), (8, 0b0110_0000), (36, 0b0000_0001)] {
    ///     let mut record = zeros;
    ///     record[at] = bits;
    ///     assert_eq!(Recorded::read(&record), Err(Refusal::MalformedRecord));
    /// }
    /// ```
    pub fn read(bytes: &[u8]) -> Result<Recorded, Refusal> {
        let answer = calls::trace_read(bytes);
        accepted(answer.refusal)?;
        Ok(Recorded {
            clock: FileTime(answer.clock),
            rights: Rights::from_code(answer.rights),
            verdict: answer.verdict == codes::ACCESS_ALLOWED,
            request: answer.request.into(),
        })
    }

    /// The GetKey decision on it, with this root table.
    ///
    /// ```
    /// use gishwarem::{FileTime, Recorded, Refusal, Request, Rights, Row};
    ///
    /// let recorded = Recorded {
    ///     clock: FileTime(0),
    ///     rights: Rights::Seed,
    ///     verdict: true,
    ///     request: Request::latest(None),
    /// };
    /// assert_eq!(recorded.decide(&[0; 32])?.row, Row::At(0));
    /// assert_eq!(recorded.decide(&[])?.row, Row::Create);
    /// assert_eq!(recorded.decide(&[0; 33]), Err(Refusal::TableLength));
    /// # Ok::<(), Refusal>(())
    /// ```
    pub fn decide(&self, table: &[u8]) -> Result<Answer, Refusal> {
        decide_by_verdict(self.verdict, self.rights, &self.request, self.clock, table)
    }
}
