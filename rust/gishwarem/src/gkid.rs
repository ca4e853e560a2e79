//! Group key identifiers.

use crate::answer::accepted;
use crate::{calls, raw, FileTime, Refusal};

/// A group key identifier. The order goes by L0, then L1, then L2.
///
/// ```
/// use gishwarem::Gkid;
///
/// let named = Gkid { l0: 4, l1: 31, l2: 31 };
/// assert!(named < Gkid { l0: 5, l1: 0, l2: 0 });
/// assert!(named > Gkid { l0: 4, l1: 31, l2: 30 });
/// ```
#[derive(Debug, Clone, Copy, PartialEq, Eq, PartialOrd, Ord, Hash, Default)]
pub struct Gkid {
    /// L0 index.
    pub l0: u32,
    /// L1 index; in an answer 0 to 31.
    pub l1: u32,
    /// L2 index; in an answer 0 to 31.
    pub l2: u32,
}

impl Gkid {
    /// The identifier of a clock reading.
    ///
    /// ```
    /// use gishwarem::{FileTime, Gkid};
    ///
    /// // 5223 L2 steps of 360,000,000,000 ticks: 5 * 1024 + 3 * 32 + 7.
    /// let now = FileTime(5223 * 360_000_000_000);
    /// assert_eq!(Gkid::at(now), Gkid { l0: 5, l1: 3, l2: 7 });
    ///
    /// // One tick earlier is the step before.
    /// let before = FileTime(now.0 - 1);
    /// assert_eq!(Gkid::at(before), Gkid { l0: 5, l1: 3, l2: 6 });
    /// ```
    pub fn at(time: FileTime) -> Gkid {
        calls::time_identifier(time.0).at.into()
    }

    /// The reading at which the identifier starts. Refuses an index above 31, then a start that
    /// exceeds 64 bits.
    ///
    /// ```
    /// use gishwarem::{FileTime, Gkid, Refusal};
    ///
    /// let highest = Gkid { l0: 50039, l1: 31, l2: 27 };
    /// assert_eq!(highest.start(), Ok(FileTime(18_446_743_800_000_000_000)));
    ///
    /// let past = Gkid { l2: 28, ..highest };
    /// assert_eq!(past.start(), Err(Refusal::StartPastTime));
    ///
    /// let outside = Gkid { l2: 32, ..highest };
    /// assert_eq!(outside.start(), Err(Refusal::IndexAbove31));
    /// ```
    pub fn start(self) -> Result<FileTime, Refusal> {
        let answer = calls::identifier_start(self.into());
        accepted(answer.refusal)?;
        Ok(FileTime(answer.time))
    }

    /// The next older identifier of the same L0 group, which (L0, 0, 0) has none of. Refuses an
    /// index above 31.
    ///
    /// ```
    /// use gishwarem::{Gkid, Refusal};
    ///
    /// let first_of_row = Gkid { l0: 5, l1: 3, l2: 0 };
    /// assert_eq!(first_of_row.older(), Ok(Some(Gkid { l0: 5, l1: 2, l2: 31 })));
    ///
    /// let first_of_group = Gkid { l0: 5, l1: 0, l2: 0 };
    /// assert_eq!(first_of_group.older(), Ok(None));
    ///
    /// let outside = Gkid { l0: 5, l1: 32, l2: 0 };
    /// assert_eq!(outside.older(), Err(Refusal::IndexAbove31));
    /// ```
    pub fn older(self) -> Result<Option<Gkid>, Refusal> {
        let answer = calls::identifier_older(self.into());
        accepted(answer.refusal)?;
        Ok((answer.found == 1).then(|| answer.at.into()))
    }
}

impl From<raw::Identifier> for Gkid {
    fn from(at: raw::Identifier) -> Gkid {
        Gkid {
            l0: at.l0,
            l1: at.l1,
            l2: at.l2,
        }
    }
}

impl From<Gkid> for raw::Identifier {
    fn from(at: Gkid) -> raw::Identifier {
        raw::Identifier {
            l0: at.l0,
            l1: at.l1,
            l2: at.l2,
        }
    }
}
