//! Refusals: the numbers of the table, by name and in words. Numbers may leave gaps.

use std::error::Error;
use std::fmt;

/// Why the library refuses. Where several apply, the answer is the first in the order that the
/// record or the decision has its checks in.
///
/// ```
/// use gishwarem::{Envelope, Refusal};
///
/// // An envelope's fixed head is 80 bytes.
/// let refusal = Envelope::read(&[0; 79]).unwrap_err();
/// assert_eq!(refusal, Refusal::Short);
/// assert_eq!(refusal.to_string(), "shorter than its fixed head");
/// ```
#[repr(u32)]
#[derive(Debug, Clone, Copy, PartialEq, Eq, PartialOrd, Ord, Hash)]
pub enum Refusal {
    /// Record or list longer than 65,535 bytes.
    TooLong = 1,
    /// Shorter than its fixed head: list 4, entry 20, EfsKey 32, segment 28, envelope 80.
    Short = 2,
    /// A length field or the sum of lengths disagrees with the bytes.
    LengthsDisagree = 3,
    /// Fixed mark wrong.
    WrongMark = 4,
    /// L1 or L2 index above 31.
    IndexAbove31 = 5,
    /// An item not at a permitted place.
    Misplaced = 6,
    /// An item empty, or a public key item's length below 4.
    EmptyItem = 7,
    /// Items overlap.
    Overlap = 8,
    /// Unused run over 8 bytes.
    UnusedRun = 9,
    /// Text malformed.
    MalformedText = 10,
    /// Key length breaks the key rules.
    KeyLength = 11,
    /// SID malformed.
    MalformedSid = 12,
    /// Output buffer shorter than the record.
    NoRoom = 13,
    /// Requested index out of range.
    IndexOutOfRange = 14,
    /// Requested indices mix -1 with others.
    MixedIndices = 15,
    /// Security descriptor not sound, or the verdict on it no.
    VerdictNo = 16,
    /// Request later than now.
    LaterThanNow = 17,
    /// Rights too low.
    RightsTooLow = 18,
    /// No suitable root key.
    NoRootKey = 19,
    /// Root table length no multiple of 32, or over 64 rows.
    TableLength = 20,
    /// Identifier's start time exceeds 64 bits.
    StartPastTime = 21,
    /// Bytes left after the last list entry.
    BytesLeft = 22,
    /// Neither envelope serves.
    NeitherServes = 23,
    /// Text with an unpaired surrogate.
    UnpairedSurrogate = 24,
    /// Chunk and data unit shift differ, or a shift is over 31.
    WrongShifts = 25,
    /// Trace record cut, a spare bit set, rights 3, or identifier bits while no root is given.
    MalformedRecord = 26,
}

impl Refusal {
    /// Every refusal, in the order of the numbers, which may leave gaps.
    ///
    /// ```
    /// use gishwarem::Refusal;
    ///
    /// let numbers = Refusal::ALL.map(Refusal::number);
    /// assert!(numbers.windows(2).all(|pair| pair[0] < pair[1]));
    /// assert!(!numbers.contains(&0));
    /// ```
    pub const ALL: [Refusal; 26] = [
        Refusal::TooLong,
        Refusal::Short,
        Refusal::LengthsDisagree,
        Refusal::WrongMark,
        Refusal::IndexAbove31,
        Refusal::Misplaced,
        Refusal::EmptyItem,
        Refusal::Overlap,
        Refusal::UnusedRun,
        Refusal::MalformedText,
        Refusal::KeyLength,
        Refusal::MalformedSid,
        Refusal::NoRoom,
        Refusal::IndexOutOfRange,
        Refusal::MixedIndices,
        Refusal::VerdictNo,
        Refusal::LaterThanNow,
        Refusal::RightsTooLow,
        Refusal::NoRootKey,
        Refusal::TableLength,
        Refusal::StartPastTime,
        Refusal::BytesLeft,
        Refusal::NeitherServes,
        Refusal::UnpairedSurrogate,
        Refusal::WrongShifts,
        Refusal::MalformedRecord,
    ];

    /// The refusal's number.
    ///
    /// ```
    /// use gishwarem::Refusal;
    ///
    /// assert_eq!(Refusal::TooLong.number(), 1);
    /// assert_eq!(Refusal::WrongShifts.number(), 25);
    /// assert_eq!(Refusal::MalformedRecord.number(), 26);
    /// ```
    pub fn number(self) -> u32 {
        self as u32
    }

    /// The refusal that has a number. Number 0, accepted, is none.
    ///
    /// ```
    /// use gishwarem::Refusal;
    ///
    /// assert_eq!(Refusal::from_number(9), Some(Refusal::UnusedRun));
    /// assert_eq!(Refusal::from_number(0), None);
    /// assert_eq!(Refusal::from_number(u32::MAX), None);
    /// ```
    pub fn from_number(number: u32) -> Option<Refusal> {
        Refusal::ALL
            .into_iter()
            .find(|refusal| refusal.number() == number)
    }

    /// The refusal in words, as the C header has them.
    fn text(self) -> &'static str {
        match self {
            Refusal::TooLong => "record or list longer than 65,535 bytes",
            Refusal::Short => "shorter than its fixed head",
            Refusal::LengthsDisagree => {
                "a length field or the sum of lengths disagrees with the bytes"
            }
            Refusal::WrongMark => "fixed mark wrong",
            Refusal::IndexAbove31 => "L1 or L2 index above 31",
            Refusal::Misplaced => "an item not at a permitted place",
            Refusal::EmptyItem => "an item empty, or a public key item's length below 4",
            Refusal::Overlap => "items overlap",
            Refusal::UnusedRun => "unused run over 8 bytes",
            Refusal::MalformedText => "text malformed",
            Refusal::KeyLength => "key length breaks the key rules",
            Refusal::MalformedSid => "SID malformed",
            Refusal::NoRoom => "output buffer shorter than the record",
            Refusal::IndexOutOfRange => "requested index out of range",
            Refusal::MixedIndices => "requested indices mix -1 with others",
            Refusal::VerdictNo => "security descriptor not sound, or the verdict on it no",
            Refusal::LaterThanNow => "request later than now",
            Refusal::RightsTooLow => "rights too low",
            Refusal::NoRootKey => "no suitable root key",
            Refusal::TableLength => "root table length no multiple of 32, or over 64 rows",
            Refusal::StartPastTime => "identifier's start time exceeds 64 bits",
            Refusal::BytesLeft => "bytes left after the last list entry",
            Refusal::NeitherServes => "neither envelope serves",
            Refusal::UnpairedSurrogate => "text with an unpaired surrogate",
            Refusal::WrongShifts => "chunk and data unit shift differ, or a shift is over 31",
            Refusal::MalformedRecord => {
                "trace record cut, a spare bit set, rights 3, \
                 or identifier bits while no root is given"
            }
        }
    }
}

impl fmt::Display for Refusal {
    fn fmt(&self, f: &mut fmt::Formatter<'_>) -> fmt::Result {
        f.write_str(self.text())
    }
}

impl Error for Refusal {}

/// Why a list is refused, and for which of its entries.
///
/// ```
/// use gishwarem::{List, ListRefusal, Refusal};
///
/// // A count of 1, and nothing behind it: the entry at index 0 has under 20 bytes.
/// let refused = List::read(&[1, 0, 0, 0]).unwrap_err();
/// assert_eq!(refused, ListRefusal { refusal: Refusal::Short, index: 0 });
/// assert_eq!(refused.to_string(), "shorter than its fixed head (index 0)");
/// ```
#[derive(Debug, Clone, Copy, PartialEq, Eq, Hash)]
pub struct ListRefusal {
    /// The refusal.
    pub refusal: Refusal,
    /// The index, from 0, of the entry that it is given for; 0 too where it is given for the list
    /// itself.
    pub index: u32,
}

impl fmt::Display for ListRefusal {
    fn fmt(&self, f: &mut fmt::Formatter<'_>) -> fmt::Result {
        write!(f, "{} (index {})", self.refusal, self.index)
    }
}

impl Error for ListRefusal {}
