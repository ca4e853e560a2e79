//! Clock readings.

/// A clock reading: a FILETIME, the number of 100-nanosecond ticks since the start of 1601.
///
/// A type of its own, so that a reading and an identifier's index cannot be mixed up. Readings
/// compare as numbers.
///
/// ```
/// use gishwarem::{FileTime, Gkid};
///
/// // The last reading has the highest identifier.
/// let last = FileTime(u64::MAX);
/// assert_eq!(Gkid::at(last), Gkid { l0: 50039, l1: 31, l2: 27 });
/// assert!(FileTime(0) < last);
/// ```
#[derive(Debug, Clone, Copy, PartialEq, Eq, PartialOrd, Ord, Hash, Default)]
pub struct FileTime(pub u64);
