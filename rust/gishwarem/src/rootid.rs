//! Root key identifiers.

use crate::raw;

/// A root key identifier: 16 bytes as they stand in an envelope and in a row of the root table.
/// No GUID byte order is applied.
///
/// ```
/// use gishwarem::{decide_by_verdict, FileTime, Refusal, Request, Rights, RootId, Row};
///
/// // A table of two rows, under the identifiers 1, 1, .. and 2, 2, ..
/// let mut table = [0; 64];
/// table[..16].fill(1);
/// table[32..48].fill(2);
///
/// let ask = |root| {
///     let request = Request::latest(Some(root));
///     decide_by_verdict(true, Rights::Seed, &request, FileTime(0), &table)
/// };
/// assert_eq!(ask(RootId([2; 16])).map(|answer| answer.row), Ok(Row::At(1)));
/// assert_eq!(ask(RootId([3; 16])), Err(Refusal::NoRootKey));
/// ```
#[derive(Debug, Clone, Copy, PartialEq, Eq, PartialOrd, Ord, Hash, Default)]
pub struct RootId(pub [u8; 16]);

impl From<raw::Root> for RootId {
    fn from(root: raw::Root) -> RootId {
        RootId(root.bytes)
    }
}

impl From<RootId> for raw::Root {
    fn from(root: RootId) -> raw::Root {
        raw::Root { bytes: root.0 }
    }
}
