//! Keys in debug output: how many bytes, and none of them.

use std::fmt;

/// A key for debug output, so that none gets into a log.
pub(crate) struct Unshown<'a>(pub(crate) &'a [u8]);

impl fmt::Debug for Unshown<'_> {
    fn fmt(&self, f: &mut fmt::Formatter<'_>) -> fmt::Result {
        write!(f, "{} bytes", self.0.len())
    }
}
