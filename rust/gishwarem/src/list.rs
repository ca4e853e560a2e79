//! A list of Key List Entries, judged whole.

use std::iter::FusedIterator;

use crate::answer::accepted;
use crate::{calls, Entry, ListRefusal, Walk};

/// A list of entries that was accepted: a count, and that many entries back to back.
///
/// ```
/// use gishwarem::{List, Refusal};
///
/// // A count of 0 in exactly four bytes is a list.
/// let list = List::read(&[0; 4])?;
/// assert_eq!(list.count(), 0);
/// assert!(list.entries().next().is_none());
///
/// assert_eq!(List::read(&[0; 3]).unwrap_err().refusal, Refusal::Short);
/// assert_eq!(List::read(&[0; 5]).unwrap_err().refusal, Refusal::BytesLeft);
/// # Ok::<(), gishwarem::ListRefusal>(())
/// ```
#[derive(Debug, Clone, Copy, PartialEq, Eq, Hash)]
pub struct List<'a> {
    bytes: &'a [u8],
    count: u32,
}

impl<'a> List<'a> {
    /// Judges a list whole: its size, each entry in turn, and that nothing is left over.
    ///
    /// ```
    /// use gishwarem::{Entry, List, ListRefusal, Refusal};
    ///
    /// // A count of 2, and two entries of 25 bytes.
    /// let mut bytes = [0; 54];
    /// bytes[0] = 2;
    /// Entry::write(&mut bytes[4..], 0, &[4, 0, 0, 0], &[0xAB])?;
    /// Entry::write(&mut bytes[29..], 1, &[4, 0, 0, 0], &[0xCD])?;
    /// assert_eq!(List::read(&bytes).map(|list| list.count()), Ok(2));
    ///
    /// // A FEK length of 0 in the second one, at index 1.
    /// bytes[29 + 8] = 0;
    /// let refused = List::read(&bytes);
    /// assert_eq!(refused, Err(ListRefusal { refusal: Refusal::EmptyItem, index: 1 }));
    /// # Ok::<(), Refusal>(())
    /// ```
    pub fn read(bytes: &'a [u8]) -> Result<List<'a>, ListRefusal> {
        let answer = calls::list_judge(bytes);
        accepted(answer.refusal).map_err(|refusal| ListRefusal {
            refusal,
            index: answer.index,
        })?;
        Ok(List {
            bytes,
            count: answer.count,
        })
    }

    /// The number of entries.
    ///
    /// ```
    /// use gishwarem::{Entry, List};
    ///
    /// let mut bytes = [0; 29];
    /// bytes[0] = 1;
    /// Entry::write(&mut bytes[4..], 0, &[4, 0, 0, 0], &[0xAB])?;
    /// assert_eq!(List::read(&bytes).map(|list| list.count()), Ok(1));
    /// # Ok::<(), gishwarem::Refusal>(())
    /// ```
    pub fn count(&self) -> u32 {
        self.count
    }

    /// The entries, in their order.
    ///
    /// ```
    /// use gishwarem::{Algorithm, Entry, List};
    ///
    /// let mut bytes = [0; 54];
    /// bytes[0] = 2;
    /// Entry::write(&mut bytes[4..], 0, &[4, 0, 0, 0], &[0xAB])?;
    /// Entry::write(&mut bytes[29..], 1, &[4, 0, 0, 0], &[0xCD])?;
    ///
    /// let list = List::read(&bytes)?;
    /// let aes = list.entries().find(|entry| entry.algorithm == Algorithm::Aes256);
    /// assert_eq!(aes.map(|entry| entry.fek), Some(&[0xCD][..]));
    /// # Ok::<(), Box<dyn std::error::Error>>(())
    /// ```
    pub fn entries(&self) -> Entries<'a> {
        Entries {
            walk: Walk::over(self.bytes),
            left: self.count as usize,
        }
    }
}

/// The entries of an accepted list, by [`List::entries`].
///
/// ```
/// use gishwarem::{Entry, List};
///
/// let mut bytes = [0; 54];
/// bytes[0] = 2;
/// Entry::write(&mut bytes[4..], 0, &[4, 0, 0, 0], &[0xAB])?;
/// Entry::write(&mut bytes[29..], 1, &[4, 0, 0, 0], &[0xCD])?;
///
/// let mut entries = List::read(&bytes)?.entries();
/// assert_eq!(entries.len(), 2);
/// assert_eq!(entries.next().map(|entry| entry.flags), Some(0));
/// assert_eq!(entries.len(), 1);
/// assert_eq!(entries.next().map(|entry| entry.flags), Some(1));
/// assert_eq!(entries.next(), None);
/// # Ok::<(), Box<dyn std::error::Error>>(())
/// ```
#[derive(Debug, Clone)]
pub struct Entries<'a> {
    walk: Walk<'a>,
    left: usize,
}

impl<'a> Iterator for Entries<'a> {
    type Item = Entry<'a>;

    fn next(&mut self) -> Option<Entry<'a>> {
        let step = self.walk.next()?;
        let found = step.expect("the walk over an accepted list is not refused");
        self.left -= 1;
        Some(found.entry)
    }

    fn size_hint(&self) -> (usize, Option<usize>) {
        (self.left, Some(self.left))
    }
}

impl ExactSizeIterator for Entries<'_> {}

impl FusedIterator for Entries<'_> {}
