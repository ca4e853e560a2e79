//! The walk over a list of entries that has not been judged.

use std::iter::FusedIterator;

use crate::answer::{accepted, cut};
use crate::raw::codes;
use crate::{calls, raw, Entry, ListRefusal};

/// An entry that a walk finds.
///
/// ```
/// use gishwarem::{Entry, Walk};
///
/// let mut bytes = [0; 54];
/// bytes[0] = 2;
/// Entry::write(&mut bytes[4..], 0, &[4, 0, 0, 0], &[0xAB])?;
/// Entry::write(&mut bytes[29..], 1, &[4, 0, 0, 0], &[0xCD])?;
///
/// let second = Walk::over(&bytes).nth(1).expect("there are two")?;
/// assert_eq!((second.index, second.at), (1, 29));
/// assert_eq!(second.entry, Entry::read(&bytes[29..])?);
/// # Ok::<(), Box<dyn std::error::Error>>(())
/// ```
#[derive(Debug, Clone, Copy, PartialEq, Eq, Hash)]
pub struct ListEntry<'a> {
    /// Its index, from 0.
    pub index: u32,
    /// The offset of its first byte in the list.
    pub at: usize,
    /// What it shows.
    pub entry: Entry<'a>,
}

/// A walk: it holds the lent list and its place, and judges and shows each entry in turn.
/// [`step`](Walk::step) answers the end or the refusal behind them, and that again if asked again;
/// as an iterator it shows a refusal once, then ends.
///
/// Entries are shown before a later refusal is known. [`List::read`](crate::List::read) judges the
/// whole first.
///
/// ```
/// use gishwarem::{Entry, ListRefusal, Refusal, Walk};
///
/// // A count of 1, one entry of 25 bytes, and one byte too many.
/// let mut bytes = [0; 30];
/// bytes[0] = 1;
/// Entry::write(&mut bytes[4..], 0, &[4, 0, 0, 0], &[0xAB])?;
///
/// let mut walk = Walk::over(&bytes);
/// assert_eq!(walk.next().expect("an entry").map(|found| found.at), Ok(4));
/// let left = ListRefusal { refusal: Refusal::BytesLeft, index: 0 };
/// assert_eq!(walk.next(), Some(Err(left)));
/// assert_eq!(walk.next(), None);
/// # Ok::<(), Refusal>(())
/// ```
#[derive(Debug, Clone)]
pub struct Walk<'a> {
    list: &'a [u8],
    /// The offset of the next entry.
    at: usize,
    /// Its index.
    index: u32,
    /// The iterator has shown a refusal.
    refused: bool,
}

impl<'a> Walk<'a> {
    /// A walk from the list's start: behind the count, at index 0. Any bytes can be walked.
    ///
    /// ```
    /// use gishwarem::Walk;
    ///
    /// assert_eq!(Walk::over(&[0; 4]).count(), 0); // no entry, and the end
    /// assert_eq!(Walk::over(&[]).count(), 1); // a refusal
    /// ```
    pub fn over(list: &'a [u8]) -> Walk<'a> {
        Walk {
            list,
            at: 4,
            index: 0,
            refused: false,
        }
    }

    /// The next entry, or `None` at the end, or the refusal. Past an entry the walk moves on; at the
    /// end and at a refusal it stays, so that asked again it answers that again.
    ///
    /// ```
    /// use gishwarem::{Entry, ListRefusal, Refusal, Walk};
    ///
    /// // A count of 2, and two entries of 25 bytes.
    /// let mut bytes = [0; 54];
    /// bytes[0] = 2;
    /// Entry::write(&mut bytes[4..], 0, &[4, 0, 0, 0], &[0xAB])?;
    /// Entry::write(&mut bytes[29..], 1, &[4, 0, 0, 0], &[0xCD])?;
    ///
    /// let mut walk = Walk::over(&bytes);
    /// assert_eq!(walk.step()?.map(|found| found.at), Some(4));
    /// assert_eq!(walk.step()?.map(|found| found.at), Some(29));
    /// assert_eq!(walk.step(), Ok(None));
    /// assert_eq!(walk.step(), Ok(None));
    ///
    /// // A FEK length of 0 in the second one, at index 1.
    /// bytes[29 + 8] = 0;
    /// let mut walk = Walk::over(&bytes);
    /// assert_eq!(walk.step()?.map(|found| found.at), Some(4));
    /// let refused = ListRefusal { refusal: Refusal::EmptyItem, index: 1 };
    /// assert_eq!(walk.step(), Err(refused));
    /// assert_eq!(walk.step(), Err(refused));
    /// # Ok::<(), Box<dyn std::error::Error>>(())
    /// ```
    pub fn step(&mut self) -> Result<Option<ListEntry<'a>>, ListRefusal> {
        let step = calls::list_step(self.list, self.at, self.index);
        (self.at, self.index) = (step.next_at, step.next_index);
        accepted(step.refusal).map_err(|refusal| ListRefusal {
            refusal,
            index: step.index,
        })?;
        Ok((step.found == codes::STEP_ENTRY).then(|| self.shown(&step)))
    }

    /// The entry that a step found: its record ends at the next place.
    fn shown(&self, step: &raw::StepAnswer) -> ListEntry<'a> {
        let record = raw::Part {
            at: step.at,
            len: step.next_at - step.at,
        };
        ListEntry {
            index: step.index,
            at: step.at,
            entry: Entry::of_step(cut(self.list, record), step),
        }
    }
}

impl<'a> Iterator for Walk<'a> {
    type Item = Result<ListEntry<'a>, ListRefusal>;

    fn next(&mut self) -> Option<Self::Item> {
        if self.refused {
            return None;
        }
        let step = self.step();
        self.refused = step.is_err();
        step.transpose()
    }
}

impl FusedIterator for Walk<'_> {}
