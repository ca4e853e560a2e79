//! What keys reach in their L0 group.

use crate::answer::accepted;
use crate::{calls, raw, Form, Gkid, Refusal};

/// A reach: which identifiers of an L0 group keys open, as a map of 32 rows of 32 bits.
///
/// ```
/// use gishwarem::{Form, Gkid, Reach};
///
/// // An L2 key at (4, 0, 2) reaches L2 indices 0 to 2 of row 0: the three highest bits.
/// let reach = Reach::of_form(Form::L2Only, Gkid { l0: 4, l1: 0, l2: 2 })?;
/// assert_eq!(reach.rows[0], 0b111 << 29);
/// assert_eq!(reach.rows[1..], [0; 31]);
/// assert_eq!(reach.total, 3);
/// # Ok::<(), gishwarem::Refusal>(())
/// ```
#[derive(Debug, Clone, Copy, PartialEq, Eq, Hash)]
pub struct Reach {
    /// A row for each L1 index; L2 index 0 is the most significant bit.
    pub rows: [u32; 32],
    /// The number of set bits.
    pub total: u32,
}

impl Reach {
    /// What the keys of an envelope reach; a public or keyless one reaches nothing. Refuses what
    /// [`Envelope::read`](crate::Envelope::read) refuses.
    ///
    /// ```
    /// use gishwarem::{Bodies, Envelope, Gkid, Head, Reach, Refusal};
    ///
    /// // An envelope at (4, 31, 31) with its L1 key reaches all of its group.
    /// let head = Head { at: Gkid { l0: 4, l1: 31, l2: 31 }, ..Head::default() };
    /// let empty_text = &[0, 0][..];
    /// let bodies = Bodies {
    ///     kdf: empty_text,
    ///     agreement: empty_text,
    ///     domain: empty_text,
    ///     forest: empty_text,
    ///     l1_key: &[1; 64],
    ///     ..Bodies::default()
    /// };
    /// let mut bytes = [0; 88 + 64];
    /// Envelope::write(&mut bytes, &head, &bodies)?;
    /// let reach = Reach::of_envelope(&bytes)?;
    /// assert_eq!(reach.rows, [u32::MAX; 32]);
    /// assert_eq!(reach.total, 1024);
    ///
    /// assert_eq!(Reach::of_envelope(&bytes[..79]), Err(Refusal::Short));
    /// # Ok::<(), Refusal>(())
    /// ```
    pub fn of_envelope(bytes: &[u8]) -> Result<Reach, Refusal> {
        Reach::from_answer(calls::envelope_reach(bytes))
    }

    /// What a form reaches at an identifier: the reach of a seed envelope there with just those
    /// keys. Refuses an index above 31, then a key that such an envelope cannot have.
    ///
    /// ```
    /// use gishwarem::{Form, Gkid, Reach, Refusal};
    ///
    /// let at = Gkid { l0: 5, l1: 3, l2: 7 };
    /// assert_eq!(Reach::of_form(Form::Both, at)?.total, 104);
    ///
    /// let first_row = Gkid { l0: 5, l1: 0, l2: 7 };
    /// assert_eq!(Reach::of_form(Form::Both, first_row), Err(Refusal::KeyLength));
    ///
    /// let outside = Gkid { l0: 5, l1: 3, l2: 32 };
    /// assert_eq!(Reach::of_form(Form::Both, outside), Err(Refusal::IndexAbove31));
    /// # Ok::<(), Refusal>(())
    /// ```
    pub fn of_form(form: Form, at: Gkid) -> Result<Reach, Refusal> {
        Reach::from_answer(calls::form_reach(form.code(), at.into()))
    }

    /// Whether the map's bit in row `l1` at index `l2` is set. An index above 31 has no bit.
    ///
    /// ```
    /// use gishwarem::{Form, Gkid, Reach};
    ///
    /// let reach = Reach::of_form(Form::Both, Gkid { l0: 5, l1: 3, l2: 7 })?;
    /// assert!(reach.reaches(2, 31));
    /// assert!(reach.reaches(3, 7));
    /// assert!(!reach.reaches(3, 8));
    /// assert!(!reach.reaches(0, 32));
    /// # Ok::<(), gishwarem::Refusal>(())
    /// ```
    pub fn reaches(&self, l1: u32, l2: u32) -> bool {
        const FIRST: u32 = 1 << 31;
        let row = self.rows.get(l1 as usize).copied().unwrap_or(0);
        let bit = FIRST.checked_shr(l2).unwrap_or(0);
        row & bit != 0
    }

    /// The map and its total, or the refusal.
    fn from_answer(answer: raw::ReachAnswer) -> Result<Reach, Refusal> {
        accepted(answer.refusal)?;
        Ok(Reach {
            rows: answer.rows,
            total: answer.total,
        })
    }
}
