//! Forms: which keys there are.

use crate::raw::codes;

/// The keys that an envelope carries, or that a request is granted.
///
/// ```
/// use gishwarem::{Form, Gkid, Reach};
///
/// // At (5, 3, 7), an L1 key reaches rows 0 to 2; an L2 key reaches indices 0 to 7 of row 3.
/// let at = Gkid { l0: 5, l1: 3, l2: 7 };
/// let total = |form| Reach::of_form(form, at).map(|reach| reach.total);
/// assert_eq!(total(Form::Keyless), Ok(0));
/// assert_eq!(total(Form::L1Only), Ok(96));
/// assert_eq!(total(Form::L2Only), Ok(8));
/// assert_eq!(total(Form::Both), Ok(104));
/// assert_eq!(total(Form::Public), Ok(0));
/// ```
#[repr(u32)]
#[derive(Debug, Clone, Copy, PartialEq, Eq, Hash)]
pub enum Form {
    /// NOKEY: none.
    Keyless = codes::FORM_KEYLESS,
    /// An L1 seed key.
    L1Only = codes::FORM_L1ONLY,
    /// An L2 seed key.
    L2Only = codes::FORM_L2ONLY,
    /// An L1 and an L2 seed key.
    Both = codes::FORM_BOTH,
    /// A public key.
    Public = codes::FORM_PUBLIC,
}

impl Form {
    /// The form of a code that the library answers.
    pub(crate) fn from_code(code: u32) -> Form {
        match code {
            codes::FORM_KEYLESS => Form::Keyless,
            codes::FORM_L1ONLY => Form::L1Only,
            codes::FORM_L2ONLY => Form::L2Only,
            codes::FORM_BOTH => Form::Both,
            codes::FORM_PUBLIC => Form::Public,
            _ => unreachable!("the library answers a listed form"),
        }
    }

    /// The code by which the library is told a form.
    pub(crate) fn code(self) -> u32 {
        self as u32
    }
}
