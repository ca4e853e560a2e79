//! The GetKey decision (MS-GKDI 3.1.4.1).

use crate::answer::accepted;
use crate::raw::codes;
use crate::{calls, raw, FileTime, Form, Gkid, Refusal, Request};

/// The rights of a caller, the weakest first.
///
/// ```
/// use gishwarem::{decide_by_verdict, FileTime, Form, Refusal, Request, Rights};
///
/// assert!(Rights::None < Rights::Public && Rights::Public < Rights::Seed);
///
/// // The latest key is asked for at (0, 0, 0).
/// let form = |rights| {
///     let request = Request::latest(None);
///     decide_by_verdict(true, rights, &request, FileTime(0), &[0; 32]).map(|answer| answer.form)
/// };
/// assert_eq!(form(Rights::None), Err(Refusal::RightsTooLow));
/// assert_eq!(form(Rights::Public), Ok(Form::Public));
/// assert_eq!(form(Rights::Seed), Ok(Form::L2Only));
/// ```
#[repr(u32)]
#[derive(Debug, Clone, Copy, PartialEq, Eq, PartialOrd, Ord, Hash)]
pub enum Rights {
    /// Nothing.
    None = codes::RIGHTS_NONE,
    /// Public keys.
    Public = codes::RIGHTS_PUBLIC,
    /// Seed keys.
    Seed = codes::RIGHTS_SEED,
}

impl Rights {
    /// The rights of a code that the library answers.
    pub(crate) fn from_code(code: u32) -> Rights {
        match code {
            codes::RIGHTS_NONE => Rights::None,
            codes::RIGHTS_PUBLIC => Rights::Public,
            codes::RIGHTS_SEED => Rights::Seed,
            _ => unreachable!("the library answers listed rights"),
        }
    }

    /// The code by which the library is told rights.
    fn code(self) -> u32 {
        self as u32
    }
}

/// The root key under which a key is granted.
///
/// ```
/// use gishwarem::{decide_by_verdict, FileTime, Request, Rights, Row};
///
/// // Two rows, of which the second has the later use-start time, most significant byte first.
/// let mut table = [0; 64];
/// table[32 + 23] = 1;
///
/// let row = |table: &[u8]| {
///     let request = Request::latest(None);
///     decide_by_verdict(true, Rights::Seed, &request, FileTime(0), table).map(|answer| answer.row)
/// };
/// assert_eq!(row(&table), Ok(Row::At(1)));
/// assert_eq!(row(&[]), Ok(Row::Create));
/// ```
#[derive(Debug, Clone, Copy, PartialEq, Eq, Hash)]
pub enum Row {
    /// The one in this row of the root table, counted from 0.
    At(usize),
    /// CREATE: one that is yet to be created.
    Create,
}

impl Row {
    /// The root key that a decision grants.
    fn from_answer(answer: &raw::DecisionAnswer) -> Row {
        match answer.granted {
            codes::GRANTED_ROW => Row::At(answer.row),
            codes::GRANTED_CREATE => Row::Create,
            _ => unreachable!("the library grants a row or a root key to create"),
        }
    }
}

/// What a request is granted.
///
/// ```
/// use gishwarem::{decide_by_verdict, Answer, FileTime, Form, Gkid, Request, Rights, Row};
///
/// // The latest key, at (5, 3, 7), under a root key that is yet to be created.
/// let clock = FileTime(1_880_280_000_000_000);
/// let answer = decide_by_verdict(true, Rights::Public, &Request::latest(None), clock, &[])?;
/// let at = Gkid { l0: 5, l1: 3, l2: 7 };
/// assert_eq!(answer, Answer { at, form: Form::Public, row: Row::Create });
/// # Ok::<(), gishwarem::Refusal>(())
/// ```
#[derive(Debug, Clone, Copy, PartialEq, Eq, Hash)]
pub struct Answer {
    /// The identifier granted.
    pub at: Gkid,
    /// The keys granted.
    pub form: Form,
    /// The root key.
    pub row: Row,
}

impl Answer {
    /// What a decision grants, or its refusal.
    pub(crate) fn from_answer(answer: &raw::DecisionAnswer) -> Result<Answer, Refusal> {
        accepted(answer.refusal)?;
        Ok(Answer {
            at: answer.at.into(),
            form: Form::from_code(answer.form),
            row: Row::from_answer(answer),
        })
    }
}

/// Decides a request for a group key: by the security descriptor, the caller's rights, the clock,
/// and the root table.
///
/// The descriptor is self-relative; one that [`check_descriptor`](crate::check_descriptor) does
/// not find sound is refused. A row of the table is 32 bytes: the root key identifier (16), the
/// use-start time (8) and the create time (8), times with the most significant byte first. The
/// checks run in this order: descriptor, index out of range, mixed indices, later than now,
/// rights, table length, no suitable root key.
///
/// ```
/// use gishwarem::{decide, Answer, FileTime, Form, Gkid, Refusal, Request, Rights, RootId, Row};
///
/// // The least sound descriptor: revision 1, the control bit 0x8000, and no item.
/// let descriptor = [1, 0, 0, 0x80, 0, 0, 0, 0, 0, 0, 0, 0, 0, 0, 0, 0, 0, 0, 0, 0];
///
/// let root = RootId([7; 16]);
/// let mut table = [0; 32];
/// table[..16].copy_from_slice(&root.0);
///
/// // Now is (5, 3, 7).
/// let clock = FileTime(1_880_280_000_000_000);
/// let ask = |root, l0, l1, l2| {
///     let request = Request::named(root, l0, l1, l2);
///     decide(&descriptor, Rights::Seed, &request, clock, &table)
/// };
///
/// // With a root key given, an earlier L0 group has its last key.
/// let at = Gkid { l0: 4, l1: 31, l2: 31 };
/// let granted = Answer { at, form: Form::L1Only, row: Row::At(0) };
/// assert_eq!(ask(Some(root), 4, 2, 2), Ok(granted));
///
/// // With none given, the named key itself.
/// let at = Gkid { l0: 4, l1: 0, l2: 2 };
/// let granted = Answer { at, form: Form::L2Only, row: Row::At(0) };
/// assert_eq!(ask(None, 4, 0, 2), Ok(granted));
///
/// assert_eq!(ask(None, 5, 3, 8), Err(Refusal::LaterThanNow));
///
/// // Without its last byte, the descriptor is none.
/// let request = Request::latest(None);
/// let refused = decide(&descriptor[..19], Rights::Seed, &request, clock, &table);
/// assert_eq!(refused, Err(Refusal::VerdictNo));
/// ```
pub fn decide(
    descriptor: &[u8],
    rights: Rights,
    request: &Request,
    clock: FileTime,
    table: &[u8],
) -> Result<Answer, Refusal> {
    let request = (*request).into();
    Answer::from_answer(&calls::decide(
        descriptor,
        rights.code(),
        request,
        clock.0,
        table,
    ))
}

/// The same with a verdict in place of the descriptor: what a record of past requests has of it.
///
/// ```
/// use gishwarem::{decide_by_verdict, FileTime, Form, Refusal, Request, Rights};
///
/// let form = |verdict| {
///     let request = Request::latest(None);
///     decide_by_verdict(verdict, Rights::Public, &request, FileTime(0), &[])
///         .map(|answer| answer.form)
/// };
/// assert_eq!(form(true), Ok(Form::Public));
/// assert_eq!(form(false), Err(Refusal::VerdictNo));
/// ```
pub fn decide_by_verdict(
    verdict: bool,
    rights: Rights,
    request: &Request,
    clock: FileTime,
    table: &[u8],
) -> Result<Answer, Refusal> {
    let request = (*request).into();
    Answer::from_answer(&calls::decide_by_verdict(
        verdict.into(),
        rights.code(),
        request,
        clock.0,
        table,
    ))
}
