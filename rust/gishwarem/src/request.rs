//! A request for a group key.

use crate::raw::codes;
use crate::{raw, RootId};

/// A request for a group key: the root key or none, and three signed indices, which are -1 all
/// three where the latest key is asked for.
///
/// Any numbers make a request; [`decide`](crate::decide) judges them.
///
/// ```
/// use gishwarem::{decide_by_verdict, FileTime, Refusal, Request, Rights};
///
/// let ask = |l0, l1, l2| {
///     let request = Request { root: None, l0, l1, l2 };
///     decide_by_verdict(true, Rights::Seed, &request, FileTime(0), &[]).map(|answer| answer.at)
/// };
/// assert_eq!(ask(0, 0, 32), Err(Refusal::IndexOutOfRange));
/// assert_eq!(ask(0, -1, 0), Err(Refusal::MixedIndices));
/// assert_eq!(ask(0, 0, 1), Err(Refusal::LaterThanNow));
/// ```
#[derive(Debug, Clone, Copy, PartialEq, Eq, Hash)]
pub struct Request {
    /// The root key, where one is named.
    pub root: Option<RootId>,
    /// L0 index.
    pub l0: i32,
    /// L1 index.
    pub l1: i32,
    /// L2 index.
    pub l2: i32,
}

impl Request {
    /// A request for the latest key.
    ///
    /// ```
    /// use gishwarem::{Request, RootId};
    ///
    /// let root = Some(RootId([7; 16]));
    /// let request = Request::latest(root);
    /// assert_eq!(request, Request { root, l0: -1, l1: -1, l2: -1 });
    /// ```
    pub fn latest(root: Option<RootId>) -> Request {
        Request::named(root, -1, -1, -1)
    }

    /// A request for the key of an identifier.
    ///
    /// ```
    /// use gishwarem::Request;
    ///
    /// let request = Request::named(None, 4, 0, 2);
    /// assert_eq!(request, Request { root: None, l0: 4, l1: 0, l2: 2 });
    /// ```
    pub fn named(root: Option<RootId>, l0: i32, l1: i32, l2: i32) -> Request {
        Request { root, l0, l1, l2 }
    }
}

impl From<Request> for raw::Request {
    fn from(request: Request) -> raw::Request {
        raw::Request {
            root_given: request.root.is_some().into(),
            l0: request.l0,
            l1: request.l1,
            l2: request.l2,
            root: request.root.unwrap_or_default().into(),
        }
    }
}

impl From<raw::Request> for Request {
    fn from(request: raw::Request) -> Request {
        let given = request.root_given != codes::ROOT_NONE;
        Request {
            root: given.then(|| request.root.into()),
            l0: request.l0,
            l1: request.l1,
            l2: request.l2,
        }
    }
}
