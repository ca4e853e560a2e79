//! Key records and data segment headers of encrypted files, group key envelopes, the GetKey
//! decision with its check of the security descriptor, and the replay of recorded requests.
//!
//! Each function makes one call into the library and lays its answer out: a refusal is an `Err`,
//! and a part is a slice of the caller's own bytes. Nothing is kept between calls, nothing is
//! allocated, and any bytes and numbers get an answer.
//!
//! | subject | here |
//! |---|---|
//! | Key List Entry (MS-EFSR 2.2.2.1.2) | [`Entry`] |
//! | a list of entries | [`List`], judged whole; [`Walk`], entry by entry |
//! | EfsKey (MS-GPEF 2.2.1.2.2) | [`EfsKey`] |
//! | Data Segment Encryption Header (MS-EFSR 2.2.3.3) | [`Segment`] |
//! | Group Key Envelope (MS-GKDI 2.2.4) | [`Envelope`], and its texts, [`Text`] |
//! | time and identifiers | [`FileTime`], [`Gkid`], [`RootId`] |
//! | security descriptor (MS-DTYP 2.4.6) | [`check_descriptor`] |
//! | the GetKey decision (MS-GKDI 3.1.4.1) | [`decide`]; by a verdict, [`decide_by_verdict`] |
//! | a recorded request | [`Recorded`] |
//! | the replay of a trace | [`Replay`], chunk by chunk; [`Lines`], record by record; [`Tally`] |
//! | what keys reach | [`Reach`] |
//! | a cached and a fetched envelope | [`serving_key`] |
//!
//! The C face itself is in [`raw`].
//!
//! ```
//! use gishwarem::{decide, FileTime, Form, Gkid, Reach, Request, Rights, RootId};
//!
//! // A root table of one row: its identifier, its use-start time and its create time.
//! let root = RootId([7; 16]);
//! let mut table = [0; 32];
//! table[..16].copy_from_slice(&root.0);
//!
//! // The least sound security descriptor: revision 1, the control bit 0x8000, and no item.
//! let descriptor = [1, 0, 0, 0x80, 0, 0, 0, 0, 0, 0, 0, 0, 0, 0, 0, 0, 0, 0, 0, 0];
//!
//! // In L0 group 5, (5, 0, 0) is asked for at (5, 3, 7): the answer is now's key, in both parts.
//! let request = Request::named(Some(root), 5, 0, 0);
//! let clock = FileTime(1_880_280_000_000_000);
//! let answer = decide(&descriptor, Rights::Seed, &request, clock, &table)?;
//! assert_eq!(answer.at, Gkid { l0: 5, l1: 3, l2: 7 });
//! assert_eq!(answer.form, Form::Both);
//!
//! // It reaches all of rows 0 to 2, and L2 indices 0 to 7 of row 3.
//! assert_eq!(Reach::of_form(answer.form, answer.at)?.total, 3 * 32 + 8);
//! # Ok::<(), gishwarem::Refusal>(())
//! ```

#![deny(missing_docs)]
#![deny(unsafe_code)]
#![deny(unsafe_op_in_unsafe_fn)]

mod answer;
#[allow(unsafe_code)]
mod calls;
mod decision;
mod descriptor;
mod efskey;
mod entry;
mod envelope;
mod form;
mod gkid;
mod list;
pub mod raw;
mod reach;
mod refusal;
mod replay;
mod request;
mod rootid;
mod secret;
mod segment;
mod serving;
mod text;
mod time;
mod trace;
mod walk;

pub use decision::{decide, decide_by_verdict, Answer, Rights, Row};
pub use descriptor::{check_descriptor, DescriptorPart};
pub use efskey::{EfsKey, SidHint};
pub use entry::{Algorithm, Entry};
pub use envelope::{Bodies, Envelope, Head};
pub use form::Form;
pub use gkid::Gkid;
pub use list::{Entries, List};
pub use reach::Reach;
pub use refusal::{ListRefusal, Refusal};
pub use replay::{Chunk, Line, Lines, Progress, Replay, Stopped, Tally};
pub use request::Request;
pub use rootid::RootId;
pub use segment::{Segment, SegmentHead};
pub use serving::{serving_key, SeedKey, ServingKey, Source};
pub use text::{Text, Texts};
pub use time::FileTime;
pub use trace::Recorded;
pub use walk::{ListEntry, Walk};

/// The version of the library that was linked. [`raw::VERSION`] is that of the declarations here: a host may compare them once.
///
/// ```
/// assert_eq!(gishwarem::version(), gishwarem::raw::VERSION);
/// ```
pub fn version() -> u32 {
    calls::version()
}
