//! Which of two envelopes serves an identifier, and by which key.

use std::fmt;

use crate::answer::{accepted, cut};
use crate::raw::codes;
use crate::secret::Unshown;
use crate::{calls, Gkid, Refusal, RootId};

/// The envelope that a serving key is from.
///
/// ```
/// use gishwarem::{serving_key, Bodies, Envelope, Head, Source};
///
/// // One envelope at (0, 0, 0) with its L2 key, held in both places, or fetched alone.
/// let empty_text = &[0, 0][..];
/// let bodies = Bodies {
///     kdf: empty_text,
///     agreement: empty_text,
///     domain: empty_text,
///     forest: empty_text,
///     l2_key: &[2; 64],
///     ..Bodies::default()
/// };
/// let mut bytes = [0; 88 + 64];
/// let head = Head::default();
/// Envelope::write(&mut bytes, &head, &bodies)?;
///
/// let from = |cached| serving_key(head.root, head.at, cached, &bytes).map(|key| key.from);
/// assert_eq!(from(&bytes), Ok(Source::Cached));
/// assert_eq!(from(&[]), Ok(Source::Fetched));
/// # Ok::<(), gishwarem::Refusal>(())
/// ```
#[derive(Debug, Clone, Copy, PartialEq, Eq, Hash)]
pub enum Source {
    /// The cached one.
    Cached,
    /// The fetched one.
    Fetched,
}

impl Source {
    /// The envelope of a code that the library answers.
    fn from_code(code: u32) -> Source {
        match code {
            codes::CACHED => Source::Cached,
            codes::FETCHED => Source::Fetched,
            _ => unreachable!("the library chooses one of the two envelopes"),
        }
    }
}

/// Which of its seed keys an envelope serves by.
///
/// ```
/// use gishwarem::{serving_key, Bodies, Envelope, Gkid, Head, SeedKey};
///
/// // At (5, 3, 7) the L1 key reaches rows 0 to 2, and the L2 key the start of row 3.
/// let head = Head { at: Gkid { l0: 5, l1: 3, l2: 7 }, ..Head::default() };
/// let empty_text = &[0, 0][..];
/// let bodies = Bodies {
///     kdf: empty_text,
///     agreement: empty_text,
///     domain: empty_text,
///     forest: empty_text,
///     l1_key: &[1; 64],
///     l2_key: &[2; 64],
///     ..Bodies::default()
/// };
/// let mut bytes = [0; 88 + 64 + 64];
/// Envelope::write(&mut bytes, &head, &bodies)?;
///
/// let key = |l1, l2| {
///     let wanted = Gkid { l0: 5, l1, l2 };
///     serving_key(head.root, wanted, &bytes, &[]).map(|key| key.key)
/// };
/// assert_eq!(key(2, 31), Ok(SeedKey::L1));
/// assert_eq!(key(3, 0), Ok(SeedKey::L2));
/// # Ok::<(), gishwarem::Refusal>(())
/// ```
#[derive(Debug, Clone, Copy, PartialEq, Eq, Hash)]
pub enum SeedKey {
    /// Its L1 key.
    L1,
    /// Its L2 key.
    L2,
}

impl SeedKey {
    /// The key of a code that the library answers.
    fn from_code(code: u32) -> SeedKey {
        match code {
            codes::KEY_L1 => SeedKey::L1,
            codes::KEY_L2 => SeedKey::L2,
            _ => unreachable!("the library chooses one of the two seed keys"),
        }
    }
}

/// The key that reaches a wanted identifier, cut from the envelope that serves it.
///
/// In debug output the key is its length alone, so that none gets into a log.
///
/// ```
/// use gishwarem::{SeedKey, ServingKey, Source};
///
/// let key = ServingKey { from: Source::Cached, key: SeedKey::L2, bytes: &[0xAB; 64] };
/// assert_eq!(
///     format!("{key:?}"),
///     "ServingKey { from: Cached, key: L2, bytes: 64 bytes }"
/// );
/// ```
#[derive(Clone, Copy, PartialEq, Eq, Hash)]
pub struct ServingKey<'a> {
    /// The envelope that serves.
    pub from: Source,
    /// Which of its keys this is.
    pub key: SeedKey,
    /// The key.
    pub bytes: &'a [u8],
}

impl fmt::Debug for ServingKey<'_> {
    fn fmt(&self, f: &mut fmt::Formatter<'_>) -> fmt::Result {
        f.debug_struct("ServingKey")
            .field("from", &self.from)
            .field("key", &self.key)
            .field("bytes", &Unshown(self.bytes))
            .finish()
    }
}

/// The key that reaches an identifier under a root key: from the cached envelope if that serves,
/// else from the fetched one, else [`Refusal::NeitherServes`].
///
/// An envelope serves if it is accepted, has that root key and that L0 index, and reaches the
/// identifier.
///
/// ```
/// use gishwarem::{serving_key, Bodies, Envelope, Gkid, Head, Refusal, RootId, SeedKey, Source};
///
/// let root = RootId([7; 16]);
/// let head = Head { at: Gkid { l0: 5, l1: 3, l2: 7 }, root, ..Head::default() };
/// let empty_text = &[0, 0][..];
/// let bodies = Bodies {
///     kdf: empty_text,
///     agreement: empty_text,
///     domain: empty_text,
///     forest: empty_text,
///     l2_key: &[2; 64],
///     ..Bodies::default()
/// };
/// let mut fetched = [0; 88 + 64];
/// Envelope::write(&mut fetched, &head, &bodies)?;
///
/// // Nothing is cached. The key is the very part of the fetched envelope.
/// let wanted = Gkid { l0: 5, l1: 3, l2: 2 };
/// let key = serving_key(root, wanted, &[], &fetched)?;
/// assert_eq!((key.from, key.key), (Source::Fetched, SeedKey::L2));
/// assert_eq!(key.bytes.as_ptr_range(), fetched[88..].as_ptr_range());
///
/// // A later identifier is not reached.
/// let later = Gkid { l0: 5, l1: 3, l2: 8 };
/// assert_eq!(serving_key(root, later, &[], &fetched), Err(Refusal::NeitherServes));
/// # Ok::<(), Refusal>(())
/// ```
pub fn serving_key<'a>(
    root: RootId,
    wanted: Gkid,
    cached: &'a [u8],
    fetched: &'a [u8],
) -> Result<ServingKey<'a>, Refusal> {
    let answer = calls::choose(root.into(), wanted.into(), cached, fetched);
    accepted(answer.refusal)?;
    let from = Source::from_code(answer.which);
    let envelope = match from {
        Source::Cached => cached,
        Source::Fetched => fetched,
    };
    Ok(ServingKey {
        from,
        key: SeedKey::from_code(answer.key),
        bytes: cut(envelope, answer.place),
    })
}
