//! The Group Key Envelope (MS-GKDI 2.2.4), read and written.

use std::fmt;

use crate::answer::{accepted, cut, written};
use crate::secret::Unshown;
use crate::{calls, raw, Form, Gkid, Refusal, RootId, Texts};

/// The values of an envelope's head, as a reader shows them and a writer takes them.
///
/// ```
/// use gishwarem::{Bodies, Envelope, Gkid, Head, RootId};
///
/// let head = Head {
///     version: 1,
///     flags: 0,
///     at: Gkid { l0: 5, l1: 3, l2: 7 },
///     root: RootId([7; 16]),
///     private_length: 512,
///     public_length: 2048,
/// };
/// let empty_text = &[0, 0][..];
/// let bodies = Bodies {
///     kdf: empty_text,
///     agreement: empty_text,
///     domain: empty_text,
///     forest: empty_text,
///     ..Bodies::default()
/// };
/// let mut out = [0; 88];
/// Envelope::write(&mut out, &head, &bodies)?;
/// assert_eq!(out[..4], [1, 0, 0, 0]); // version
/// assert_eq!(out[12..24], [5, 0, 0, 0, 3, 0, 0, 0, 7, 0, 0, 0]); // L0, L1, L2
/// assert_eq!(out[24..40], [7; 16]); // root key identifier
/// assert_eq!(out[56..64], [0, 2, 0, 0, 0, 8, 0, 0]); // private and public key length
/// assert_eq!(Envelope::read(&out)?.head, head);
/// # Ok::<(), gishwarem::Refusal>(())
/// ```
#[derive(Debug, Clone, Copy, PartialEq, Eq, Hash, Default)]
pub struct Head {
    /// Version, which may be anything.
    pub version: u32,
    /// dwFlags: the bit with the value 1 is public, the others may be anything.
    pub flags: u32,
    /// The identifier of its keys.
    pub at: Gkid,
    /// The root key identifier.
    pub root: RootId,
    /// Private key length, which has no body.
    pub private_length: u32,
    /// Public key length, which has no body.
    pub public_length: u32,
}

impl From<raw::Head> for Head {
    fn from(head: raw::Head) -> Head {
        Head {
            version: head.version,
            flags: head.flags,
            at: head.at.into(),
            root: head.root.into(),
            private_length: head.private_length,
            public_length: head.public_length,
        }
    }
}

impl From<Head> for raw::Head {
    fn from(head: Head) -> raw::Head {
        raw::Head {
            version: head.version,
            flags: head.flags,
            at: head.at.into(),
            root: head.root.into(),
            private_length: head.private_length,
            public_length: head.public_length,
        }
    }
}

/// An envelope's eight bodies in their order, as a reader shows them and a writer takes them. A
/// key that is absent is empty.
///
/// In debug output a key is its length alone, so that none gets into a log.
///
/// ```
/// use gishwarem::Bodies;
///
/// let bodies = Bodies { l2_key: &[0xAB; 64], ..Bodies::default() };
/// assert!(bodies.l1_key.is_empty());
/// assert!(format!("{bodies:?}").ends_with("l1_key: 0 bytes, l2_key: 64 bytes }"));
/// ```
#[derive(Clone, Copy, PartialEq, Eq, Hash, Default)]
pub struct Bodies<'a> {
    /// KDF algorithm, a text.
    pub kdf: &'a [u8],
    /// KDF parameters.
    pub kdf_parameters: &'a [u8],
    /// Secret agreement algorithm, a text.
    pub agreement: &'a [u8],
    /// Secret agreement parameters.
    pub agreement_parameters: &'a [u8],
    /// Domain name, a text.
    pub domain: &'a [u8],
    /// Forest name, a text.
    pub forest: &'a [u8],
    /// L1 key.
    pub l1_key: &'a [u8],
    /// L2 key; the public key of a public envelope.
    pub l2_key: &'a [u8],
}

impl<'a> Bodies<'a> {
    /// The bodies at the places that the library shows.
    fn cut_from(envelope: &'a [u8], places: &raw::Bodies) -> Bodies<'a> {
        Bodies {
            kdf: cut(envelope, places.kdf),
            kdf_parameters: cut(envelope, places.kdf_parameters),
            agreement: cut(envelope, places.agreement),
            agreement_parameters: cut(envelope, places.agreement_parameters),
            domain: cut(envelope, places.domain),
            forest: cut(envelope, places.forest),
            l1_key: cut(envelope, places.l1_key),
            l2_key: cut(envelope, places.l2_key),
        }
    }
}

impl fmt::Debug for Bodies<'_> {
    fn fmt(&self, f: &mut fmt::Formatter<'_>) -> fmt::Result {
        f.debug_struct("Bodies")
            .field("kdf", &self.kdf)
            .field("kdf_parameters", &self.kdf_parameters)
            .field("agreement", &self.agreement)
            .field("agreement_parameters", &self.agreement_parameters)
            .field("domain", &self.domain)
            .field("forest", &self.forest)
            .field("l1_key", &Unshown(self.l1_key))
            .field("l2_key", &Unshown(self.l2_key))
            .finish()
    }
}

/// A Group Key Envelope that was accepted, its bodies cut from the caller's bytes.
///
/// ```
/// use gishwarem::{Bodies, Envelope, Form, Gkid, Head};
///
/// // A seed envelope at (5, 3, 7) with both of its keys.
/// let head = Head { at: Gkid { l0: 5, l1: 3, l2: 7 }, ..Head::default() };
/// let empty_text = &[0, 0][..];
/// let bodies = Bodies {
///     kdf: empty_text,
///     agreement: empty_text,
///     domain: empty_text,
///     forest: empty_text,
///     l1_key: &[1; 64],
///     l2_key: &[2; 64],
///     ..Bodies::default()
/// };
/// let mut bytes = [0; 88 + 64 + 64];
/// Envelope::write(&mut bytes, &head, &bodies)?;
///
/// let envelope = Envelope::read(&bytes)?;
/// assert_eq!(envelope.form, Form::Both);
/// assert!(!envelope.is_public);
/// assert_eq!(envelope.bodies.l2_key, &bytes[88 + 64..]);
///
/// // Writing what was read gives the same bytes.
/// let mut again = [0; 88 + 64 + 64];
/// Envelope::write(&mut again, &envelope.head, &envelope.bodies)?;
/// assert_eq!(again, bytes);
/// # Ok::<(), gishwarem::Refusal>(())
/// ```
#[derive(Debug, Clone, Copy, PartialEq, Eq, Hash)]
pub struct Envelope<'a> {
    /// The head's values.
    pub head: Head,
    /// The bodies.
    pub bodies: Bodies<'a>,
    /// Those of them that are texts, as units and as characters.
    pub texts: Texts<'a>,
    /// The form, by the keys present.
    pub form: Form,
    /// Whether the envelope is public, with a key or without.
    pub is_public: bool,
}

impl<'a> Envelope<'a> {
    /// Reads an envelope, which the bytes have to be from the first to the last.
    ///
    /// ```
    /// use gishwarem::{Envelope, Form, Gkid, Refusal};
    ///
    /// // At (0, 0, 0), with four texts of 2 bytes and no key: 88 bytes.
    /// let mut bytes = [0; 88];
    /// bytes[4..8].copy_from_slice(b"KDSK"); // mark
    /// bytes[40] = 2; // KDF algorithm length
    /// bytes[48] = 2; // agreement algorithm length
    /// bytes[72] = 2; // domain length
    /// bytes[76] = 2; // forest length
    /// let envelope = Envelope::read(&bytes)?;
    /// assert_eq!(envelope.head.at, Gkid { l0: 0, l1: 0, l2: 0 });
    /// assert_eq!(envelope.form, Form::Keyless);
    /// assert_eq!(envelope.bodies.forest, [0, 0]);
    /// assert!(envelope.bodies.l1_key.is_empty());
    ///
    /// assert_eq!(Envelope::read(&bytes[..79]), Err(Refusal::Short));
    /// assert_eq!(Envelope::read(&bytes[..80]), Err(Refusal::LengthsDisagree));
    /// # Ok::<(), Refusal>(())
    /// ```
    pub fn read(bytes: &'a [u8]) -> Result<Envelope<'a>, Refusal> {
        let answer = calls::envelope_read(bytes);
        accepted(answer.refusal)?;
        Ok(Envelope {
            head: answer.head.into(),
            bodies: Bodies::cut_from(bytes, &answer.bodies),
            texts: Texts::cut_from(bytes, &answer.bodies),
            form: Form::from_code(answer.form),
            is_public: answer.is_public == 1,
        })
    }

    /// Writes an envelope at the start of `out` and answers its length. The lengths in its head
    /// are those of the bodies. The bytes behind it stay; a refusal changes no byte.
    ///
    /// ```
    /// use gishwarem::{Bodies, Envelope, Form, Gkid, Head, Refusal};
    ///
    /// let empty_text = &[0, 0][..];
    /// let bodies = Bodies {
    ///     kdf: empty_text,
    ///     agreement: empty_text,
    ///     domain: empty_text,
    ///     forest: empty_text,
    ///     ..Bodies::default()
    /// };
    /// let mut out = [0xFF; 89];
    /// assert_eq!(Envelope::write(&mut out, &Head::default(), &bodies), Ok(88));
    /// assert_eq!(&out[4..8], b"KDSK"); // mark
    /// assert_eq!(out[40..44], [2, 0, 0, 0]); // KDF algorithm length
    /// assert_eq!(out[80..], [0, 0, 0, 0, 0, 0, 0, 0, 0xFF]);
    ///
    /// let refused = Envelope::write(&mut out[..87], &Head::default(), &bodies);
    /// assert_eq!(refused, Err(Refusal::NoRoom));
    ///
    /// // At L2 index 31 a seed envelope has no L2 key; a public one may carry its key, of the
    /// // public key length.
    /// let head = Head { at: Gkid { l0: 4, l1: 31, l2: 31 }, public_length: 1, ..Head::default() };
    /// let bodies = Bodies { l2_key: &[2], ..bodies };
    /// assert_eq!(Envelope::write(&mut out, &head, &bodies), Err(Refusal::KeyLength));
    /// let public = Head { flags: 1, ..head };
    /// assert_eq!(Envelope::write(&mut out, &public, &bodies), Ok(89));
    /// assert_eq!(Envelope::read(&out)?.form, Form::Public);
    /// # Ok::<(), Refusal>(())
    /// ```
    pub fn write(out: &mut [u8], head: &Head, bodies: &Bodies<'_>) -> Result<usize, Refusal> {
        written(calls::envelope_write(out, (*head).into(), bodies))
    }
}
