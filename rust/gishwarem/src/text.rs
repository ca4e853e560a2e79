//! The texts of an envelope that was accepted, as units and as characters.

use std::fmt::{self, Write};

use crate::answer::cut;
use crate::raw;

/// A text of an accepted envelope. It is sound UTF-16, so that it has one `String`, which has all
/// of it: `to_string` cannot fail, and `encode_utf16` of it gives the units again.
///
/// Only [`Envelope::read`](crate::Envelope::read) makes one.
///
/// ```
/// use gishwarem::{Bodies, Envelope, Head, Refusal};
///
/// let empty_text = &[0, 0][..];
/// let bodies = Bodies {
///     kdf: empty_text,
///     agreement: empty_text,
///     domain: &[0x61, 0x00, 0x3D, 0xD8, 0x11, 0xDD, 0x00, 0x00], // 0061, D83D DD11, 0000
///     forest: empty_text,
///     ..Bodies::default()
/// };
/// let mut bytes = [0; 94];
/// Envelope::write(&mut bytes, &Head::default(), &bodies)?;
///
/// let domain = Envelope::read(&bytes)?.texts.domain;
/// assert_eq!(domain.to_string(), "a\u{1F511}");
/// assert!(domain.units().eq([0x0061, 0xD83D, 0xDD11]));
/// assert!(domain.units().eq(domain.to_string().encode_utf16()));
///
/// // Half of that pair is no text.
/// let half = Bodies { domain: &[0x61, 0x00, 0x3D, 0xD8, 0x00, 0x00], ..bodies };
/// let refused = Envelope::write(&mut bytes, &Head::default(), &half);
/// assert_eq!(refused, Err(Refusal::UnpairedSurrogate));
/// # Ok::<(), Refusal>(())
/// ```
#[derive(Clone, Copy, PartialEq, Eq, Hash)]
pub struct Text<'a> {
    /// The units before the terminator.
    bytes: &'a [u8],
}

impl<'a> Text<'a> {
    /// The 16-bit units before the terminator; none of them is zero.
    ///
    /// ```
    /// # let mut bytes = [0; 90];
    /// # bytes[4..8].copy_from_slice(b"KDSK");
    /// # for at in [40, 48, 72, 76] {
    /// #     bytes[at] = 2;
    /// # }
    /// # bytes[72] = 4;
    /// # bytes[84] = b'd';
    /// let envelope = gishwarem::Envelope::read(&bytes)?;
    /// assert!(envelope.texts.domain.units().eq([0x0064]));
    /// assert_eq!(envelope.bodies.domain, [0x64, 0x00, 0x00, 0x00]); // its bytes, with the terminator
    /// # Ok::<(), gishwarem::Refusal>(())
    /// ```
    pub fn units(self) -> impl Iterator<Item = u16> + 'a {
        self.bytes
            .chunks_exact(2)
            .map(|unit| u16::from_le_bytes([unit[0], unit[1]]))
    }

    fn chars(self) -> impl Iterator<Item = char> + 'a {
        char::decode_utf16(self.units())
            .map(|char| char.expect("the library accepts no unpaired surrogate"))
    }
}

impl fmt::Display for Text<'_> {
    fn fmt(&self, f: &mut fmt::Formatter<'_>) -> fmt::Result {
        self.chars().try_for_each(|char| f.write_char(char))
    }
}

impl fmt::Debug for Text<'_> {
    fn fmt(&self, f: &mut fmt::Formatter<'_>) -> fmt::Result {
        f.write_char('"')?;
        self.chars()
            .flat_map(char::escape_debug)
            .try_for_each(|char| f.write_char(char))?;
        f.write_char('"')
    }
}

/// The four texts of an accepted envelope, in body order.
///
/// ```
/// # let mut bytes = [0; 88];
/// # bytes[4..8].copy_from_slice(b"KDSK");
/// # for at in [40, 48, 72, 76] {
/// #     bytes[at] = 2;
/// # }
/// let envelope = gishwarem::Envelope::read(&bytes)?;
/// assert_eq!(envelope.texts.forest.to_string(), "");
/// # Ok::<(), gishwarem::Refusal>(())
/// ```
#[derive(Debug, Clone, Copy, PartialEq, Eq, Hash)]
pub struct Texts<'a> {
    /// KDF algorithm.
    pub kdf: Text<'a>,
    /// Secret agreement algorithm.
    pub agreement: Text<'a>,
    /// Domain name.
    pub domain: Text<'a>,
    /// Forest name.
    pub forest: Text<'a>,
}

impl<'a> Texts<'a> {
    /// The texts at the places that the library shows of an envelope that it accepts.
    pub(crate) fn cut_from(envelope: &'a [u8], places: &raw::Bodies) -> Texts<'a> {
        let text = |place| match cut(envelope, place) {
            [bytes @ .., 0, 0] => Text { bytes },
            _ => unreachable!("the library accepts no text without a terminator"),
        };
        Texts {
            kdf: text(places.kdf),
            agreement: text(places.agreement),
            domain: text(places.domain),
            forest: text(places.forest),
        }
    }
}
