//! The SID (MS-DTYP 2.4.2; document 01, "EfsKey").

/// The length of a SID without sub-authorities.
const HEAD: usize = 8;

/// The size of the SID that stands at the start of the bytes, if one does:
/// revision 1, a count c of at most 15, and 8+4c bytes.
pub(crate) fn size(bytes: &[u8]) -> Option<usize> {
    if bytes.len() < HEAD {
        return None;
    }
    let revision = bytes[0];
    let count = bytes[1];
    let size = HEAD + 4 * usize::from(count);
    (revision == 1 && count <= 15 && size <= bytes.len()).then_some(size)
}

/// Whether the bytes are one SID.
pub(crate) fn is_sid(bytes: &[u8]) -> bool {
    size(bytes) == Some(bytes.len())
}

#[cfg(test)]
mod tests {
    use super::*;

    /// A SID of this count in so many bytes.
    fn sid(count: u8, len: usize) -> Vec<u8> {
        let mut bytes = vec![0xEE; len];
        bytes[..2].copy_from_slice(&[1, count]);
        bytes
    }

    #[test]
    fn sizes() {
        for count in 0..=15 {
            let own = 8 + 4 * usize::from(count);
            assert_eq!(size(&sid(count, own)), Some(own));
            assert_eq!(size(&sid(count, own + 1)), Some(own));
            assert_eq!(size(&sid(count, own - 1)), None);
            assert!(is_sid(&sid(count, own)));
            assert!(!is_sid(&sid(count, own + 1)));
        }
        assert_eq!(size(&sid(16, 100)), None);
        assert_eq!(size(&sid(255, 2_000)), None);
        assert_eq!(size(&[]), None);
        assert_eq!(size(&[0; 12]), None);
        assert_eq!(size(&[2, 0, 0, 0, 0, 0, 0, 0]), None);
    }
}
