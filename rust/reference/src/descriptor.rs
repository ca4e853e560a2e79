//! The self-relative security descriptor (MS-DTYP 2.4.6), its lists (ACL,
//! 2.4.5) and their entries (ACE header, 2.4.4.1), as document 02's No. 5 judges
//! them.

use crate::{sid, u16_at, u32_at, MAX_LENGTH};

/// The length of the head.
const HEAD: usize = 20;

/// The control bit that says self-relative.
const SELF_RELATIVE: u16 = 0x8000;

/// The length of an ACL's head.
const ACL_HEAD: usize = 8;

/// The length of an entry's head.
const ENTRY_HEAD: usize = 4;

/// A part of a descriptor.
#[derive(Debug, Clone, Copy, PartialEq, Eq)]
pub enum Part {
    /// The head, with the length of the whole.
    Head,
    /// The owner's SID.
    Owner,
    /// The group's SID.
    Group,
    /// The system list.
    Sacl,
    /// The discretionary list.
    Dacl,
}

/// Whether the bytes are a sound descriptor, or the part that fails first.
pub fn check(bytes: &[u8]) -> Result<(), Part> {
    if bytes.len() > MAX_LENGTH || bytes.len() < HEAD {
        return Err(Part::Head);
    }
    let revision = bytes[0];
    if revision != 1 || u16_at(bytes, 2) & SELF_RELATIVE == 0 {
        return Err(Part::Head);
    }
    if !names(bytes, u32_at(bytes, 4), |sid| sid::size(sid).is_some()) {
        return Err(Part::Owner);
    }
    if !names(bytes, u32_at(bytes, 8), |sid| sid::size(sid).is_some()) {
        return Err(Part::Group);
    }
    if !names(bytes, u32_at(bytes, 12), starts_with_acl) {
        return Err(Part::Sacl);
    }
    if !names(bytes, u32_at(bytes, 16), starts_with_acl) {
        return Err(Part::Dacl);
    }
    Ok(())
}

/// Whether an offset is 0, or lies behind the head and what it names is there:
/// the bytes from it on are shown.
fn names(bytes: &[u8], offset: u32, is_there: impl Fn(&[u8]) -> bool) -> bool {
    let offset = offset as usize;
    offset == 0 || (offset >= HEAD && bytes.get(offset..).is_some_and(is_there))
}

/// Whether an ACL stands at the start of the bytes: as many entries as it counts,
/// end to end behind its head and inside its own size.
fn starts_with_acl(bytes: &[u8]) -> bool {
    let Some(acl) = sized(bytes, ACL_HEAD) else {
        return false;
    };
    let mut rest = &acl[ACL_HEAD..];
    for _ in 0..u16_at(acl, 4) {
        match sized(rest, ENTRY_HEAD) {
            Some(entry) => rest = &rest[entry.len()..],
            None => return false,
        }
    }
    true
}

/// What stands at the start of the bytes and tells its own size, 16 bits at its
/// byte 2: at least that of its head, and no more than there is.
fn sized(bytes: &[u8], head: usize) -> Option<&[u8]> {
    if bytes.len() < head {
        return None;
    }
    let size = usize::from(u16_at(bytes, 2));
    if size < head {
        return None;
    }
    bytes.get(..size)
}

#[cfg(test)]
mod tests {
    use super::*;

    /// The least descriptor: no item.
    const LEAST: [u8; 20] = {
        let mut head = [0; 20];
        head[0] = 1;
        head[3] = 0x80;
        head
    };

    /// Where the four offsets stand, with what fails there.
    const OFFSETS: [(usize, Part); 4] = [
        (4, Part::Owner),
        (8, Part::Group),
        (12, Part::Sacl),
        (16, Part::Dacl),
    ];

    fn with_item(at: usize, item: &[u8]) -> Vec<u8> {
        let mut bytes = LEAST.to_vec();
        bytes[at] = 20;
        bytes.extend_from_slice(item);
        bytes
    }

    /// An ACL of this size and count, with entries of these sizes and then bytes
    /// up to its size.
    fn acl(size: u16, count: u16, entries: &[u16]) -> Vec<u8> {
        let mut acl = vec![2, 0];
        acl.extend(size.to_le_bytes());
        acl.extend(count.to_le_bytes());
        acl.extend([0, 0]);
        for &entry in entries {
            acl.extend([0, 0]);
            acl.extend(entry.to_le_bytes());
            acl.resize(acl.len() + usize::from(entry).saturating_sub(4), 0xEE);
        }
        acl.resize(acl.len().max(usize::from(size)), 0xEE);
        acl
    }

    #[test]
    fn heads() {
        assert_eq!(check(&LEAST), Ok(()));
        for len in 0..20 {
            assert_eq!(check(&LEAST[..len]), Err(Part::Head));
        }
        let mut long = LEAST.to_vec();
        long.resize(65_535, 0xEE);
        assert_eq!(check(&long), Ok(()));
        long.push(0);
        assert_eq!(check(&long), Err(Part::Head));
        for (at, byte) in [(0, 0), (0, 2), (3, 0), (3, 0x7F), (3, 0x40)] {
            let mut bytes = LEAST;
            bytes[at] = byte;
            assert_eq!(check(&bytes), Err(Part::Head));
        }
        // Nothing else of the head is judged.
        let mut bytes = LEAST;
        bytes[1] = 0xFF;
        bytes[2] = 0xFF;
        bytes[3] = 0xFF;
        assert_eq!(check(&bytes), Ok(()));
    }

    #[test]
    fn sids() {
        for (at, part) in &OFFSETS[..2] {
            let sid = [1, 1, 0, 0, 0, 0, 0, 5, 18, 0, 0, 0];
            assert_eq!(check(&with_item(*at, &sid)), Ok(()));
            assert_eq!(check(&with_item(*at, &[&sid[..], &[9]].concat())), Ok(()));
            assert_eq!(check(&with_item(*at, &sid[..11])), Err(*part));
            // No hint is no SID here.
            assert_eq!(check(&with_item(*at, &[0; 12])), Err(*part));
        }
    }

    #[test]
    fn lists() {
        for (at, part) in &OFFSETS[2..] {
            let fits = |item: &[u8]| {
                let found = check(&with_item(*at, item));
                assert!(found == Ok(()) || found == Err(*part));
                found.is_ok()
            };
            assert!(fits(&acl(8, 0, &[])));
            assert!(fits(&acl(12, 1, &[4])));
            assert!(fits(&acl(17, 2, &[4, 5])));
            assert!(fits(&acl(20, 1, &[4])));
            assert!(!fits(&acl(7, 0, &[])));
            assert!(!fits(&acl(0, 0, &[])));
            assert!(!fits(&acl(8, 1, &[])));
            assert!(!fits(&acl(11, 1, &[4])));
            assert!(!fits(&acl(16, 2, &[4, 5])));
            assert!(!fits(&acl(16, 2, &[4, 3])));
            assert!(!fits(&acl(16, 2, &[4, 0])));
            assert!(!fits(&acl(16, 3, &[4, 4])));
            assert!(!fits(&acl(16, 2, &[4, 4])[..15]));
        }
    }

    #[test]
    fn offsets() {
        for (at, part) in OFFSETS {
            for offset in [1, 19, 20, 21, 65_535, 0x8000_0000, 0xFFFF_FFFF_u32] {
                let mut bytes = LEAST;
                bytes[at..at + 4].copy_from_slice(&offset.to_le_bytes());
                assert_eq!(check(&bytes), Err(part), "{offset}");
            }
        }
    }
}
