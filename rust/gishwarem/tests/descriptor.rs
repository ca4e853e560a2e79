//! The longest security descriptors, and lists of as many entries as they hold.

use gishwarem::{check_descriptor, DescriptorPart};

/// The head of a descriptor whose SACL and DACL are the same ACL, which stands straight behind it.
const HEAD: [u8; 20] = [
    1, 0, 0, 0x80, 0, 0, 0, 0, 0, 0, 0, 0, 20, 0, 0, 0, 20, 0, 0, 0,
];

/// The most entries: 20 + 8 + 4 · 16,376 is 65,532, and three bytes are left.
const MOST: u16 = 16_376;

/// A descriptor with an ACL of this size that counts so many entries, the least that there are, in 65,535 bytes.
fn longest(size: u16, count: u16) -> Vec<u8> {
    let mut bytes = HEAD.to_vec();
    bytes.extend([2, 0]);
    bytes.extend(size.to_le_bytes());
    bytes.extend(count.to_le_bytes());
    bytes.extend([0, 0]);
    for _ in 0..MOST {
        bytes.extend([0, 0, 4, 0]);
    }
    bytes.resize(65_535, 0);
    bytes
}

#[test]
fn as_many_entries_as_there_can_be() {
    let end = 8 + 4 * MOST;
    assert_eq!(check_descriptor(&longest(end, MOST)), Ok(()));
    assert_eq!(check_descriptor(&longest(end + 3, MOST)), Ok(()));
    for (size, count) in [
        (end - 1, MOST),     // the last entry ends a byte past the ACL
        (end, MOST + 1),     // one entry more than there are
        (end + 3, MOST + 1), // the three bytes left are no entry
        (end + 4, MOST),     // a byte past the descriptor
        (u16::MAX, u16::MAX),
    ] {
        assert_eq!(
            check_descriptor(&longest(size, count)),
            Err(DescriptorPart::Sacl),
            "{size}, {count}"
        );
    }
}

#[test]
fn a_byte_more_is_too_long() {
    let mut bytes = longest(8, 0);
    assert_eq!(check_descriptor(&bytes), Ok(()));
    bytes.push(0);
    assert_eq!(check_descriptor(&bytes), Err(DescriptorPart::Head));
}
