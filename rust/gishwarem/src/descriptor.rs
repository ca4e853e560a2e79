//! The security descriptor of a request for a group key (MS-DTYP 2.4.6).

use crate::calls;
use crate::raw::codes;

/// A part of a security descriptor.
#[derive(Debug, Clone, Copy, PartialEq, Eq, Hash)]
pub enum DescriptorPart {
    /// The head of 20 bytes: revision and control; or the length of the whole.
    Head,
    /// The owner, a SID.
    Owner,
    /// The group, a SID.
    Group,
    /// The system list, an ACL.
    Sacl,
    /// The discretionary list, an ACL.
    Dacl,
}

/// Whether bytes are a sound self-relative security descriptor, or which part fails first, for a
/// log. [`decide`](crate::decide) asks the same.
///
/// ```
/// use gishwarem::{check_descriptor, DescriptorPart};
///
/// // An owner behind the head, and nothing else.
/// let mut descriptor = [0; 32];
/// descriptor[0] = 1; // revision
/// descriptor[3] = 0x80; // control: self-relative
/// descriptor[4] = 20; // offset of the owner
/// descriptor[20..].copy_from_slice(&[1, 1, 0, 0, 0, 0, 0, 5, 18, 0, 0, 0]);
/// assert_eq!(check_descriptor(&descriptor), Ok(()));
///
/// assert_eq!(check_descriptor(&descriptor[..31]), Err(DescriptorPart::Owner));
/// assert_eq!(check_descriptor(&descriptor[..19]), Err(DescriptorPart::Head));
/// ```
pub fn check_descriptor(descriptor: &[u8]) -> Result<(), DescriptorPart> {
    match calls::descriptor_check(descriptor) {
        codes::DESCRIPTOR_SOUND => Ok(()),
        codes::DESCRIPTOR_HEAD => Err(DescriptorPart::Head),
        codes::DESCRIPTOR_OWNER => Err(DescriptorPart::Owner),
        codes::DESCRIPTOR_GROUP => Err(DescriptorPart::Group),
        codes::DESCRIPTOR_SACL => Err(DescriptorPart::Sacl),
        codes::DESCRIPTOR_DACL => Err(DescriptorPart::Dacl),
        _ => unreachable!("the library answers a listed part"),
    }
}
