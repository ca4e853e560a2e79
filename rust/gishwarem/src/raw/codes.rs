//! The codes of the C face, as its header lists them.

/// Flags 0.
pub const ALGORITHM_RSA: u32 = 1;
/// Flags 1.
pub const ALGORITHM_AES256: u32 = 2;
/// Any other Flags.
pub const ALGORITHM_UNSUPPORTED: u32 = 3;

/// A step of a walk finds an entry.
pub const STEP_ENTRY: u32 = 1;
/// A step of a walk finds the end of the list.
pub const STEP_END: u32 = 2;

/// An EfsKey without a SID.
pub const SID_NONE: u32 = 0;
/// An EfsKey with a SID.
pub const SID_GIVEN: u32 = 1;
/// An EfsKey with zeros in the SID's place: no hint given.
pub const SID_NO_HINT: u32 = 2;

/// No key.
pub const FORM_KEYLESS: u32 = 0;
/// An L1 seed key.
pub const FORM_L1ONLY: u32 = 1;
/// An L2 seed key.
pub const FORM_L2ONLY: u32 = 2;
/// An L1 and an L2 seed key.
pub const FORM_BOTH: u32 = 3;
/// A public key.
pub const FORM_PUBLIC: u32 = 4;

/// No rights.
pub const RIGHTS_NONE: u32 = 0;
/// Rights to public keys.
pub const RIGHTS_PUBLIC: u32 = 1;
/// Rights to seed keys.
pub const RIGHTS_SEED: u32 = 2;

/// The verdict no.
pub const ACCESS_DENIED: u32 = 0;
/// The verdict yes.
pub const ACCESS_ALLOWED: u32 = 1;

/// A sound descriptor.
pub const DESCRIPTOR_SOUND: u32 = 0;
/// The head of a descriptor fails.
pub const DESCRIPTOR_HEAD: u32 = 1;
/// The owner of a descriptor fails.
pub const DESCRIPTOR_OWNER: u32 = 2;
/// The group of a descriptor fails.
pub const DESCRIPTOR_GROUP: u32 = 3;
/// The system list of a descriptor fails.
pub const DESCRIPTOR_SACL: u32 = 4;
/// The discretionary list of a descriptor fails.
pub const DESCRIPTOR_DACL: u32 = 5;

/// No root key is named.
pub const ROOT_NONE: u32 = 0;
/// A root key is named.
pub const ROOT_GIVEN: u32 = 1;

/// A key under a row of the root table.
pub const GRANTED_ROW: u32 = 1;
/// A key under a root key that is yet to be created.
pub const GRANTED_CREATE: u32 = 2;

/// A tally without clocks.
pub const CLOCKS_NONE: u32 = 0;
/// A tally with clocks.
pub const CLOCKS_GIVEN: u32 = 1;

/// The trace goes on behind the chunk.
pub const CHUNK_GOES_ON: u32 = 0;
/// The trace ends with the chunk.
pub const CHUNK_ENDS: u32 = 1;

/// A replay stopped: the chunk has no further record.
pub const REPLAY_RECORDS: u32 = 1;
/// A replay stopped: too little room for a line.
pub const REPLAY_ROOM: u32 = 2;
/// A replay stopped: a count would not fit in 64 bits.
pub const REPLAY_FULL: u32 = 3;

/// The cached envelope serves.
pub const CACHED: u32 = 1;
/// The fetched envelope serves.
pub const FETCHED: u32 = 2;
/// It serves by its L1 key.
pub const KEY_L1: u32 = 1;
/// It serves by its L2 key.
pub const KEY_L2: u32 = 2;
