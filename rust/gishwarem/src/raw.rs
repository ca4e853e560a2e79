//! The C face as `include/gishwarem.h` declares it: structs by value, the refusal's number first, zeros beside a refusal (but
//! for the index of a list's entry, the place that a step was asked at, and what stands beside the answer of a replayed record).
//! The check of a descriptor answers a code alone, and the replay of a chunk and the merging of tallies have one first; that is
//! no refusal's number.
//!
//! Nothing checks these declarations against the library but the tests; the sizes are those that the header asserts.
//!
//! # Safety
//!
//! A pointer and its length name bytes that may be read for the length of the call (written, for `out`), and `out` shares no
//! byte with what is handed in beside it. `sizes` and `blocks` name numbers, and that pointer is aligned for `u32`. A length of 0
//! goes with any pointer, a null one too.

pub mod codes;

/// The version of the header that these declarations follow.
pub const VERSION: u32 = 5;

/// The length of a record of a trace.
pub const TRACE_RECORD: usize = 37;

/// The room that a line of a replay needs; no line is longer.
pub const REPLAY_LINE: usize = 128;

/// A part of the caller's bytes. Both are 0 beside a refusal, at the end of a list, and with `SID_NONE`; an absent body of an
/// envelope, and the sizes of no block, have length 0 at their place in the layout.
#[repr(C)]
#[derive(Debug, Clone, Copy, PartialEq, Eq, Default)]
pub struct Part {
    /// Offset of its first byte.
    pub at: usize,
    /// Its length.
    pub len: usize,
}

/// A group key identifier.
#[repr(C)]
#[derive(Debug, Clone, Copy, PartialEq, Eq, Default)]
pub struct Identifier {
    /// L0 index.
    pub l0: u32,
    /// L1 index; in an answer 0 to 31.
    pub l1: u32,
    /// L2 index; in an answer 0 to 31.
    pub l2: u32,
}

/// A root key identifier.
#[repr(C)]
#[derive(Debug, Clone, Copy, PartialEq, Eq, Default)]
pub struct Root {
    /// As they stand in an envelope and in a row of the root table.
    pub bytes: [u8; 16],
}

/// What a writer answers.
#[repr(C)]
#[derive(Debug, Clone, Copy, PartialEq, Eq, Default)]
pub struct WrittenAnswer {
    /// Refusal number.
    pub refusal: u32,
    /// 0.
    pub reserved: u32,
    /// Length of the record that was written.
    pub len: usize,
}

/// A Key List Entry.
#[repr(C)]
#[derive(Debug, Clone, Copy, PartialEq, Eq, Default)]
pub struct EntryAnswer {
    /// Refusal number.
    pub refusal: u32,
    /// 1 RSA, 2 AES-256, 3 unsupported.
    pub algorithm: u32,
    /// Flags, as they stand.
    pub flags: u32,
    /// 0.
    pub reserved: u32,
    /// The public key item.
    pub item: Part,
    /// The FEK.
    pub fek: Part,
}

/// A list of entries, judged whole.
#[repr(C)]
#[derive(Debug, Clone, Copy, PartialEq, Eq, Default)]
pub struct ListAnswer {
    /// Refusal number.
    pub refusal: u32,
    /// Number of entries.
    pub count: u32,
    /// On a refusal that is given for an entry, that entry's index.
    pub index: u32,
}

/// A step of a list's walk.
#[repr(C)]
#[derive(Debug, Clone, Copy, PartialEq, Eq, Default)]
pub struct StepAnswer {
    /// Refusal number.
    pub refusal: u32,
    /// 1 an entry, 2 the end.
    pub found: u32,
    /// The entry's index, also on a refusal that is given for it.
    pub index: u32,
    /// 1 RSA, 2 AES-256, 3 unsupported.
    pub algorithm: u32,
    /// Flags, as they stand.
    pub flags: u32,
    /// Index to go on at; at the end and on a refusal the one asked at.
    pub next_index: u32,
    /// Offset to go on at; at the end and on a refusal the one asked at.
    pub next_at: usize,
    /// Offset of the entry in the list.
    pub at: usize,
    /// The public key item, counted from the entry's first byte.
    pub item: Part,
    /// The FEK, counted from the entry's first byte.
    pub fek: Part,
}

/// An EfsKey.
#[repr(C)]
#[derive(Debug, Clone, Copy, PartialEq, Eq, Default)]
pub struct EfsKeyAnswer {
    /// Refusal number.
    pub refusal: u32,
    /// 0 no SID, 1 a SID, 2 zeros in its place: no hint given.
    pub kind: u32,
    /// The SID, or the zeros in its place.
    pub sid: Part,
    /// The certificate.
    pub certificate: Part,
}

/// A Data Segment Encryption Header.
#[repr(C)]
#[derive(Debug, Clone, Copy, PartialEq, Eq, Default)]
pub struct SegmentAnswer {
    /// Refusal number.
    pub refusal: u32,
    /// Length: that of the whole record.
    pub length: u32,
    /// Starting file offset.
    pub start_offset: u64,
    /// Bytes within the stream size.
    pub bytes_in_stream: u32,
    /// Bytes within the valid data length.
    pub bytes_in_vdl: u32,
    /// Data unit shift, 0 to 31.
    pub unit_shift: u32,
    /// Chunk shift: the data unit shift again.
    pub chunk_shift: u32,
    /// Cluster shift, 0 to 31.
    pub cluster_shift: u32,
    /// Number of data blocks.
    pub blocks: u32,
    /// How many of them are larger than the data unit, 2 to the unit shift.
    pub larger: u32,
    /// 0.
    pub reserved: u32,
    /// The block sizes, four bytes each; what follows them is ignored.
    pub sizes: Part,
}

/// The size of a data block, or none.
#[repr(C)]
#[derive(Debug, Clone, Copy, PartialEq, Eq, Default)]
pub struct SizeAnswer {
    /// Refusal number.
    pub refusal: u32,
    /// 1 where there is such a block.
    pub found: u32,
    /// Its size in bytes.
    pub size: u32,
}

/// The head of a Group Key Envelope.
#[repr(C)]
#[derive(Debug, Clone, Copy, PartialEq, Eq, Default)]
pub struct Head {
    /// Version.
    pub version: u32,
    /// dwFlags.
    pub flags: u32,
    /// The identifier of its keys.
    pub at: Identifier,
    /// The root key identifier.
    pub root: Root,
    /// Private key length.
    pub private_length: u32,
    /// Public key length.
    pub public_length: u32,
}

/// The bodies of a Group Key Envelope, in their order.
#[repr(C)]
#[derive(Debug, Clone, Copy, PartialEq, Eq, Default)]
pub struct Bodies {
    /// KDF algorithm.
    pub kdf: Part,
    /// KDF parameters.
    pub kdf_parameters: Part,
    /// Secret agreement algorithm.
    pub agreement: Part,
    /// Secret agreement parameters.
    pub agreement_parameters: Part,
    /// Domain name.
    pub domain: Part,
    /// Forest name.
    pub forest: Part,
    /// L1 key.
    pub l1_key: Part,
    /// L2 key.
    pub l2_key: Part,
}

/// A Group Key Envelope.
#[repr(C)]
#[derive(Debug, Clone, Copy, PartialEq, Eq, Default)]
pub struct EnvelopeAnswer {
    /// Refusal number.
    pub refusal: u32,
    /// 0 NOKEY, 1 L1ONLY, 2 L2ONLY, 3 BOTH, 4 PUBLIC, by the keys present.
    pub form: u32,
    /// 1 for a public envelope.
    pub is_public: u32,
    /// The head's values.
    pub head: Head,
    /// Where the bodies stand.
    pub bodies: Bodies,
}

/// A reach: which identifiers of an L0 group keys open.
#[repr(C)]
#[derive(Debug, Clone, Copy, PartialEq, Eq, Default)]
pub struct ReachAnswer {
    /// Refusal number.
    pub refusal: u32,
    /// Number of set bits in the rows.
    pub total: u32,
    /// A row for each L1 index; L2 index 0 is the most significant bit.
    pub rows: [u32; 32],
}

/// An identifier, or none.
#[repr(C)]
#[derive(Debug, Clone, Copy, PartialEq, Eq, Default)]
pub struct IdentifierAnswer {
    /// Refusal number.
    pub refusal: u32,
    /// 1 where there is one.
    pub found: u32,
    /// That one.
    pub at: Identifier,
}

/// The start of an identifier.
#[repr(C)]
#[derive(Debug, Clone, Copy, PartialEq, Eq, Default)]
pub struct StartAnswer {
    /// Refusal number.
    pub refusal: u32,
    /// 0.
    pub reserved: u32,
    /// FILETIME at which it starts.
    pub time: u64,
}

/// A request for a group key.
#[repr(C)]
#[derive(Debug, Clone, Copy, PartialEq, Eq, Default)]
pub struct Request {
    /// 0 where no root key is given; every other value gives the one in `root`.
    pub root_given: u32,
    /// L0 index, or -1 in all three for the latest.
    pub l0: i32,
    /// L1 index.
    pub l1: i32,
    /// L2 index.
    pub l2: i32,
    /// The root key, where one is given.
    pub root: Root,
}

/// A decision on a request.
#[repr(C)]
#[derive(Debug, Clone, Copy, PartialEq, Eq, Default)]
pub struct DecisionAnswer {
    /// Refusal number.
    pub refusal: u32,
    /// 1 with a root row, 2 for a root key to create.
    pub granted: u32,
    /// 0 NOKEY, 1 L1ONLY, 2 L2ONLY, 3 BOTH, 4 PUBLIC.
    pub form: u32,
    /// The identifier granted.
    pub at: Identifier,
    /// Row of the root table, counted from 0; 0 beside a root key to create.
    pub row: usize,
}

/// A recorded request.
#[repr(C)]
#[derive(Debug, Clone, Copy, PartialEq, Eq, Default)]
pub struct TraceAnswer {
    /// Refusal number.
    pub refusal: u32,
    /// 0 no, 1 yes.
    pub verdict: u32,
    /// 0 none, 1 public, 2 seed.
    pub rights: u32,
    /// 0.
    pub reserved: u32,
    /// The clock, a FILETIME.
    pub clock: u64,
    /// What was asked.
    pub request: Request,
}

/// The counts of a replay, and two of its clocks. Clocks are those of the records that are not refused 26.
#[repr(C)]
#[derive(Debug, Clone, Copy, PartialEq, Eq, Default)]
pub struct Tally {
    /// Records accepted.
    pub accepted: u64,
    /// Records refused, 26 included.
    pub refused: u64,
    /// Times a clock was earlier than the one before it.
    pub earlier: u64,
    /// The first clock; 0 where there is none.
    pub first: u64,
    /// The last clock; 0 where there is none.
    pub last: u64,
    /// 1 where there are clocks. Handed in, `first` and `last` are looked at beside 1 alone.
    pub clocks: u32,
    /// 0. Handed in, it is not looked at.
    pub reserved: u32,
}

/// Where a replay stands. One that starts inside of a trace has the number of its first record in `next`.
#[repr(C)]
#[derive(Debug, Clone, Copy, PartialEq, Eq, Default)]
pub struct ReplayState {
    /// Number of the next line.
    pub next: u64,
    /// The tally of the records so far.
    pub tally: Tally,
}

/// A replayed record. Where a count would not fit in 64 bits, the number and all of the answer are 0, and the state is the one
/// handed in.
#[repr(C)]
#[derive(Debug, Clone, Copy, PartialEq, Eq, Default)]
pub struct ReplayLine {
    /// The decision, or 26.
    pub answer: DecisionAnswer,
    /// Number of its line.
    pub number: u64,
    /// The state behind it.
    pub state: ReplayState,
}

/// A replayed chunk.
#[repr(C)]
#[derive(Debug, Clone, Copy, PartialEq, Eq, Default)]
pub struct ReplayAnswer {
    /// 1 the chunk has no further record, 2 too little room for a line, 3 a count would not fit in 64 bits.
    pub stopped: u32,
    /// 0.
    pub reserved: u32,
    /// Bytes of the chunk whose records are replayed.
    pub used: usize,
    /// Bytes of the output that their lines have.
    pub written: usize,
    /// The state behind them.
    pub state: ReplayState,
}

/// Two tallies as one.
#[repr(C)]
#[derive(Debug, Clone, Copy, PartialEq, Eq, Default)]
pub struct MergeAnswer {
    /// 1 where a sum would not fit in 64 bits; the tally is zeros then.
    pub full: u32,
    /// 0.
    pub reserved: u32,
    /// The tally of the whole.
    pub tally: Tally,
}

/// A choice between two envelopes.
#[repr(C)]
#[derive(Debug, Clone, Copy, PartialEq, Eq, Default)]
pub struct ChoiceAnswer {
    /// Refusal number.
    pub refusal: u32,
    /// 1 the cached one, 2 the fetched one.
    pub which: u32,
    /// 1 its L1 key, 2 its L2 key.
    pub key: u32,
    /// 0.
    pub reserved: u32,
    /// Where that key stands in that envelope.
    pub place: Part,
}

const _: () = {
    use std::mem::size_of;
    assert!(size_of::<usize>() == 8);
    assert!(size_of::<WrittenAnswer>() == 16);
    assert!(size_of::<EntryAnswer>() == 48);
    assert!(size_of::<ListAnswer>() == 12);
    assert!(size_of::<StepAnswer>() == 72);
    assert!(size_of::<EfsKeyAnswer>() == 40);
    assert!(size_of::<SegmentAnswer>() == 64);
    assert!(size_of::<SizeAnswer>() == 12);
    assert!(size_of::<Head>() == 44);
    assert!(size_of::<EnvelopeAnswer>() == 184);
    assert!(size_of::<ReachAnswer>() == 136);
    assert!(size_of::<IdentifierAnswer>() == 20);
    assert!(size_of::<StartAnswer>() == 16);
    assert!(size_of::<Request>() == 32);
    assert!(size_of::<DecisionAnswer>() == 32);
    assert!(size_of::<TraceAnswer>() == 56);
    assert!(size_of::<Tally>() == 48);
    assert!(size_of::<ReplayState>() == 56);
    assert!(size_of::<ReplayLine>() == 96);
    assert!(size_of::<ReplayAnswer>() == 80);
    assert!(size_of::<MergeAnswer>() == 56);
    assert!(size_of::<ChoiceAnswer>() == 32);
};

#[link(name = "gishwarem", kind = "static")]
extern "C" {
    /// The version of the built library.
    pub fn gw_version() -> u32;
    /// Reads a Key List Entry.
    pub fn gw_entry_read(entry: *const u8, len: usize) -> EntryAnswer;
    /// Writes a Key List Entry at the start of `out`; a refusal changes no byte of it.
    pub fn gw_entry_write(
        out: *mut u8,
        room: usize,
        flags: u32,
        item: *const u8,
        item_len: usize,
        fek: *const u8,
        fek_len: usize,
    ) -> WrittenAnswer;
    /// Judges a list of entries whole.
    pub fn gw_list_judge(list: *const u8, len: usize) -> ListAnswer;
    /// One step of a list's walk, which starts at offset 4 and index 0 and goes on at the next place. At the end and on a
    /// refusal that is the place asked at: asked again there, it answers that again.
    pub fn gw_list_step(list: *const u8, len: usize, at: usize, index: u32) -> StepAnswer;
    /// Reads an EfsKey.
    pub fn gw_efskey_read(key: *const u8, len: usize) -> EfsKeyAnswer;
    /// Writes an EfsKey at the start of `out`; an empty SID means none, zeros no hint. A refusal changes no byte.
    pub fn gw_efskey_write(
        out: *mut u8,
        room: usize,
        sid: *const u8,
        sid_len: usize,
        certificate: *const u8,
        certificate_len: usize,
    ) -> WrittenAnswer;
    /// Reads a Data Segment Encryption Header.
    pub fn gw_segment_read(segment: *const u8, len: usize) -> SegmentAnswer;
    /// The size of the data block at an index from 0; there is none from the count on.
    pub fn gw_segment_size(segment: *const u8, len: usize, index: usize) -> SizeAnswer;
    /// Writes a Data Segment Encryption Header at the start of `out`, with nothing behind its sizes. A refusal changes no byte.
    pub fn gw_segment_write(
        out: *mut u8,
        room: usize,
        start_offset: u64,
        bytes_in_stream: u32,
        bytes_in_vdl: u32,
        unit_shift: u32,
        chunk_shift: u32,
        cluster_shift: u32,
        sizes: *const u32,
        blocks: usize,
    ) -> WrittenAnswer;
    /// Reads a Group Key Envelope.
    pub fn gw_envelope_read(envelope: *const u8, len: usize) -> EnvelopeAnswer;
    /// Writes a Group Key Envelope at the start of `out`; a refusal changes no byte of it.
    pub fn gw_envelope_write(
        out: *mut u8,
        room: usize,
        head: Head,
        kdf: *const u8,
        kdf_len: usize,
        kdf_parameters: *const u8,
        kdf_parameters_len: usize,
        agreement: *const u8,
        agreement_len: usize,
        agreement_parameters: *const u8,
        agreement_parameters_len: usize,
        domain: *const u8,
        domain_len: usize,
        forest: *const u8,
        forest_len: usize,
        l1_key: *const u8,
        l1_key_len: usize,
        l2_key: *const u8,
        l2_key_len: usize,
    ) -> WrittenAnswer;
    /// What an envelope's keys reach: nothing if it is public or keyless.
    pub fn gw_envelope_reach(envelope: *const u8, len: usize) -> ReachAnswer;
    /// What a form reaches at an identifier: the reach of a seed envelope there with just those keys.
    pub fn gw_form_reach(form: u32, at: Identifier) -> ReachAnswer;
    /// The identifier of a FILETIME reading.
    pub fn gw_time_identifier(time: u64) -> IdentifierAnswer;
    /// The reading at which an identifier starts.
    pub fn gw_identifier_start(at: Identifier) -> StartAnswer;
    /// The next older identifier of the same L0 group; (L0, 0, 0) has none.
    pub fn gw_identifier_older(at: Identifier) -> IdentifierAnswer;
    /// Whether bytes are a sound self-relative security descriptor: 0, or the code of the part that fails first.
    pub fn gw_descriptor_check(descriptor: *const u8, len: usize) -> u32;
    /// The GetKey decision, by the security descriptor.
    pub fn gw_decide(
        descriptor: *const u8,
        descriptor_len: usize,
        rights: u32,
        request: Request,
        clock: u64,
        table: *const u8,
        table_len: usize,
    ) -> DecisionAnswer;
    /// The GetKey decision, by a verdict in place of the descriptor.
    pub fn gw_decide_by_verdict(
        verdict: u32,
        rights: u32,
        request: Request,
        clock: u64,
        table: *const u8,
        len: usize,
    ) -> DecisionAnswer;
    /// Reads the record of a trace at the start of `record`.
    pub fn gw_trace_read(record: *const u8, len: usize) -> TraceAnswer;
    /// The state that a replay starts from: line 1 is next, and the tally is empty.
    pub fn gw_replay_start() -> ReplayState;
    /// Replays one record: its line's number, its answer, and the state to go on with.
    pub fn gw_replay_step(
        state: ReplayState,
        table: *const u8,
        table_len: usize,
        record: *const u8,
        len: usize,
    ) -> ReplayLine;
    /// Replays the records of a chunk: a line for each at the start of `out`, as far as there is room.
    pub fn gw_replay(
        out: *mut u8,
        room: usize,
        state: ReplayState,
        table: *const u8,
        table_len: usize,
        chunk: *const u8,
        len: usize,
        ends: u32,
    ) -> ReplayAnswer;
    /// Writes the line of a total at the start of `out`; a refusal changes no byte of it.
    pub fn gw_replay_total(out: *mut u8, room: usize, tally: Tally) -> WrittenAnswer;
    /// The tally of a trace from those of its two parts.
    pub fn gw_tally_merge(first: Tally, second: Tally) -> MergeAnswer;
    /// Which of two envelopes serves an identifier: the cached one if that serves, else the fetched one, else 23.
    pub fn gw_choose(
        root: Root,
        wanted: Identifier,
        cached: *const u8,
        cached_len: usize,
        fetched: *const u8,
        fetched_len: usize,
    ) -> ChoiceAnswer;
}
