//! Valid records of a wished size, made without the library and without the reference's writers.

use bench::day;
use gishwarem::SegmentHead;

/// A little-endian number put into a record.
fn put(record: &mut [u8], at: usize, number: u32) {
    record[at..at + 4].copy_from_slice(&number.to_le_bytes());
}

/// A record with another number at `at`.
pub fn with(mut record: Vec<u8>, at: usize, number: u32) -> Vec<u8> {
    put(&mut record, at, number);
    record
}

/// A public key item of `len` bytes, which begins with its own length.
pub fn item(len: usize) -> Vec<u8> {
    let mut item = vec![7; len];
    put(&mut item, 0, len as u32);
    item
}

/// A FEK of `len` bytes.
pub fn fek(len: usize) -> Vec<u8> {
    vec![9; len]
}

/// An entry with an item and a FEK of these lengths, the FEK straight after the item.
pub fn entry(item_len: usize, fek_len: usize) -> Vec<u8> {
    let mut entry = vec![0; 20];
    entry.extend(item(item_len));
    entry.extend(fek(fek_len));
    let len = entry.len() as u32;
    for (at, number) in [
        (0, len),
        (4, 20),
        (8, fek_len as u32),
        (12, 20 + item_len as u32),
        (16, 1),
    ] {
        put(&mut entry, at, number);
    }
    entry
}

/// A list of `count` of the least entries, 25 bytes each.
pub fn list(count: usize) -> Vec<u8> {
    let mut list = (count as u32).to_le_bytes().to_vec();
    (0..count).for_each(|_| list.extend(entry(4, 1)));
    list
}

/// A SID with five sub-authorities.
pub const SID: [u8; 28] = {
    let mut sid = [3; 28];
    sid[0] = 1;
    sid[1] = 5;
    sid
};

/// A certificate of `len` bytes.
pub fn certificate(len: usize) -> Vec<u8> {
    vec![5; len]
}

/// An EfsKey with this SID, or zeros for no hint, and a certificate of this length.
pub fn efskey(sid: &[u8], certificate_len: usize) -> Vec<u8> {
    let mut key = vec![0; 32];
    key.extend(sid);
    key.extend(certificate(certificate_len));
    let len = key.len() as u32;
    let numbers = [
        (0, len),
        (4, len - 4),
        (8, 28),
        (12, 2),
        (16, certificate_len as u32),
        (20, 28 + sid.len() as u32),
    ];
    for (at, number) in numbers {
        put(&mut key, at, number);
    }
    key
}

/// The numbers of a segment's head; its data unit has 65,536 bytes.
pub const SEGMENT: SegmentHead = SegmentHead {
    start_offset: 0x1_0000_0000,
    bytes_in_stream: 5_000_000,
    bytes_in_vdl: 4_000_000,
    unit_shift: 16,
    chunk_shift: 16,
    cluster_shift: 12,
};

/// The sizes of `blocks` data blocks; every other two are larger than the data unit.
pub fn sizes(blocks: usize) -> Vec<u32> {
    [40_000, 65_536, 65_537, 90_000]
        .into_iter()
        .cycle()
        .take(blocks)
        .collect()
}

/// A segment of `blocks` data blocks, with nothing behind their sizes.
pub fn segment(blocks: usize) -> Vec<u8> {
    let mut segment = vec![0; 28];
    segment[..8].copy_from_slice(&SEGMENT.start_offset.to_le_bytes());
    let numbers = [
        (8, 28 + 4 * blocks as u32),
        (12, SEGMENT.bytes_in_stream),
        (16, SEGMENT.bytes_in_vdl),
    ];
    for (at, number) in numbers {
        put(&mut segment, at, number);
    }
    let shifts = [
        SEGMENT.unit_shift,
        SEGMENT.chunk_shift,
        SEGMENT.cluster_shift,
    ];
    segment[22..25].copy_from_slice(&shifts.map(|shift| shift as u8));
    segment[25] = 1;
    segment[26..].copy_from_slice(&(blocks as u16).to_le_bytes());
    segment.extend(sizes(blocks).iter().flat_map(|size| size.to_le_bytes()));
    segment
}

/// What a text is made of.
#[derive(Clone, Copy)]
pub enum Letters {
    /// One unit each.
    Ascii,
    /// A pair each, but for the last one of an odd number of units.
    Pairs,
}

/// A text of `units` 16-bit units, the last of them zero.
fn text(letters: Letters, units: usize) -> Vec<u8> {
    let pairs = match letters {
        Letters::Ascii => 0,
        Letters::Pairs => (units - 1) / 2,
    };
    let mut text = [0x3D, 0xD8, 0x11, 0xDD].repeat(pairs);
    text.extend([b'a', 0].repeat(units - 1 - 2 * pairs));
    text.extend([0, 0]);
    text
}

/// The root key identifier of every envelope and of a table's last row.
pub const ROOT: [u8; 16] = *b"the root key id.";

/// The eight bodies of an envelope: KDF, parameters, agreement, parameters, domain, forest, L1 key, L2 key.
pub type Bodies = [Vec<u8>; 8];

/// The bodies of an envelope with both keys and four texts of `units` units, and with none of the keys where `units` is 1.
pub fn bodies(letters: Letters, units: usize) -> Bodies {
    let text = || text(letters, units);
    let key = if units == 1 { vec![] } else { vec![6; 64] };
    [
        text(),
        vec![],
        text(),
        vec![],
        text(),
        text(),
        key.clone(),
        key,
    ]
}

/// A seed envelope of those bodies at (5, 3, 7).
pub fn envelope(bodies: &Bodies) -> Vec<u8> {
    let mut envelope = vec![0; 80];
    envelope[4..8].copy_from_slice(b"KDSK");
    for (at, number) in [(0, 1), (12, 5), (16, 3), (20, 7)] {
        put(&mut envelope, at, number);
    }
    envelope[24..40].copy_from_slice(&ROOT);
    for (at, body) in [40, 44, 48, 52, 72, 76, 64, 68].into_iter().zip(bodies) {
        put(&mut envelope, at, body.len() as u32);
    }
    bodies.iter().for_each(|body| envelope.extend(body));
    envelope
}

/// The least sound security descriptor.
pub fn descriptor() -> Vec<u8> {
    let mut descriptor = vec![0; 20];
    put(&mut descriptor, 0, 0x8000_0001);
    descriptor
}

/// An ACL of `count` entries of `size` bytes.
fn acl(count: usize, size: usize) -> Vec<u8> {
    let mut acl = vec![0; 8 + count * size];
    let own = acl.len();
    acl[2..4].copy_from_slice(&(own as u16).to_le_bytes());
    acl[4..6].copy_from_slice(&(count as u16).to_le_bytes());
    for entry in acl[8..].chunks_exact_mut(size) {
        entry[2..4].copy_from_slice(&(size as u16).to_le_bytes());
    }
    acl
}

/// A descriptor with an owner, a group, and two ACLs of `count` entries of 20 bytes each.
pub fn two_acls(count: usize) -> Vec<u8> {
    let mut descriptor = descriptor();
    for (at, item) in [
        (4, SID.to_vec()),
        (8, SID.to_vec()),
        (12, acl(count, 20)),
        (16, acl(count, 20)),
    ] {
        let offset = descriptor.len() as u32;
        put(&mut descriptor, at, offset);
        descriptor.extend(item);
    }
    descriptor
}

/// A descriptor with a DACL of `count` of the least entries, 4 bytes each.
pub fn dacl(count: usize) -> Vec<u8> {
    let mut descriptor = with(descriptor(), 16, 20);
    descriptor.extend(acl(count, 4));
    descriptor
}

/// A descriptor of 65,535 bytes with the most entries: SACL and DACL are the same ACL.
pub fn most_entries() -> Vec<u8> {
    let mut descriptor = with(dacl(16_376), 12, 20);
    descriptor.resize(65_535, 0);
    descriptor
}

/// A root table of `rows` rows, in use since 0, each created later than the one before it; the last has `ROOT`.
pub fn table(rows: usize) -> Vec<u8> {
    let mut table = vec![];
    for row in 0..rows {
        let id = if row + 1 == rows {
            ROOT
        } else {
            [row as u8; 16]
        };
        table.extend(id);
        table.extend(0u64.to_be_bytes());
        table.extend((row as u64).to_be_bytes());
    }
    table
}

/// A recorded request for the key of an identifier, by the root key of a table's last row, at (5, 3, 7).
pub fn recorded() -> Vec<u8> {
    let mut record = 1_880_280_000_000_000_u64.to_be_bytes().to_vec();
    record.push(0b1101_0000);
    record.extend([3_i32; 3].iter().flat_map(|index| index.to_be_bytes()));
    record.extend(ROOT);
    record
}

/// The same with a spare bit, which is refused 26.
pub fn spare_bit() -> Vec<u8> {
    let mut record = recorded();
    record[8] |= 1;
    record
}

/// So many requests of a recorded day.
pub fn day(records: usize) -> Vec<u8> {
    day::records(records as u64).flatten().collect()
}

/// That day's root table, of 8 rows.
pub fn day_table() -> Vec<u8> {
    day::table()
}
