//! Records cut short and with one byte changed: each gets an answer, and what is accepted keeps
//! the promises of its reader.

use gishwarem::{
    check_descriptor, decide, Bodies, DescriptorPart, EfsKey, Entry, Envelope, FileTime, Gkid,
    Head, Line, List, ListEntry, ListRefusal, Reach, Recorded, Refusal, Replay, Request, Rights,
    Segment, SegmentHead, Walk,
};

/// Hands on each beginning of a record, and the record with each of its bytes changed in turn.
fn each_edit(record: &[u8], mut look: impl FnMut(&[u8])) {
    for length in 0..=record.len() {
        look(&record[..length]);
    }
    let mut edited = record.to_vec();
    for at in 0..record.len() {
        for change in 1..=255 {
            edited[at] = record[at] ^ change;
            look(&edited);
        }
        edited[at] = record[at];
    }
}

/// Whether a part is a run of the record's own bytes.
fn lies_in(part: &[u8], record: &[u8]) -> bool {
    let (part, record) = (part.as_ptr_range(), record.as_ptr_range());
    record.start <= part.start && part.end <= record.end
}

fn two_entries() -> [u8; 54] {
    let mut list = [0; 54];
    list[0] = 2;
    Entry::write(&mut list[4..], 0, &[4, 0, 0, 0], &[0xAB]).expect("an entry");
    Entry::write(&mut list[29..], 1, &[4, 0, 0, 0], &[0xCD]).expect("an entry");
    list
}

#[test]
fn an_entrys_parts_lie_in_it() {
    each_edit(&two_entries()[29..], |bytes| {
        if let Ok(entry) = Entry::read(bytes) {
            assert!(lies_in(entry.public_key, bytes));
            assert!(lies_in(entry.fek, bytes));
        }
    });
}

#[test]
fn a_walk_says_what_the_judge_says() {
    each_edit(&two_entries(), |bytes| {
        let walked: Result<Vec<ListEntry>, ListRefusal> = Walk::over(bytes).collect();
        match List::read(bytes) {
            Ok(list) => {
                let found = walked.expect("the judge accepts it");
                assert_eq!(found.len(), list.count() as usize);
                assert!(list.entries().eq(found.iter().map(|found| found.entry)));
            }
            Err(refused) => assert_eq!(walked, Err(refused)),
        }
    });
}

#[test]
fn a_walk_ends_once() {
    each_edit(&two_entries(), |bytes| {
        let mut walk = Walk::over(bytes);
        while let Some(Ok(found)) = walk.next() {
            assert!(lies_in(found.entry.fek, &bytes[found.at..]));
        }
        assert_eq!(walk.next(), None);
        assert_eq!(walk.next(), None);
    });
}

#[test]
fn the_last_step_comes_again() {
    each_edit(&two_entries(), |bytes| {
        let mut walk = Walk::over(bytes);
        let mut last = walk.step();
        while let Ok(Some(_)) = last {
            last = walk.step();
        }
        assert_eq!(walk.step(), last);
    });
}

#[test]
fn an_efskey_that_is_read_is_written_again() {
    let sid = [1, 1, 0, 0, 0, 0, 0, 5, 18, 0, 0, 0];
    for sid in [&[][..], &sid, &[0; 8]] {
        let mut record = vec![0; 32 + sid.len() + 1];
        EfsKey::write(&mut record, sid, &[0x30]).expect("an EfsKey");
        each_edit(&record, |bytes| {
            if let Ok(key) = EfsKey::read(bytes) {
                let mut again = bytes.to_vec();
                let length = EfsKey::write(&mut again, key.sid.bytes(), key.certificate);
                assert_eq!(length, Ok(bytes.len()));
                assert_eq!(again[..24], bytes[..24]);
                assert_eq!(again[24..32], [0; 8]);
                assert_eq!(again[32..], bytes[32..]);
            }
        });
    }
}

/// Three data blocks, the last of them larger than the data unit of 512 bytes, and 5 bytes behind their sizes.
fn three_blocks() -> [u8; 45] {
    let head = SegmentHead {
        start_offset: 0x1_0000_0000,
        bytes_in_stream: 1500,
        bytes_in_vdl: 1025,
        unit_shift: 9,
        chunk_shift: 9,
        cluster_shift: 12,
    };
    let mut record = [0xEE; 45];
    Segment::write(&mut record, &head, &[512, 100, 513]).expect("a segment");
    record[8] = 45; // Length
    record
}

#[test]
fn a_segment_that_is_read_is_written_again() {
    each_edit(&three_blocks(), |bytes| {
        if let Ok(segment) = Segment::read(bytes) {
            let sizes: Vec<u32> = segment.sizes().collect();
            let end = 28 + 4 * sizes.len();
            let mut again = bytes.to_vec();
            let length = Segment::write(&mut again, &segment.head(), &sizes);
            assert_eq!(length, Ok(end));
            assert_eq!(again[..8], bytes[..8]);
            assert_eq!(again[8..12], (end as u32).to_le_bytes());
            assert_eq!(again[12..], bytes[12..]);
        }
    });
}

#[test]
fn a_segments_larger_blocks_are_those_of_its_sizes() {
    each_edit(&three_blocks(), |bytes| {
        if let Ok(segment) = Segment::read(bytes) {
            let unit = 1 << segment.head().unit_shift;
            let larger = segment.sizes().filter(|&size| size > unit).count();
            assert_eq!(segment.larger() as usize, larger);
            assert_eq!(segment.size(segment.sizes().len()), None);
            assert!(lies_in(segment.size_bytes(), bytes));
        }
    });
}

#[test]
fn an_envelope_that_is_read_is_written_again() {
    let head = Head {
        at: Gkid {
            l0: 5,
            l1: 3,
            l2: 7,
        },
        ..Head::default()
    };
    let bodies = Bodies {
        kdf: &[b'K', 0, 0, 0],
        kdf_parameters: &[1],
        agreement: &[b'A', 0, 0, 0],
        agreement_parameters: &[2],
        domain: &[b'd', 0, 0, 0],
        forest: &[b'f', 0, 0, 0],
        l1_key: &[3; 64],
        l2_key: &[4; 64],
    };
    let mut record = [0; 80 + 18 + 128];
    Envelope::write(&mut record, &head, &bodies).expect("an envelope");
    each_edit(&record, |bytes| {
        if let Ok(envelope) = Envelope::read(bytes) {
            let mut again = vec![0; bytes.len()];
            let length = Envelope::write(&mut again, &envelope.head, &envelope.bodies);
            assert_eq!(length, Ok(bytes.len()));
            assert_eq!(again, bytes);
            assert!(lies_in(envelope.bodies.l2_key, bytes));
        }
    });
}

#[test]
fn a_reach_is_refused_as_its_envelope_is() {
    let bodies = Bodies {
        kdf: &[0, 0],
        agreement: &[0, 0],
        domain: &[0, 0],
        forest: &[0, 0],
        l2_key: &[2; 64],
        ..Bodies::default()
    };
    let mut record = [0; 88 + 64];
    Envelope::write(&mut record, &Head::default(), &bodies).expect("an envelope");
    each_edit(&record, |bytes| {
        let envelope = Envelope::read(bytes);
        let reach = Reach::of_envelope(bytes);
        assert_eq!(reach.err(), envelope.err());
        if let Ok(reach) = reach {
            let bits: u32 = reach.rows.iter().map(|row| row.count_ones()).sum();
            assert_eq!(reach.total, bits);
        }
    });
}

/// Another implementation's, 60 bytes: the owner at 48, and the DACL at 20 with one entry.
const DESCRIPTOR: &[u8] = include_bytes!("../../../crates/vectors_descriptors/stdin");

#[test]
fn a_request_is_refused_16_where_its_descriptor_is_not_sound() {
    each_edit(DESCRIPTOR, |bytes| {
        let request = Request::latest(None);
        let refused = decide(bytes, Rights::Seed, &request, FileTime(0), &[]).err();
        assert_eq!(refused.is_some(), check_descriptor(bytes).is_err());
        assert!(refused.is_none() || refused == Some(Refusal::VerdictNo));
    });
}

/// A record with a root, seed rights and the verdict yes, which asks for the latest at (5, 3, 7).
fn a_record() -> [u8; 37] {
    let mut record = [0; 37];
    record[..8].copy_from_slice(&1_880_280_000_000_000_u64.to_be_bytes());
    record[8] = 0b1101_0000;
    record[9..21].fill(0xFF); // -1, three times
    record[21..].fill(7);
    record
}

#[test]
fn a_record_that_is_read_has_each_of_its_bits() {
    each_edit(&a_record(), |bytes| {
        let read = Recorded::read(bytes);
        let malformed = bytes.len() < 37 || bytes[8] & 0b1111 != 0 || bytes[8] & 0x60 == 0x60;
        match read {
            Ok(recorded) => {
                let request = recorded.request;
                let given = u8::from(request.root.is_some());
                let rights = recorded.rights as u8;
                let flags = given << 7 | rights << 5 | u8::from(recorded.verdict) << 4;
                let again = [
                    &recorded.clock.0.to_be_bytes()[..],
                    &[flags],
                    &request.l0.to_be_bytes(),
                    &request.l1.to_be_bytes(),
                    &request.l2.to_be_bytes(),
                    &request.root.unwrap_or_default().0,
                ];
                assert_eq!(again.concat(), bytes);
                assert!(!malformed);
            }
            Err(refusal) => {
                assert_eq!(refusal, Refusal::MalformedRecord);
                assert!(malformed || bytes[8] & 0x80 == 0);
            }
        }
    });
}

#[test]
fn a_replayed_record_is_decided_by_its_verdict() {
    let table = [[7; 16], [0; 16]].concat();
    each_edit(&a_record(), |bytes| {
        let line = Replay::new().step(&table, bytes);
        let answer = Recorded::read(bytes).and_then(|recorded| recorded.decide(&table));
        assert_eq!(line, Some(Line { number: 1, answer }));
    });
}

/// Each byte turned over: those of the revision, the control's bit, the four offsets, the SID's revision and count, the
/// ACL's size and count and its entry's size fail their part, and all others may be anything.
#[test]
fn a_changed_byte_fails_its_part() {
    assert_eq!(check_descriptor(DESCRIPTOR), Ok(()));
    for at in 0..60 {
        let mut bytes = DESCRIPTOR.to_vec();
        bytes[at] ^= 0xFF;
        let failed = match at {
            0 | 3 => Some(DescriptorPart::Head),
            4..=7 | 48 | 49 => Some(DescriptorPart::Owner),
            8..=11 => Some(DescriptorPart::Group),
            12..=15 => Some(DescriptorPart::Sacl),
            16..=19 | 22..=25 | 30 | 31 => Some(DescriptorPart::Dacl),
            _ => None,
        };
        assert_eq!(check_descriptor(&bytes).err(), failed, "byte {at}");
    }
}
