//! Round trips: what is written reads back as it was given, and what is read writes the same bytes.

use gishwarem::raw::{codes, EnvelopeAnswer};
use gishwarem::SegmentHead;

use super::part_of;
use crate::ask;
use crate::hex::Hex;
use crate::lent::Output;
use crate::make::envelope::Envelope;
use crate::make::segment::Segment;
use crate::make::{efskey, entry, envelope, put_number, room, segment, Kind};
use crate::rng::Rng;
use crate::subject::Subject;
use crate::tally::Tally;

/// An entry that is written reads back.
pub const ENTRY: Subject = Subject {
    name: "entry written, then read",
    run: entry,
    refusals: &[1, 3, 7, 13],
    events: &[],
};

/// An EfsKey that is written reads back, with the kind that the SID's bytes tell.
pub const EFSKEY_WRITTEN: Subject = Subject {
    name: "EfsKey written, then read",
    run: efskey_written,
    refusals: &[1, 7, 12, 13],
    events: &efskey::CASES,
};

/// An EfsKey that is read writes the same bytes but for Reserved2.
pub const EFSKEY_READ: Subject = Subject {
    name: "EfsKey read, then written",
    run: efskey_read,
    refusals: &[1, 2, 3, 4, 6, 7, 12],
    events: &efskey::CASES,
};

/// A segment that is written reads back.
pub const SEGMENT_WRITTEN: Subject = Subject {
    name: "segment written, then read",
    run: segment_written,
    refusals: &[1, 13, 25],
    events: &[],
};

/// A segment that is read writes the same bytes, where nothing follows its sizes; else the same up to there, but for Length.
pub const SEGMENT_READ: Subject = Subject {
    name: "segment read, then written",
    run: segment_read,
    refusals: &[1, 2, 3, 4, 25],
    events: &["same", "same but for Length"],
};

/// An envelope that is written reads back.
pub const ENVELOPE_WRITTEN: Subject = Subject {
    name: "envelope written, then read",
    run: envelope_written,
    refusals: &[1, 5, 10, 11, 13, 24],
    events: &[],
};

/// An envelope that is read writes the same bytes.
pub const ENVELOPE_READ: Subject = Subject {
    name: "envelope read, then written",
    run: envelope_read,
    refusals: &[1, 2, 3, 4, 5, 10, 11, 24],
    events: &[],
};

/// Room for a record that was read: just enough, or more.
fn enough(rng: &mut Rng, record: &[u8]) -> Output {
    let room = room(rng, Kind::Valid, record.len());
    Output::new(rng, room)
}

fn entry(rng: &mut Rng, tally: &mut Tally) {
    let kind = tally.kind(rng);
    let (item, fek) = entry::items(rng, kind);
    let flags = entry::flags(rng);
    let room = room(rng, kind, entry::length(&item, &fek));
    let mut out = Output::new(rng, room);
    let written = ask::entry_write(rng, &mut out, flags, &item, &fek);
    tally.answer(written.refusal);
    if written.refusal != 0 {
        return;
    }
    let record = out.first(written.len);
    let read = ask::entry_read(rng, record);
    let algorithm = match flags {
        0 => codes::ALGORITHM_RSA,
        1 => codes::ALGORITHM_AES256,
        _ => codes::ALGORITHM_UNSUPPORTED,
    };
    let told = (read, Hex(record));
    assert_eq!(read.refusal, 0, "{told:?}");
    assert_eq!((read.flags, read.algorithm), (flags, algorithm), "{told:?}");
    assert_eq!(part_of(record, read.item), item, "{told:?}");
    assert_eq!(part_of(record, read.fek), fek, "{told:?}");
}

fn efskey_written(rng: &mut Rng, tally: &mut Tally) {
    let kind = tally.kind(rng);
    let (sid, certificate) = efskey::parts(rng, kind);
    let room = room(rng, kind, efskey::length(&sid, &certificate));
    let mut out = Output::new(rng, room);
    let written = ask::efskey_write(rng, &mut out, &sid, &certificate);
    tally.answer(written.refusal);
    if written.refusal != 0 {
        return;
    }
    let record = out.first(written.len);
    let read = ask::efskey_read(rng, record);
    let told = (read, Hex(record));
    assert_eq!(read.refusal, 0, "{told:?}");
    assert_eq!(read.kind, efskey::kind_of(&sid), "{told:?}");
    assert_eq!(part_of(record, read.sid), sid, "{told:?}");
    assert_eq!(part_of(record, read.certificate), certificate, "{told:?}");
    tally.event(efskey::CASES[read.kind as usize]);
}

fn efskey_read(rng: &mut Rng, tally: &mut Tally) {
    let kind = tally.kind(rng);
    let bytes = efskey::record(rng, kind);
    let read = ask::efskey_read(rng, &bytes);
    tally.answer(read.refusal);
    if read.refusal != 0 {
        return;
    }
    let mut out = enough(rng, &bytes);
    let sid = part_of(&bytes, read.sid);
    let certificate = part_of(&bytes, read.certificate);
    let written = ask::efskey_write(rng, &mut out, sid, certificate);
    let mut same = bytes.clone();
    same[efskey::RESERVED2].fill(0);
    let told = (read, written, Hex(&bytes));
    assert_eq!(read.kind, efskey::kind_of(sid), "{told:?}");
    assert_eq!((written.refusal, written.len), (0, bytes.len()), "{told:?}");
    assert!(out.holds(&same), "{told:?}");
    tally.event(efskey::CASES[read.kind as usize]);
}

fn segment_written(rng: &mut Rng, tally: &mut Tally) {
    let kind = tally.kind(rng);
    let segment = Segment::of(rng, kind);
    let room = room(rng, kind, segment.length());
    let mut out = Output::new(rng, room);
    let written = ask::segment_write(rng, &mut out, &segment.head, &segment.sizes);
    tally.answer(written.refusal);
    if written.refusal != 0 {
        return;
    }
    let record = out.first(written.len);
    let read = ask::segment_read(rng, record);
    let told = (read, Hex(record));
    assert_eq!(read.refusal, 0, "{told:?}");
    assert_eq!(SegmentHead::from(read), segment.head, "{told:?}");
    assert_eq!(read.blocks as usize, segment.sizes.len(), "{told:?}");
    let sizes = ask::segment_sizes(rng, record);
    assert_eq!(sizes, segment.sizes, "{told:?}");
}

fn segment_read(rng: &mut Rng, tally: &mut Tally) {
    let kind = tally.kind(rng);
    let bytes = segment::record(rng, kind);
    let read = ask::segment_read(rng, &bytes);
    tally.answer(read.refusal);
    if read.refusal != 0 {
        return;
    }
    let mut out = enough(rng, &bytes);
    let sizes = ask::segment_sizes(rng, &bytes);
    let written = ask::segment_write(rng, &mut out, &read.into(), &sizes);
    let end = read.sizes.at + read.sizes.len;
    let mut same = bytes[..end].to_vec();
    if end == bytes.len() {
        tally.event("same");
    } else {
        tally.event("same but for Length");
        put_number(&mut same, segment::LENGTH, end as u32);
    }
    let told = (read, written, Hex(&bytes));
    assert_eq!((written.refusal, written.len), (0, end), "{told:?}");
    assert!(out.holds(&same), "{told:?}");
}

/// The bytes of an envelope's bodies, in their order.
fn bodies_of<'a>(bytes: &'a [u8], read: &EnvelopeAnswer) -> [&'a [u8]; 8] {
    let bodies = &read.bodies;
    [
        bodies.kdf,
        bodies.kdf_parameters,
        bodies.agreement,
        bodies.agreement_parameters,
        bodies.domain,
        bodies.forest,
        bodies.l1_key,
        bodies.l2_key,
    ]
    .map(|part| part_of(bytes, part))
}

fn envelope_written(rng: &mut Rng, tally: &mut Tally) {
    let kind = tally.kind(rng);
    let envelope = Envelope::of(rng, kind);
    let room = room(rng, kind, envelope.length());
    let mut out = Output::new(rng, room);
    let written = ask::envelope_write(rng, &mut out, envelope.head, envelope.lent());
    tally.answer(written.refusal);
    if written.refusal != 0 {
        return;
    }
    let record = out.first(written.len);
    let read = ask::envelope_read(rng, record);
    let told = (read, Hex(record));
    assert_eq!(read.refusal, 0, "{told:?}");
    assert_eq!(read.head, envelope.head, "{told:?}");
    assert_eq!(bodies_of(record, &read), envelope.lent(), "{told:?}");
}

fn envelope_read(rng: &mut Rng, tally: &mut Tally) {
    let kind = tally.kind(rng);
    let bytes = envelope::record(rng, kind);
    let read = ask::envelope_read(rng, &bytes);
    tally.answer(read.refusal);
    if read.refusal != 0 {
        return;
    }
    let mut out = enough(rng, &bytes);
    let written = ask::envelope_write(rng, &mut out, read.head, bodies_of(&bytes, &read));
    let told = (read, written, Hex(&bytes));
    assert_eq!((written.refusal, written.len), (0, bytes.len()), "{told:?}");
    assert!(out.holds(&bytes), "{told:?}");
}
