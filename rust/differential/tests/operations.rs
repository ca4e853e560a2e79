//! Each operation of the built library against the reference; every refusal number that applies has to be met.

use differential::operations::{
    choice, decision, descriptor, efskey, entry, envelope, list, reach, replay, segment, time,
    trace,
};

#[test]
fn entry_read() {
    entry::READ.check();
}

#[test]
fn entry_write() {
    entry::WRITE.check();
}

#[test]
fn list_judge() {
    list::JUDGE.check();
}

#[test]
fn list_step() {
    list::STEP.check();
}

#[test]
fn efskey_read() {
    efskey::READ.check();
}

#[test]
fn efskey_write() {
    efskey::WRITE.check();
}

#[test]
fn segment_read() {
    segment::READ.check();
}

#[test]
fn segment_size() {
    segment::SIZE.check();
}

#[test]
fn segment_write() {
    segment::WRITE.check();
}

#[test]
fn envelope_read() {
    envelope::READ.check();
}

#[test]
fn envelope_write() {
    envelope::WRITE.check();
}

#[test]
fn envelope_reach() {
    reach::OF_ENVELOPE.check();
}

#[test]
fn form_reach() {
    reach::OF_FORM.check();
}

#[test]
fn time_identifier() {
    time::IDENTIFIER.check();
}

#[test]
fn identifier_start() {
    time::START.check();
}

#[test]
fn identifier_older() {
    time::OLDER.check();
}

#[test]
fn descriptor_check() {
    descriptor::CHECK.check();
}

#[test]
fn decide() {
    decision::DECIDE.check();
}

#[test]
fn decide_by_verdict() {
    decision::DECIDE_BY_VERDICT.check();
}

#[test]
fn trace_read() {
    trace::READ.check();
}

#[test]
fn replay_step() {
    replay::STEP.check();
}

#[test]
fn replay_chunk() {
    replay::CHUNK.check();
}

#[test]
fn replay_in_pieces() {
    replay::WHOLE.check();
}

#[test]
fn replay_total() {
    replay::TOTAL.check();
}

#[test]
fn tally_merge() {
    replay::MERGE.check();
}

#[test]
fn choose() {
    choice::CHOOSE.check();
}
