//! Properties of the built library: demand 3, the two decisions, round trips, the walk, a segment's blocks, public envelopes, texts, the choice by the
//! reach, the time rule, a replay in parts and its lines.

use differential::properties::{
    blocks, described, public, replayed, round_trips, serving, steps, texts, waiting, walk,
};

#[test]
fn waiting_loses_nothing() {
    waiting::WAITING.check();
}

#[test]
fn waiting_loses_nothing_by_verdict() {
    waiting::WAITING_BY_VERDICT.check();
}

#[test]
fn by_descriptor_and_by_verdict() {
    described::DESCRIBED.check();
}

#[test]
fn entry_written_then_read() {
    round_trips::ENTRY.check();
}

#[test]
fn efskey_written_then_read() {
    round_trips::EFSKEY_WRITTEN.check();
}

#[test]
fn efskey_read_then_written() {
    round_trips::EFSKEY_READ.check();
}

#[test]
fn segment_written_then_read() {
    round_trips::SEGMENT_WRITTEN.check();
}

#[test]
fn segment_read_then_written() {
    round_trips::SEGMENT_READ.check();
}

#[test]
fn envelope_written_then_read() {
    round_trips::ENVELOPE_WRITTEN.check();
}

#[test]
fn envelope_read_then_written() {
    round_trips::ENVELOPE_READ.check();
}

#[test]
fn list_walked() {
    walk::WALK.check();
}

#[test]
fn segment_blocks_one_by_one() {
    blocks::BLOCKS.check();
}

#[test]
fn public_envelopes_anywhere() {
    public::ANYWHERE.check();
}

#[test]
fn texts_are_strings() {
    texts::TEXTS.check();
}

#[test]
fn choice_by_the_reach() {
    serving::SERVING.check();
}

#[test]
fn readings_and_steps() {
    steps::STEPS.check();
}

#[test]
fn every_step_of_the_clock() {
    steps::count_up();
}

#[test]
fn replayed_in_parts() {
    replayed::PARTS.check();
}

#[test]
fn lines_as_they_show() {
    replayed::LINES.check();
}
