//! The operations: one input each, asked of the library and of the reference, and every field of the answers compared.

pub mod choice;
pub mod decision;
pub mod descriptor;
pub mod efskey;
pub mod entry;
pub mod envelope;
pub mod list;
pub mod reach;
pub mod replay;
pub mod segment;
pub mod time;
pub mod trace;

use std::fmt::Debug;

use gishwarem::raw::{
    ChoiceAnswer, DecisionAnswer, EfsKeyAnswer, EntryAnswer, EnvelopeAnswer, IdentifierAnswer,
    ListAnswer, MergeAnswer, ReachAnswer, ReplayAnswer, ReplayLine, SegmentAnswer, SizeAnswer,
    StartAnswer, StepAnswer, TraceAnswer, WrittenAnswer,
};

use crate::hex::Hex;
use crate::lent::Output;
use crate::make::Kind;
use crate::subject::Subject;
use crate::tally::Tally;

/// Every operation.
pub const ALL: [Subject; 26] = [
    entry::READ,
    entry::WRITE,
    list::JUDGE,
    list::STEP,
    efskey::READ,
    efskey::WRITE,
    segment::READ,
    segment::SIZE,
    segment::WRITE,
    envelope::READ,
    envelope::WRITE,
    reach::OF_ENVELOPE,
    reach::OF_FORM,
    time::IDENTIFIER,
    time::START,
    time::OLDER,
    descriptor::CHECK,
    decision::DECIDE,
    decision::DECIDE_BY_VERDICT,
    trace::READ,
    replay::STEP,
    replay::CHUNK,
    replay::WHOLE,
    replay::TOTAL,
    replay::MERGE,
    choice::CHOOSE,
];

/// An answer, which has its refusal's number.
pub trait Answer: PartialEq + Debug {
    /// The refusal's number; 0 where the input is accepted.
    fn refusal(&self) -> u32;
}

macro_rules! answers {
    ($($answer:ident)*) => {
        $(impl Answer for $answer {
            fn refusal(&self) -> u32 {
                self.refusal
            }
        })*
    };
}

answers! {
    ChoiceAnswer DecisionAnswer EfsKeyAnswer EntryAnswer EnvelopeAnswer IdentifierAnswer
    ListAnswer ReachAnswer SegmentAnswer SizeAnswer StartAnswer StepAnswer TraceAnswer
    WrittenAnswer
}

/// The check of a descriptor answers the part's number alone; 0 is sound.
impl Answer for u32 {
    fn refusal(&self) -> u32 {
        *self
    }
}

/// A replayed record has the refusal of its answer.
impl Answer for ReplayLine {
    fn refusal(&self) -> u32 {
        self.answer.refusal
    }
}

/// The replay of a chunk refuses nothing; its records have their own numbers.
impl Answer for ReplayAnswer {
    fn refusal(&self) -> u32 {
        0
    }
}

/// Two tallies have one unless a sum would not fit.
impl Answer for MergeAnswer {
    fn refusal(&self) -> u32 {
        self.full
    }
}

/// One input, as a difference is told.
struct Asked<'a> {
    kind: Kind,
    input: &'a dyn Debug,
}

impl<'a> Asked<'a> {
    fn new(kind: Kind, input: &'a dyn Debug) -> Self {
        Asked { kind, input }
    }

    /// Compares the answers, asks that a valid input is accepted, and counts the number.
    fn compare<A: Answer>(&self, tally: &mut Tally, library: &A, reference: &A) {
        if library != reference {
            self.fail("the answers differ", library, reference);
        }
        if self.kind == Kind::Valid && library.refusal() != 0 {
            self.fail("a valid input is refused", library, reference);
        }
        tally.answer(library.refusal());
    }

    /// Compares a writer's answers, and every byte of the lent output and around it. The reference writes into as much room;
    /// its record is empty on a refusal.
    fn compare_written(
        &self,
        tally: &mut Tally,
        out: &Output,
        library: &WrittenAnswer,
        reference: impl FnOnce(&mut [u8]) -> WrittenAnswer,
    ) {
        let mut record = vec![0x5C; out.room()];
        let answer = reference(&mut record);
        record.truncate(answer.len);
        self.compare(tally, library, &answer);
        self.compare_lent(out, &record);
    }

    /// Compares every byte of the lent output and around it with what it has to start with.
    fn compare_lent(&self, out: &Output, due: &[u8]) {
        if !out.holds(due) {
            let room = out.first(out.room());
            self.fail("the lent bytes differ", &Hex(room), &Hex(due));
        }
    }

    fn fail(&self, why: &str, library: &dyn Debug, reference: &dyn Debug) -> ! {
        panic!(
            "{why}\n{:?} input: {:?}\nlibrary: {library:?}\nreference: {reference:?}",
            self.kind, self.input
        )
    }
}
