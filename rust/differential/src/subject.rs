//! What is run: an operation against the reference, or a property of the library alone.

use crate::make::Kind;
use crate::rng::{input_seed, Rng};
use crate::tally::Tally;

/// How many inputs a subject gets in the tests, unless `GISHWAREM_INPUTS` says otherwise.
const INPUTS: u64 = 200_000;

/// The seed of the tests.
pub const SEED: u64 = 0x6769_7368_7761_7265;

/// Something that is run on many inputs.
pub struct Subject {
    /// Its name.
    pub name: &'static str,
    /// Makes one input, asks, compares and counts.
    pub run: fn(&mut Rng, &mut Tally),
    /// The refusal numbers that apply: each has to be met, and no other may be.
    pub refusals: &'static [u32],
    /// Events that have to be met too.
    pub events: &'static [&'static str],
}

impl Subject {
    /// Runs the inputs of these numbers; the inputs of another subject, and those of another seed, are others.
    pub fn run(&self, seed: u64, numbers: std::ops::Range<u64>, tally: &mut Tally) {
        let own = self.name.bytes().fold(seed, |own, byte| {
            (own ^ u64::from(byte)).wrapping_mul(0x0100_0000_01B3)
        });
        for number in numbers {
            self.run_one(input_seed(own, number), tally);
        }
    }

    /// Runs the input of this seed; a failure tells the seed.
    pub fn run_one(&self, seed: u64, tally: &mut Tally) {
        let _told = TellSeed {
            name: self.name,
            seed,
        };
        (self.run)(&mut Rng::new(seed), tally);
    }

    /// Runs the tests' inputs and asserts that they met all that they have to meet.
    pub fn check(&self) {
        let inputs = inputs();
        let name = self.name;
        let mut tally = Tally::default();
        self.run(SEED, 0..inputs, &mut tally);
        println!("{name}: {tally}");
        assert_eq!(tally.refusals(), self.refusals, "{name}: refusals met");
        for event in self.events {
            assert!(tally.of_event(event) > 0, "{name}: no {event}");
        }
        for kind in Kind::ALL {
            assert!(tally.of_kind(kind) > inputs / 10, "{name}: few {kind:?}");
        }
        assert!(tally.of_number(0) > inputs / 10, "{name}: few accepted");
    }
}

/// How many inputs a subject gets in the tests.
fn inputs() -> u64 {
    match std::env::var("GISHWAREM_INPUTS") {
        Ok(inputs) => inputs.parse().expect("GISHWAREM_INPUTS is a number"),
        Err(_) => INPUTS,
    }
}

/// Tells which input was run, if a failure ends it.
struct TellSeed {
    name: &'static str,
    seed: u64,
}

impl Drop for TellSeed {
    fn drop(&mut self) {
        if std::thread::panicking() {
            eprintln!("again: once '{}' {}", self.name, self.seed);
        }
    }
}
