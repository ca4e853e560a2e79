//! What the inputs of a run met: kinds of input, refusal numbers, and events with a name.

use std::collections::BTreeMap;
use std::fmt;

use crate::make::Kind;
use crate::rng::Rng;

/// The refusal numbers of the table, and 0 for accepted.
const NUMBERS: usize = 27;

/// Counts of what a run met.
#[derive(Default)]
pub struct Tally {
    kinds: [u64; 3],
    numbers: [u64; NUMBERS],
    events: BTreeMap<&'static str, u64>,
}

impl Tally {
    /// Draws the kind of the next input, and counts it.
    pub fn kind(&mut self, rng: &mut Rng) -> Kind {
        let kind = Kind::draw(rng);
        self.kinds[kind as usize] += 1;
        kind
    }

    /// Counts an answer by its number.
    pub fn answer(&mut self, number: u32) {
        let slot = self.numbers.get_mut(number as usize);
        *slot.unwrap_or_else(|| panic!("there is no refusal number {number}")) += 1;
    }

    /// Counts an event.
    pub fn event(&mut self, name: &'static str) {
        *self.events.entry(name).or_default() += 1;
    }

    /// How many inputs were of a kind.
    pub fn of_kind(&self, kind: Kind) -> u64 {
        self.kinds[kind as usize]
    }

    /// How many answers had a number.
    pub fn of_number(&self, number: u32) -> u64 {
        self.numbers[number as usize]
    }

    /// How many times an event was met.
    pub fn of_event(&self, name: &str) -> u64 {
        self.events.get(name).copied().unwrap_or(0)
    }

    /// The refusal numbers that were met, in order.
    pub fn refusals(&self) -> Vec<u32> {
        (1..NUMBERS as u32)
            .filter(|&number| self.of_number(number) > 0)
            .collect()
    }
}

impl fmt::Display for Tally {
    fn fmt(&self, out: &mut fmt::Formatter<'_>) -> fmt::Result {
        write!(out, "accepted {}", self.of_number(0))?;
        for number in self.refusals() {
            write!(out, ", {number}: {}", self.of_number(number))?;
        }
        for (name, count) in &self.events {
            write!(out, ", {name}: {count}")?;
        }
        Ok(())
    }
}
