//! Runs the built library against the reference on seeded random inputs of three kinds: valid, valid with one or two
//! fields moved to a boundary, and junk.
//!
//! [`operations`] asks both and compares every field of the answers and every lent byte; [`properties`] asks the
//! library alone. Each input has a seed of its own, which a failure tells.

#![deny(missing_docs)]

pub mod ask;
pub mod expected;
pub mod hex;
pub mod lent;
pub mod make;
pub mod operations;
pub mod properties;
pub mod rng;
pub mod subject;
pub mod tally;

/// Every operation and every property.
pub fn subjects() -> impl Iterator<Item = subject::Subject> {
    operations::ALL.into_iter().chain(properties::ALL)
}
