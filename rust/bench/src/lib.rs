//! What the benchmark and its programs share: the replay in plain Rust, and a recorded day.

#![deny(missing_docs)]

pub mod day;
pub mod plain;
