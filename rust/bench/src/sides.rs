//! The three sides of an operation, and what it takes to measure them.

use std::hint::black_box;

/// What is measured: each side makes so many calls on one input, a multiple of `TURN`. Last, their loop alone, which calls
/// nothing.
pub type Sides<'a> = [&'a mut dyn FnMut(u32); 4];

/// The library.
pub const LIBRARY: usize = 0;
/// The reference.
pub const REFERENCE: usize = 1;
/// The reference behind the library's face.
pub const FACE: usize = 2;
/// The loop alone.
pub const LOOP: usize = 3;

/// The most calls in a turn of a loop.
pub const TURN: u32 = 8;

/// Measures the sides of an operation, by time or by instructions.
pub type Meter<F> = fn(Sides) -> F;

/// A side of the closure that makes one call, with so many of them one after the other in a turn of its loop.
pub fn side<const IN_A_TURN: u32>(mut call: impl FnMut()) -> impl FnMut(u32) {
    move |calls| (0..calls / IN_A_TURN).for_each(|_| (0..IN_A_TURN).for_each(|_| call()))
}

/// The loop of such a side.
pub fn empty<const IN_A_TURN: u32>() -> impl FnMut(u32) {
    side::<IN_A_TURN>(|| black_box(()))
}

/// A row of a table: what was found for an operation on one input.
pub struct Row<F> {
    pub operation: &'static str,
    pub input: String,
    pub found: F,
}

/// The rows of one operation at growing sizes.
pub struct Series<F> {
    /// The sizes and their rows.
    pub rows: Vec<(usize, Row<F>)>,
    /// Which of them is taken for 1.
    pub one: usize,
}
