//! How the sides of an operation are counted: callgrind is told to count inside of `counted` alone, and to write down what it
//! counted at each return. `scripts/count` reads that beside the lines that are printed here.

use std::hint::black_box;

use crate::sides::{Row, Series, Sides, FACE, LIBRARY, LOOP, REFERENCE, TURN};

/// Calls of a side. Each call of one takes the same number of instructions.
const CALLS: u32 = 13 * TURN;

/// The name that callgrind knows.
#[no_mangle]
#[inline(never)]
fn counted(side: &mut dyn FnMut(u32)) {
    side(CALLS);
    // So that the call above is not the last thing here, which would become a jump.
    black_box(());
}

/// Counts the loop alone, and then each side.
pub fn measure(mut sides: Sides) {
    [LOOP, LIBRARY, REFERENCE, FACE]
        .into_iter()
        .for_each(|side| counted(&mut sides[side]));
}

/// Prints a line for each row, in the order of counting: calls, operation and input, with tabs between.
pub fn print(operations: &[Row<()>], growth: &[Series<()>]) {
    let grown = growth.iter().flat_map(|series| &series.rows);
    for row in operations.iter().chain(grown.map(|(_, row)| row)) {
        println!("{CALLS}\t{}\t{}", row.operation, row.input);
    }
}
