//! How the sides of an operation are timed against each other, and the tables of that.

use std::time::Instant;

use crate::sides::{Row, Series, Sides, FACE, LIBRARY, REFERENCE, TURN};

/// Rounds of a measurement; each times every side, one straight after the other.
const ROUNDS: usize = 201;

/// A round lasts about this long on each side: short, so that few rounds are interrupted.
const ROUND_NANOSECONDS: u128 = 100_000;

/// One round in so many is fast. What disturbs a round adds to its time: who else uses the processor, and, where a call takes
/// a few nanoseconds, what the side before left to the branch predictor. The fast rounds are the least disturbed.
const FAST: usize = 20;

/// What a measurement found.
pub struct Found {
    /// Each side's nanoseconds a call, in its fast rounds.
    sides: [f64; 3],
    /// The library's time over the reference's.
    to_reference: Ratio,
    /// The library's time over that of the reference behind the library's face.
    to_face: Ratio,
}

/// A ratio of two sides.
struct Ratio {
    /// That of their fast rounds.
    fast: f64,
    /// The quartiles of the ratios of all rounds.
    quartiles: [f64; 3],
}

/// Times the sides, round by round.
pub fn measure(mut sides: Sides) -> Found {
    let calls = calls_in_a_round(sides[REFERENCE]);
    let rounds: Vec<[f64; 3]> = (0..ROUNDS)
        .map(|first| round(&mut sides, first, calls))
        .collect();
    Found {
        sides: [LIBRARY, REFERENCE, FACE].map(|side| fast(&rounds, side)),
        to_reference: ratio(&rounds, REFERENCE),
        to_face: ratio(&rounds, FACE),
    }
}

/// How many calls fill a round: a multiple of `TURN`, and one `TURN` at least, also where what is timed for it is interrupted
/// for many rounds' time.
fn calls_in_a_round(side: &mut dyn FnMut(u32)) -> u32 {
    let mut calls = TURN;
    loop {
        let start = Instant::now();
        side(calls);
        let taken = start.elapsed().as_nanos();
        if taken >= ROUND_NANOSECONDS / 4 {
            let calls = (u128::from(calls) * ROUND_NANOSECONDS / taken) as u32;
            return calls.max(1).next_multiple_of(TURN);
        }
        calls *= 4;
    }
}

/// Each side's nanoseconds a call in one round. From round to round another side goes first.
fn round(sides: &mut Sides, first: usize, calls: u32) -> [f64; 3] {
    let mut times = [0.0; 3];
    for turn in 0..3 {
        let side = (first + turn) % 3;
        let start = Instant::now();
        sides[side](calls);
        times[side] = start.elapsed().as_nanos() as f64 / f64::from(calls);
    }
    times
}

/// A side's time in its fast rounds: that of the slowest of them.
fn fast(rounds: &[[f64; 3]], side: usize) -> f64 {
    sorted(rounds.iter().map(|times| times[side]))[ROUNDS / FAST]
}

/// The library's ratio to another side.
fn ratio(rounds: &[[f64; 3]], side: usize) -> Ratio {
    let ratios = sorted(rounds.iter().map(|times| times[LIBRARY] / times[side]));
    Ratio {
        fast: fast(rounds, LIBRARY) / fast(rounds, side),
        quartiles: [1, 2, 3].map(|quarter| ratios[quarter * ROUNDS / 4]),
    }
}

fn sorted(numbers: impl Iterator<Item = f64>) -> Vec<f64> {
    let mut numbers: Vec<f64> = numbers.collect();
    numbers.sort_by(f64::total_cmp);
    numbers
}

/// Prints the two tables.
pub fn print(operations: &[Row<Found>], growth: &[Series<Found>]) {
    println!("Ratio: the library's time over the reference's, each that of its fast rounds, one in {FAST} of {ROUNDS}.");
    println!("All rounds: the ratio of the two in one round; its median, then its first and third quartile.");
    println!("Reference: of a trace and its replay, plain Rust that reads fields by bytes, as the reference does not.");
    println!(
        "Same face: the reference behind the library's C face, its answer by value and zeros beside a refusal."
    );
    println!("Size and time: how often they hold the size and the library's time of the operation's row with 1.0.");
    println!("\n## Operations\n");
    head("library, ns | reference, ns | same face, ns", 3);
    for row in operations {
        line(row, row.found.sides);
    }
    println!("\n## Growth\n");
    head("size | time", 2);
    growth.iter().for_each(grown);
}

/// Prints the head of a table whose last columns are these.
fn head(last: &str, columns: usize) {
    println!("| operation | input | ratio | all rounds | ratio, same face | all rounds | {last} |");
    println!("|{}", "---|".repeat(6 + columns));
}

/// Prints a row of a table with these last columns.
fn line<const N: usize>(row: &Row<Found>, last: [f64; N]) {
    print!("| {} | {} |", row.operation, row.input);
    for ratio in [&row.found.to_reference, &row.found.to_face] {
        let [low, median, high] = ratio.quartiles;
        print!(" {:.2} | {median:.2}, {low:.2} to {high:.2} |", ratio.fast);
    }
    last.iter().for_each(|number| print!(" {number:.1} |"));
    println!();
}

/// Prints the rows of a series.
fn grown(series: &Series<Found>) {
    let (size_of_one, of_one) = &series.rows[series.one];
    for (size, row) in &series.rows {
        let size = *size as f64 / *size_of_one as f64;
        line(
            row,
            [size, row.found.sides[LIBRARY] / of_one.found.sides[LIBRARY]],
        );
    }
}
