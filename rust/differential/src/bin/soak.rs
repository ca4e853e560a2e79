//! Runs every operation and property in turn until it is stopped, and prints the count of inputs. Arguments: a seed,
//! else the clock gives one; then a number of seconds, else it runs without end.

use std::str::FromStr;
use std::time::{Duration, Instant, SystemTime, UNIX_EPOCH};

use differential::subject::Subject;
use differential::tally::Tally;

/// The inputs that a subject gets in one turn.
const TURN: u64 = 500;

/// The time between two lines.
const TICK: Duration = Duration::from_secs(5);

fn main() {
    let seed = argument(1).unwrap_or_else(clock);
    let seconds: Option<u64> = argument(2);
    println!("seed {seed}");

    let subjects: Vec<Subject> = differential::subjects().collect();
    let start = Instant::now();
    let mut tally = Tally::default();
    let mut told = start;
    let mut turn = 0;
    while seconds.is_none_or(|seconds| start.elapsed().as_secs() < seconds) {
        for subject in &subjects {
            subject.run(seed, turn * TURN..(turn + 1) * TURN, &mut tally);
        }
        turn += 1;
        if told.elapsed() >= TICK {
            told = Instant::now();
            tell(turn, subjects.len(), start);
        }
    }
    tell(turn, subjects.len(), start);
}

/// The argument at this place, a number.
fn argument<T: FromStr>(place: usize) -> Option<T> {
    let text = std::env::args().nth(place)?;
    Some(text.parse().unwrap_or_else(|_| {
        eprintln!("usage: soak [SEED [SECONDS]]");
        std::process::exit(2)
    }))
}

/// A seed from the clock.
fn clock() -> u64 {
    let since = SystemTime::now().duration_since(UNIX_EPOCH);
    since.map_or(1, |since| since.as_nanos() as u64)
}

fn tell(turns: u64, subjects: usize, start: Instant) {
    let inputs = turns * TURN * subjects as u64;
    println!("{inputs} inputs in {} s", start.elapsed().as_secs());
}
