//! A short run of every operation and property, to be run once under a memory checker: `once [INPUTS]`, 2,000 inputs
//! for each if not said. It prints what each met. `once NAME SEED` runs again the one input that a failure told.
//!
//! Under valgrind, with `--partial-loads-ok=no`: a read that is only partly past an input's end is told too.

use std::fmt::Display;
use std::str::FromStr;

use differential::subject::SEED;
use differential::tally::Tally;

fn main() {
    let arguments: Vec<String> = std::env::args().skip(1).collect();
    match arguments.as_slice() {
        [] => all(2_000),
        [inputs] => all(number(inputs)),
        [name, seed] => one(name, number(seed)),
        _ => end("too many arguments"),
    }
}

fn all(inputs: u64) {
    for subject in differential::subjects() {
        let mut tally = Tally::default();
        subject.run(SEED, 0..inputs, &mut tally);
        println!("{}: {tally}", subject.name);
    }
}

fn one(name: &str, seed: u64) {
    let Some(subject) = differential::subjects().find(|subject| subject.name == name) else {
        end("no such name");
    };
    let mut tally = Tally::default();
    subject.run_one(seed, &mut tally);
    println!("{name}: {tally}");
}

fn number<T: FromStr<Err: Display>>(text: &str) -> T {
    text.parse().unwrap_or_else(|error| end(error))
}

fn end(why: impl Display) -> ! {
    eprintln!("{why}\nusage: once [INPUTS]\n       once NAME SEED");
    std::process::exit(2)
}
