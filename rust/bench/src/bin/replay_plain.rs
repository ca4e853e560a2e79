//! The replay as a program in plain Rust: `replay_plain TABLE < TRACE` writes a line for each record of the trace, and the total.

use std::env;
use std::fs;
use std::io::{self, BufReader, BufWriter, Read, Write};
use std::process::ExitCode;

use bench::plain::{write_line, write_total, Replay, RECORD};

/// The bytes of either buffer.
const BUFFER: usize = 64 * 1024;

fn main() -> ExitCode {
    let Some(table) = env::args_os().nth(1) else {
        eprintln!("usage: replay_plain TABLE < TRACE");
        return ExitCode::from(2);
    };
    match fs::read(table).and_then(|table| run(&table)) {
        Ok(()) => ExitCode::SUCCESS,
        Err(error) => {
            eprintln!("replay_plain: {error}");
            ExitCode::FAILURE
        }
    }
}

fn run(table: &[u8]) -> io::Result<()> {
    let mut trace = BufReader::with_capacity(BUFFER, io::stdin().lock());
    let mut out = BufWriter::with_capacity(BUFFER, io::stdout().lock());
    let mut replay = Replay::default();
    let mut record = [0; RECORD];
    loop {
        let length = fill(&mut trace, &mut record)?;
        if length == 0 {
            break;
        }
        let number = replay.next;
        let answer = replay.step(table, &record[..length]);
        let answer = answer.ok_or_else(|| io::Error::other("a count is full"))?;
        write_line(&mut out, number, answer)?;
    }
    write_total(&mut out, &replay.tally)?;
    out.flush()
}

/// Fills the record as far as the trace goes, and tells how far.
fn fill(trace: &mut impl Read, record: &mut [u8; RECORD]) -> io::Result<usize> {
    let mut length = 0;
    while length < RECORD {
        match trace.read(&mut record[length..]) {
            Ok(0) => break,
            Ok(more) => length += more,
            Err(error) if error.kind() == io::ErrorKind::Interrupted => {}
            Err(error) => return Err(error),
        }
    }
    Ok(length)
}
