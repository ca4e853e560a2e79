//! Makes the recorded day that the replay is timed on, the same in every run: `make_trace table FILE` writes its root table, and
//! `make_trace trace COUNT > FILE` so many of its requests.

use std::fs;
use std::io::{self, BufWriter, Write};
use std::process::exit;

use bench::day;

fn main() {
    let arguments: Vec<String> = std::env::args().skip(1).collect();
    let made = match arguments.iter().map(String::as_str).collect::<Vec<_>>()[..] {
        ["table", file] => fs::write(file, day::table()),
        ["trace", count] => match count.parse() {
            Ok(count) => trace(count),
            Err(_) => usage(),
        },
        _ => usage(),
    };
    if let Err(error) = made {
        eprintln!("make_trace: {error}");
        exit(1)
    }
}

fn trace(count: u64) -> io::Result<()> {
    let mut out = BufWriter::with_capacity(64 * 1024, io::stdout().lock());
    for record in day::records(count) {
        out.write_all(&record)?;
    }
    out.flush()
}

fn usage() -> ! {
    eprintln!("usage: make_trace table FILE\n       make_trace trace COUNT > FILE");
    exit(2)
}
