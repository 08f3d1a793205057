//! Answers records. Each line of standard input is one, `CALL PLACE SHEET` with one space between; CALL is evaluate, preconditions, invariants, select,
//! admit or decide, and PLACE counts for admit only. Each line of standard output is `NUMBER LINE`, the number 0 where nothing is refused, and `-` for no
//! line.

use oracle::{Sheet, STACK};
use std::io::{self, BufRead, Write};

fn answer(record: &str) -> Option<String> {
    let (call, rest) = record.split_once(' ')?;
    let (place, text) = rest.split_once(' ')?;
    let sheet = Sheet::read(text).ok()?;
    let (number, line) = oracle::answer(call, place.parse().ok()?, &sheet)?;
    Some(format!("{number} {}", line.as_deref().unwrap_or("-")))
}

fn run() -> io::Result<()> {
    let mut out = io::BufWriter::new(io::stdout().lock());
    for record in io::stdin().lock().lines() {
        let record = record?;
        match answer(&record) {
            Some(line) => writeln!(out, "{line}")?,
            None => {
                eprintln!("not a record with a call and a sheet that serde reads: {record}");
                std::process::exit(1);
            }
        }
    }
    out.flush()
}

fn main() -> io::Result<()> {
    std::thread::Builder::new().stack_size(STACK).spawn(run)?.join().expect("the oracle does not panic")
}
