//! Decides the sheet on standard input, and prints the line, or `(refused N)` where there is none.

use intake::Intake;
use std::io::{self, Read, Write};

fn main() -> io::Result<()> {
    let mut sheet = Vec::new();
    io::stdin().read_to_end(&mut sheet)?;
    let mut intake = Intake::new();
    let decision = intake.decide(&sheet);
    match decision.line {
        Some(line) => io::stdout().write_all(line),
        None => writeln!(io::stdout(), "(refused {})", decision.number as u32),
    }
}
