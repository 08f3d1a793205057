//! generate SEED COUNT [SHAPE]: accepted sheets of every form, one a line. SHAPE is mixed (the default), condition (no rules, no outcomes), deep
//! (chained quantifiers whose collections wrap the outer binder) or small (corners of numbers, texts and paths). No tab and no newline stands in a line.

use generate::random::Random;
use std::io::{self, Write};

fn main() -> io::Result<()> {
    let arguments: Vec<String> = std::env::args().skip(1).collect();
    let (Some(Ok(seed)), Some(Ok(count))) = (arguments.first().map(|text| text.parse()), arguments.get(1).map(|text| text.parse::<usize>())) else {
        eprintln!("usage: generate SEED COUNT [mixed|condition|deep|small]");
        std::process::exit(2);
    };
    let shape = arguments.get(2).map_or("mixed", String::as_str);
    let mut random = Random::new(seed);
    let mut out = io::BufWriter::new(io::stdout().lock());
    for _ in 0..count {
        writeln!(out, "{}", generate::sheet(&mut random, shape))?;
    }
    out.flush()
}
