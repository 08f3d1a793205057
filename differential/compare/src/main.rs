//! compare sheets: accepted sheets through all six calls, here and in the Rust; the smallest sheet found that shows a difference is printed, and the run
//! fails. compare damage: damaged and random bytes through all six calls. compare exact: both on memory of just the size that is lent, for a memory
//! checker.
//!
//! --seed S, --count N (sheets or texts), --threads T, --calls CALL,.. (only these), --trace FILE (holds the text at hand, where a run may crash),
//! --sample FILE (damage: texts and numbers, one a line, for the model of the paper), --every N (damage: which of them).

mod damage;
mod exact;
mod parse;
mod sheets;
mod shrink;

use generate::random::Random;
use intake::{Lent, Reply};
use std::collections::BTreeMap;
use std::path::PathBuf;
use std::process::ExitCode;
use std::sync::atomic::{AtomicBool, Ordering};
use std::time::Instant;

#[derive(Default)]
pub struct Options {
    seed: u64,
    count: u64,
    threads: u64,
    calls: Vec<String>,
    trace: Option<PathBuf>,
    sample: Option<PathBuf>,
    every: u64,
}

impl Options {
    fn parsed(arguments: &[String]) -> Option<Self> {
        let mut options = Options { seed: 1, count: 100_000, threads: 2, every: 100, ..Options::default() };
        for pair in arguments.chunks(2) {
            let [name, value] = pair else {
                return None;
            };
            match name.as_str() {
                "--seed" => options.seed = value.parse().ok()?,
                "--count" => options.count = value.parse().ok()?,
                "--threads" => options.threads = value.parse().ok()?,
                "--calls" => options.calls = value.split(',').map(str::to_owned).collect(),
                "--trace" => options.trace = Some(value.into()),
                "--sample" => options.sample = Some(value.into()),
                "--every" => options.every = value.parse().ok()?,
                _ => return None,
            }
        }
        Some(options)
    }

    fn asks(&self, call: &str) -> bool {
        self.calls.is_empty() || self.calls.iter().any(|asked| asked == call)
    }

    /// What is drawn at an index.
    fn random(&self, index: u64) -> Random {
        Random::new(Random::new(self.seed).next() ^ index.wrapping_mul(0x2545_f491_4f6c_dd1d))
    }

    fn trace(&self, text: &[u8]) {
        if let Some(path) = &self.trace {
            std::fs::write(path, text).expect("the trace can be written");
        }
    }
}

/// How often each answer occurs, by call.
#[derive(Default)]
pub struct Counts(BTreeMap<(&'static str, String), u64>);

impl Counts {
    fn add(&mut self, call: &'static str, reply: &Reply) {
        let line = reply.line.as_deref().unwrap_or_default();
        let words = line.split(|byte| b" ()".contains(byte)).filter(|word| !word.is_empty());
        let word = match reply.number {
            0 => words.take(2).find(|word| *word != b"truth").map_or_else(String::new, |word| String::from_utf8_lossy(word).into_owned()),
            number => format!("{number:02}"),
        };
        *self.0.entry((call, word)).or_default() += 1;
    }

    fn merge(&mut self, other: Counts) {
        for (answer, count) in other.0 {
            *self.0.entry(answer).or_default() += count;
        }
    }

    fn print(&self) {
        let mut rows: BTreeMap<&str, Vec<String>> = BTreeMap::new();
        for ((call, word), count) in &self.0 {
            rows.entry(call).or_default().push(format!("{} {count}", word.trim_start_matches('0')));
        }
        for (call, row) in rows {
            println!("  {call}: {}", row.join(", "));
        }
    }

    fn total(&self) -> u64 {
        self.0.values().sum()
    }
}

/// Each index up to a count by `one`, the indices shared out among threads; the first difference that any of them meets.
fn shared_out<D: Send>(options: &Options, count: u64, one: impl Fn(&mut Lent, &mut Counts, u64) -> Result<(), D> + Sync) -> Result<Counts, D> {
    let stop = AtomicBool::new(false);
    let work = |first: u64| {
        let (mut lent, mut counts) = (Lent::new(1 << 15, 1 << 20), Counts::default());
        for index in (first..count).step_by(options.threads as usize) {
            if stop.load(Ordering::Relaxed) {
                break;
            }
            one(&mut lent, &mut counts, index).inspect_err(|_| stop.store(true, Ordering::Relaxed))?;
        }
        Ok(counts)
    };
    let mut all = Counts::default();
    std::thread::scope(|scope| {
        let thread = |first| std::thread::Builder::new().stack_size(oracle::STACK).spawn_scoped(scope, move || work(first)).expect("a thread starts");
        let threads: Vec<_> = (0..options.threads).map(thread).collect();
        for thread in threads {
            all.merge(thread.join().expect("no thread panics")?);
        }
        Ok(())
    })?;
    Ok(all)
}

fn sheets(options: &Options) -> ExitCode {
    let start = Instant::now();
    let pairs = if options.asks("evaluate") { options.count / 5 } else { 0 };
    let done = shared_out(options, options.count, |lent, counts, index| sheets::one_sheet(lent, counts, options, index));
    let done = done.and_then(|counts| {
        let mut all = shared_out(options, pairs, |lent, counts, index| sheets::one_pair(lent, counts, options, index))?;
        all.merge(counts);
        Ok(all)
    });
    match done {
        Ok(counts) => {
            counts.print();
            let (count, total, seconds) = (options.count, counts.total(), start.elapsed().as_secs_f64());
            println!("{total} answers on {count} sheets and {pairs} pairs of numbers, seed {}: no difference ({seconds:.0} s)", options.seed);
            ExitCode::SUCCESS
        }
        Err(difference) => {
            let smallest = std::thread::Builder::new().stack_size(oracle::STACK).spawn(move || sheets::smallest(difference));
            println!("{}", smallest.expect("a thread starts").join().expect("shrinking does not panic"));
            ExitCode::FAILURE
        }
    }
}

fn damaged(options: &Options) -> ExitCode {
    let start = Instant::now();
    let sample = damage::Sample::new(options);
    match shared_out(options, options.count, |lent, counts, index| damage::one_text(lent, counts, options, &sample, index)) {
        Ok(counts) => {
            counts.print();
            let (count, total, seconds) = (options.count, counts.total(), start.elapsed().as_secs_f64());
            println!("{total} answers on {count} damaged and random texts, seed {}: all as promised ({seconds:.0} s)", options.seed);
            ExitCode::SUCCESS
        }
        Err(broken) => {
            println!("{broken}");
            ExitCode::FAILURE
        }
    }
}

fn main() -> ExitCode {
    let arguments: Vec<String> = std::env::args().skip(1).collect();
    let options = arguments.get(1..).and_then(Options::parsed);
    match (arguments.first().map(String::as_str), options) {
        (Some("sheets"), Some(options)) => sheets(&options),
        (Some("damage"), Some(options)) => damaged(&options),
        (Some("exact"), Some(options)) => {
            println!("{} calls on memory of just the size that is lent, seed {}", exact::all(&options), options.seed);
            ExitCode::SUCCESS
        }
        _ => {
            eprintln!("usage: compare sheets|damage|exact [--seed S] [--count N] [--threads T] [--calls CALL,..] [--trace FILE] [--sample FILE] [--every N]");
            ExitCode::from(2)
        }
    }
}
