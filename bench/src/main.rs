//! bench [--rounds N] [--instructions] [--profile ROW]: the same sheets through the Rust (serde_json's parse, reading of the definitions, a decision) and through `intake_decide`, in one
//! process. Each round times each side in turn, on a batch of calls; printed are the medians of the rounds, in microseconds of processor
//! time, as tables in Markdown.
//! With --instructions the first table also has the instructions of one `intake_decide`, in thousands, as valgrind's callgrind counts them.
//! With --profile only `intake_decide` runs, N times on the row (the first is 0), for a profiler.

mod sheets;

use intake::{Call, WORK};
use oracle::Sheet;
use std::hint::black_box;
use std::process::Command;

/// What a batch should take, in microseconds.
const BATCH: f64 = 1_000.0;
const OUTPUT: usize = 65_536;

struct Memory {
    work: Vec<u32>,
    out: Vec<u8>,
}

impl Memory {
    fn decide(&mut self, text: &[u8]) -> u64 {
        // SAFETY: the pointers are those of slices of these lengths, borrowed for the call.
        unsafe {
            Call::Decide.word(
                text,
                self.work.as_mut_ptr(),
                self.work.len(),
                self.out.as_mut_ptr(),
                self.out.len(),
            )
        }
    }
}

/// A decision as the Rust makes it: a text that is no sheet is refused by serde.
fn by_rust(text: &[u8]) -> bool {
    std::str::from_utf8(text)
        .is_ok_and(|text| Sheet::read(text).is_ok_and(|sheet| oracle::decided(&sheet)))
}

fn parsed(text: &[u8]) -> bool {
    serde_json::from_slice::<serde_json::Value>(text).is_ok()
}

#[repr(C)]
struct Time {
    seconds: i64,
    nanoseconds: i64,
}

extern "C" {
    fn clock_gettime(clock: i32, time: *mut Time) -> i32;
}

/// This thread's processor time in microseconds, on Linux: other load on the machine does not count.
fn now() -> f64 {
    const OF_THREAD: i32 = 3;
    let mut time = Time {
        seconds: 0,
        nanoseconds: 0,
    };
    // SAFETY: the place is that of a time as C has it.
    unsafe { clock_gettime(OF_THREAD, &mut time) };
    time.seconds as f64 * 1e6 + time.nanoseconds as f64 / 1e3
}

/// Microseconds a call takes, over a batch of them.
fn timed(calls: usize, mut call: impl FnMut()) -> f64 {
    let start = now();
    for _ in 0..calls {
        call();
    }
    (now() - start) / calls as f64
}

fn median(mut times: Vec<f64>) -> f64 {
    times.sort_by(f64::total_cmp);
    times[times.len() / 2]
}

/// The medians of some things to time, a batch of each in turn.
fn interleaved<const N: usize>(rounds: usize, mut things: [&mut dyn FnMut(); N]) -> [f64; N] {
    let calls: Vec<usize> = things
        .iter_mut()
        .map(|thing| (BATCH / timed(3, &mut **thing).max(0.01)).clamp(1.0, 100_000.0) as usize)
        .collect();
    let mut times = [const { Vec::new() }; N];
    for _ in 0..rounds {
        for (index, thing) in things.iter_mut().enumerate() {
            times[index].push(timed(calls[index], &mut **thing));
        }
    }
    times.map(median)
}

/// The Rust, this, and serde_json's parse alone.
fn row(rounds: usize, memory: &mut Memory, text: &[u8]) -> [f64; 3] {
    interleaved(
        rounds,
        [
            &mut || {
                black_box(by_rust(black_box(text)));
            },
            &mut || {
                black_box(memory.decide(black_box(text)));
            },
            &mut || {
                black_box(parsed(black_box(text)));
            },
        ],
    )
}

fn zeroing(rounds: usize, memory: &mut Memory) -> f64 {
    let [time] = interleaved(
        rounds,
        [&mut || {
            memory.work.fill(0);
            black_box(&mut memory.work);
        }],
    );
    time
}

/// The instructions of one `intake_decide` on a row, in a process of its own under callgrind.
fn counted(at: usize) -> u64 {
    let this = std::env::current_exe().expect("this program has a path");
    let done = Command::new("valgrind")
        .args([
            "--tool=callgrind",
            "--toggle-collect=intake_decide",
            "--callgrind-out-file=/dev/null",
        ])
        .arg(this)
        .args(["--rounds", "1", "--profile", &at.to_string()])
        .output()
        .expect("valgrind runs");
    let told = String::from_utf8_lossy(&done.stderr);
    let count = told
        .lines()
        .find_map(|line| line.split_once("Collected : "));
    count
        .and_then(|(_, count)| count.trim().parse().ok())
        .unwrap_or_else(|| panic!("callgrind tells no count: {told}"))
}

fn run(rounds: usize, instructions: bool) {
    let mut memory = Memory {
        work: vec![0; WORK],
        out: vec![0; OUTPUT],
    };
    let (title, line) = if instructions {
        (" instructions |", "--:|")
    } else {
        ("", "")
    };
    println!("| sheet | bytes | number | Rust | here | parse alone | here / Rust | here / parse |{title}\n|---|--:|--:|--:|--:|--:|--:|--:|{line}");
    for (at, (name, text)) in sheets::rows().into_iter().enumerate() {
        let (number, _) = intake::parts_of(memory.decide(&text));
        let [rust, here, parse] = row(rounds, &mut memory, &text);
        let count = if instructions {
            format!(" {:.1} |", counted(at) as f64 / 1e3)
        } else {
            String::new()
        };
        println!(
            "| {name} | {} | {number} | {rust:.2} | {here:.2} | {parse:.2} | {:.2} | {:.2} |{count}",
            text.len(),
            here / rust,
            here / parse
        );
    }
    println!(
        "\nZeroing 64 KiB alone: {:.2}\n",
        zeroing(rounds, &mut memory)
    );
    println!("| growing | size | bytes | Rust | here | parse alone |\n|---|--:|--:|--:|--:|--:|");
    for (name, series) in sheets::series() {
        for (size, text) in series {
            let [rust, here, parse] = row(rounds, &mut memory, text.as_bytes());
            println!(
                "| {name} | {size} | {} | {rust:.2} | {here:.2} | {parse:.2} |",
                text.len()
            );
        }
    }
}

fn profile(count: usize, at: usize) {
    let mut memory = Memory {
        work: vec![0; WORK],
        out: vec![0; OUTPUT],
    };
    let (name, text) = sheets::rows().swap_remove(at);
    for _ in 0..count {
        black_box(memory.decide(black_box(&text)));
    }
    println!("{name}: {count} times");
}

fn main() {
    let arguments: Vec<String> = std::env::args().skip(1).collect();
    let option = |name: &str| {
        let at = arguments.iter().position(|argument| argument == name)?;
        arguments.get(at + 1)?.parse::<usize>().ok()
    };
    let (rounds, row) = (option("--rounds").unwrap_or(101), option("--profile"));
    let instructions = arguments
        .iter()
        .any(|argument| argument == "--instructions");
    let body = move || row.map_or_else(|| run(rounds, instructions), |row| profile(rounds, row));
    std::thread::Builder::new()
        .stack_size(oracle::STACK)
        .spawn(body)
        .expect("a thread starts")
        .join()
        .expect("nothing panics");
}
