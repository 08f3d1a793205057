//! again [PAIRS] [SEED]: random pairs of an old sheet and one in which readings were erased, each decided by the library, and held to the third demand. A
//! pair that breaks it is printed as small as it can be made, and the run fails.

mod demand;
mod erase;
mod line;
mod mix;
mod pair;
mod readings;
mod shrink;
mod value;

use generate::random::Random;
use mix::Mix;
use pair::{Noise, Pair};
use std::process::ExitCode;
use std::sync::atomic::{AtomicBool, Ordering};
use std::time::Instant;

const THREADS: u64 = 2;
/// So many sheets are drawn for one pair at most.
const DRAWS: u64 = 1_000;
/// So many percent of the pairs in which no reading changed are not used, so that most have lost one.
const SAME: usize = 50;
/// A run of fewer pairs need not meet every number and form.
const MANY: u64 = 5_000;

/// A pair whose old sheet is clean.
fn drawn(random: &mut Random) -> Option<Pair> {
    let mut old = generate::decision(random);
    if !readings::is_clean(&old) {
        return None;
    }
    let readings = readings::readings(&old);
    let mut new = erase::erased(random, &old, &readings);
    if random.chance(SAME) && demand::premises(&readings, &old, &new).is_some_and(|became| !became.changed) {
        return None;
    }
    for sheet in [&mut old, &mut new] {
        if random.chance(60) {
            erase::shuffle(random, sheet);
        }
    }
    let (spaces, escapes) = (random.pick(&[&0, &0, &15]), random.pick(&[&0, &0, &8]));
    Some(Pair::spelled(random, old, new, *spaces, *escapes))
}

/// The pair at an index, the same in every run with the seed; an error where the demand is broken.
fn one_pair(noise: &Noise, mix: &mut Mix, seed: u64, index: u64) -> Result<(), Pair> {
    let mut random = Random::new(Random::new(seed).next() ^ index.wrapping_mul(0x2545_f491_4f6c_dd1d));
    for _ in 0..DRAWS {
        mix.drawn += 1;
        let Some(pair) = drawn(&mut random) else {
            continue;
        };
        let readings = pair.readings();
        if let Some(judged) = pair.judged(noise, &mut random, &readings) {
            mix.add(&pair, &readings, &judged);
            return if judged.wrong.is_some() { Err(pair) } else { Ok(()) };
        }
    }
    panic!("no pair of which the premises hold in {DRAWS} draws");
}

/// All pairs, shared out among threads; the first that breaks the demand.
fn all(pairs: u64, seed: u64) -> Result<Mix, Pair> {
    let (stop, noise) = (AtomicBool::new(false), Noise::new(seed));
    let work = |first: u64| {
        let mut mix = Mix::default();
        for index in (first..pairs).step_by(THREADS as usize) {
            if stop.load(Ordering::Relaxed) {
                break;
            }
            one_pair(&noise, &mut mix, seed, index).inspect_err(|_| stop.store(true, Ordering::Relaxed))?;
        }
        Ok(mix)
    };
    std::thread::scope(|scope| {
        let threads: Vec<_> = (0..THREADS).map(|first| scope.spawn(move || work(first))).collect();
        let mut all = Mix::default();
        for thread in threads {
            all.merge(thread.join().expect("no thread panics")?);
        }
        Ok(all)
    })
}

fn run(pairs: u64, seed: u64) -> ExitCode {
    let start = Instant::now();
    let mix = match all(pairs, seed) {
        Ok(mix) => mix,
        Err(pair) => {
            println!("{}", shrink::smallest(pair));
            return ExitCode::FAILURE;
        }
    };
    mix.print();
    if pairs >= MANY && !mix.is_meaningful() {
        println!("the pairs ask too little");
        return ExitCode::FAILURE;
    }
    let (drawn, seconds) = (mix.drawn, start.elapsed().as_secs_f64());
    println!("{pairs} pairs of {drawn} drawn, seed {seed}: the third demand holds of each ({seconds:.0} s)");
    ExitCode::SUCCESS
}

fn main() -> ExitCode {
    let numbers: Result<Vec<u64>, _> = std::env::args().skip(1).map(|word| word.parse()).collect();
    match numbers.as_deref() {
        Ok([]) => run(20_000, 1),
        Ok([pairs]) => run(*pairs, 1),
        Ok([pairs, seed]) => run(*pairs, *seed),
        _ => {
            eprintln!("usage: again [PAIRS] [SEED]");
            ExitCode::from(2)
        }
    }
}
