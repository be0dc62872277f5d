//! `compare [SEED [COUNT [FILE]]]`: compares the library with the second program.
//! Built without the feature `library` it compares the second program with itself.
//! On a difference the store before the call is written to FILE, if one is named.

use second::compare::{Implementation, compare};
use second::pairs::{Met, listed};
use std::env;
use std::fs;
use std::process::ExitCode;
use std::time::Instant;

/// The calls of a run that names no count.
const COUNT: u64 = 1_000_000;

#[cfg(feature = "library")]
mod library {
    use second::model::Answer;
    unsafe extern "C" {
        pub fn szalwinek_start(store: *mut u8, len: usize) -> Answer;
        pub fn szalwinek_act(
            store: *mut u8,
            len: usize,
            code: u32,
            a: u32,
            o: u32,
            b: u32,
        ) -> Answer;
    }
}

/// The other side: the library.
#[cfg(feature = "library")]
const FOREIGN: Implementation =
    Implementation { start: library::szalwinek_start, act: library::szalwinek_act };

/// The other side: the second program itself.
#[cfg(not(feature = "library"))]
const FOREIGN: Implementation = second::compare::OURS;

/// What the other side is.
const SIDE: &str = if cfg!(feature = "library") { "the library" } else { "itself" };

/// Runs the comparison; fails on a difference and on a pair that was not met.
fn main() -> ExitCode {
    let arguments: Vec<String> = env::args().skip(1).collect();
    let number = |at: usize, default: u64| match arguments.get(at) {
        Some(word) => word.parse().ok(),
        None => Some(default),
    };
    let (Some(seed), Some(count), true) = (number(0, 1), number(1, COUNT), arguments.len() <= 3)
    else {
        eprintln!("usage: compare [SEED [COUNT [FILE]]]");
        return ExitCode::FAILURE;
    };
    let begin = Instant::now();
    match compare(FOREIGN, seed, count) {
        Ok(met) => report(&met, seed, count, begin.elapsed().as_secs()),
        Err(difference) => {
            println!("DIFFERENT from {SIDE}, seed {seed}, {}", difference.text);
            if let Some(file) = arguments.get(2)
                && let Err(error) = fs::write(file, &difference.before)
            {
                eprintln!("{file}: {error}");
            }
            ExitCode::FAILURE
        }
    }
}

/// Prints how often each listed pair was met, then what is wrong with the list.
fn report(met: &Met, seed: u64, count: u64, seconds: u64) -> ExitCode {
    for line in listed() {
        println!("{:>9}  {line}", met.times(line));
    }
    let faults = met.faults();
    for fault in &faults {
        println!("{fault}");
    }
    println!(
        "compared with {SIDE}, seed {seed}, {count} calls, {seconds} s: no difference, {} faults of the list",
        faults.len()
    );
    if faults.is_empty() { ExitCode::SUCCESS } else { ExitCode::FAILURE }
}
