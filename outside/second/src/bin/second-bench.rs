//! The second program's bench: a script from standard input, its answers to standard output.

use second::bench;
use std::io::{self, Read, Write};
use std::process::ExitCode;

/// Reads at most one byte more than a script may have; a read error counts as the end of input.
fn main() -> ExitCode {
    let mut input = Vec::new();
    let _ = io::stdin().take(bench::LONGEST as u64 + 1).read_to_end(&mut input);
    match io::stdout().write_all(bench::output(&input).as_bytes()) {
        Ok(()) => ExitCode::SUCCESS,
        Err(_) => ExitCode::FAILURE,
    }
}
