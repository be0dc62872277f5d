//! The bench program of document 01: what it writes for a script.

use crate::layout::{OBJECTS, part};
use crate::model::{self, Answer};
use std::fmt::Write;

/// A script has at most this many bytes.
pub const LONGEST: usize = 8192;
/// A script has at most this many acts.
pub const MOST_ACTS: u32 = 500;
/// The highest number a script may state.
const HIGHEST: u32 = 65535;

/// A script that was checked whole.
#[derive(Debug, PartialEq, Eq)]
pub struct Script {
    /// The home lines, each run as MAKE.
    pub homes: Vec<u32>,
    /// The acts: code, A, o, B.
    pub acts: Vec<[u32; 4]>,
}

/// The number of the first faulty or missing line, from 1.
#[derive(Debug, PartialEq, Eq)]
pub struct Bad(pub usize);

/// All that the program writes for an input: LONG, BAD and a line number, or the answers.
pub fn output(input: &[u8]) -> String {
    if input.len() > LONGEST {
        return "LONG\n".to_string();
    }
    match read(input) {
        Err(Bad(line)) => format!("BAD {line}\n"),
        Ok(script) => print(&script, &run(&script)),
    }
}

/// Reads a whole script: two sections, each after its count, and nothing after the last line.
pub fn read(input: &[u8]) -> Result<Script, Bad> {
    let mut lines = Lines { rest: input, number: 0 };
    let mut script = Script { homes: Vec::new(), acts: Vec::new() };
    let objects = lines.next(|line| count(line, b"OBJECTS ", OBJECTS as u32))?;
    for _ in 0..objects {
        script.homes.push(lines.next(number)?);
    }
    let acts = lines.next(|line| count(line, b"ACTS ", MOST_ACTS))?;
    for _ in 0..acts {
        script.acts.push(lines.next(four_numbers)?);
    }
    lines.end()?;
    Ok(script)
}

/// The lines of a script that are still to be read.
struct Lines<'a> {
    rest: &'a [u8],
    /// The number of the line read last.
    number: usize,
}

impl Lines<'_> {
    /// Takes the next line. It is bad if no LF ends it or the reader finds it faulty.
    fn next<T>(&mut self, reader: impl Fn(&[u8]) -> Option<T>) -> Result<T, Bad> {
        self.number += 1;
        let bad = Bad(self.number);
        let Some(end) = self.rest.iter().position(|&byte| byte == b'\n') else {
            return Err(bad);
        };
        let line = &self.rest[..end];
        self.rest = &self.rest[end + 1..];
        reader(line).ok_or(bad)
    }

    /// Nothing follows the last line: anything else is a line too many.
    fn end(&self) -> Result<(), Bad> {
        if self.rest.is_empty() { Ok(()) } else { Err(Bad(self.number + 1)) }
    }
}

/// A count line: its word, one space, and a number of at most `most`.
fn count(line: &[u8], word: &[u8], most: u32) -> Option<u32> {
    let count = number(line.strip_prefix(word)?)?;
    (count <= most).then_some(count)
}

/// An act line: four numbers with one space between.
fn four_numbers(line: &[u8]) -> Option<[u32; 4]> {
    let words: Vec<&[u8]> = line.split(|&byte| byte == b' ').collect();
    match words[..] {
        [code, a, o, b] => Some([number(code)?, number(a)?, number(o)?, number(b)?]),
        _ => None,
    }
}

/// A decimal number from 0 to 65535 with no leading zero.
fn number(word: &[u8]) -> Option<u32> {
    if word.is_empty() || (word[0] == b'0' && word.len() > 1) {
        return None;
    }
    let mut value = 0;
    for &digit in word {
        if !digit.is_ascii_digit() {
            return None;
        }
        value = 10 * value + u32::from(digit - b'0');
        if value > HIGHEST {
            return None;
        }
    }
    Some(value)
}

/// Runs home lines as MAKE, then the acts, on one store, fresh at the start.
pub fn run(script: &Script) -> Vec<Answer> {
    let mut store = vec![0; part::SIZE];
    model::start(&mut store);
    let makes = script.homes.iter().map(|&home| [1, home, 0, 0]);
    let acts = makes.chain(script.acts.iter().copied());
    acts.map(|[code, a, o, b]| model::act(&mut store, code, a, o, b)).collect()
}

/// The output: OBJECTS n and n answers, ANSWERS m and m answers.
fn print(script: &Script, answers: &[Answer]) -> String {
    let (made, acted) = answers.split_at(script.homes.len());
    let mut text = String::new();
    for (word, section) in [("OBJECTS", made), ("ANSWERS", acted)] {
        writeln!(text, "{word} {}", section.len()).expect("a string takes every line");
        for answer in section {
            writeln!(text, "{} {}", answer.refusal, answer.value)
                .expect("a string takes every line");
        }
    }
    text
}

#[cfg(test)]
mod tests {
    use super::*;

    /// Document 01's script, whole.
    const SCRIPT: &str = "OBJECTS 1\n0\nACTS 9\n2 0 0 1\n7 0 0 0\n5 0 0 1\n4 1 0 0\n9 0 0 0\n7 0 0 0\n6 1 0 0\n6 1 0 0\n7 0 0 0\n";

    #[test]
    fn the_worked_script() {
        let out = "OBJECTS 1\n0 0\nANSWERS 9\n0 0\n0 0\n0 0\n0 0\n0 2\n0 0\n0 0\n0 0\n0 1\n";
        assert_eq!(output(SCRIPT.as_bytes()), out);
    }

    #[test]
    fn a_script_cut_anywhere_is_bad_in_the_line_of_the_cut() {
        for cut in 0..SCRIPT.len() {
            let line = 1 + SCRIPT[..cut].matches('\n').count();
            assert_eq!(output(&SCRIPT.as_bytes()[..cut]), format!("BAD {line}\n"));
        }
    }

    #[test]
    fn nothing_follows_the_last_line() {
        for more in ["\n", " ", "0", "7 0 0 0\n", "7 0 0 0\n7 0 0 0\n", "\0", "\r\n"] {
            assert_eq!(output(format!("{SCRIPT}{more}").as_bytes()), "BAD 13\n");
        }
    }

    #[test]
    fn counts_have_their_limits_and_no_other_form() {
        assert_eq!(output(b"OBJECTS 0\nACTS 0\n"), "OBJECTS 0\nANSWERS 0\n");
        for head in ["OBJECTS 65", "OBJECTS 00", "OBJECTS 01", "OBJECTS  1", "OBJECTS", "OBJECTS "]
        {
            assert_eq!(output(format!("{head}\nACTS 0\n").as_bytes()), "BAD 1\n");
        }
        for head in [
            "ACTS 501",
            "ACTS 00",
            "ACTS -0",
            "ACTS +0",
            "ACTS 0 ",
            "ACTS 0\r",
            "acts 0",
            "ANSWERS 0",
        ] {
            assert_eq!(output(format!("OBJECTS 0\n{head}\n").as_bytes()), "BAD 2\n");
        }
    }

    #[test]
    fn numbers_reach_65535_and_end_there() {
        assert_eq!(output(b"OBJECTS 1\n65535\nACTS 0\n"), "OBJECTS 1\n3 0\nANSWERS 0\n");
        let long = "9".repeat(5000);
        for word in ["65536", "4294967296", "4294967297", "18446744073709551616", long.as_str()] {
            assert_eq!(output(format!("OBJECTS 1\n{word}\nACTS 0\n").as_bytes()), "BAD 2\n");
            assert_eq!(output(format!("OBJECTS 0\nACTS 1\n9 0 0 {word}\n").as_bytes()), "BAD 3\n");
        }
    }

    #[test]
    fn long_is_looked_at_first() {
        assert_eq!(output(&[b'x'; LONGEST]), "BAD 1\n");
        assert_eq!(output(&[b'x'; LONGEST + 1]), "LONG\n");
        assert_eq!(output(b""), "BAD 1\n");
    }
}
