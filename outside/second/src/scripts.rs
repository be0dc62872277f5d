//! Scripts for the bench, the same at every run: document 01's cases, deep ones, ones at a limit
//! and malformed ones of every kind.

use crate::bench::{LONGEST, MOST_ACTS};
use crate::cases::{self, COPY, DELIVER, DROP, HEAR, MAKE, SEND, SETTLE};
use crate::dice::Dice;
use crate::layout::{OBJECTS, PORTS, part};
use crate::malformed;
use crate::model;
use crate::steer::Steer;

/// A script, what it is there for, and the output where that is plain from how it was made.
pub struct Script {
    pub what: String,
    pub bytes: Vec<u8>,
    pub output: Option<String>,
}

impl Script {
    /// A script whose output the model has to find.
    pub fn new(what: String, bytes: Vec<u8>) -> Script {
        Script { what, bytes, output: None }
    }

    /// A script that is bad in a line.
    pub fn bad(what: String, bytes: Vec<u8>, line: usize) -> Script {
        Script { what, bytes, output: Some(format!("BAD {line}\n")) }
    }

    /// A script that is too long.
    pub fn long(what: &str, bytes: Vec<u8>) -> Script {
        Script { what: what.to_string(), bytes, output: Some("LONG\n".to_string()) }
    }
}

/// All scripts, in the order of their numbers.
pub fn scripts() -> Vec<Script> {
    let mut all = Vec::new();
    all.extend(cases::cases().iter().map(case));
    all.extend(directed());
    all.extend((0..60).map(deep));
    all.extend(at_limits());
    all.extend(malformed::scripts());
    all
}

/// A script's text.
pub fn text(homes: &[u32], acts: &[[u32; 4]]) -> Vec<u8> {
    let mut lines = vec![format!("OBJECTS {}", homes.len())];
    lines.extend(homes.iter().map(u32::to_string));
    lines.push(format!("ACTS {}", acts.len()));
    lines.extend(acts.iter().map(|[code, a, o, b]| format!("{code} {a} {o} {b}")));
    lines.iter().flat_map(|line| [line.as_bytes(), b"\n"].concat()).collect()
}

/// A case of document 01.
fn case(case: &cases::Case) -> Script {
    let homes: &[u32] = if case.made { &[0] } else { &[] };
    let acts: Vec<[u32; 4]> = case.steps.iter().map(|&(act, _)| act).collect();
    Script::new(format!("case {}", case.number), text(homes, &acts))
}

/// Ways to a limit that takes many acts in one direction, for some ports.
fn directed() -> Vec<Script> {
    let mut all = Vec::new();
    for (home, away) in [(0, 1), (7, 0), (3, 6)] {
        let first = [[SEND, home, 0, away], [DELIVER, home, 0, away], [HEAR, away, 0, home]];
        let copies = [[COPY, away, 0, 0], [HEAR, away, 0, home]].repeat(199);
        let refused = [[COPY, away, 0, 0], [SEND, home, 0, away], [10, away, 0, 0], [7, 0, 0, 0]];
        let acts = [first.to_vec(), copies, refused.to_vec()].concat();
        let what = format!("port {away} holds 200 and so gets 8, home {home}");
        all.push(Script::new(what, text(&[home], &acts)));

        let copies = vec![[COPY, home, 0, 0]; 199];
        let refused =
            [[SEND, away, 0, home], [DROP, home, 0, 0], [SEND, away, 0, home], [COPY, home, 0, 0]];
        let more = [[DROP, home, 0, 0], [COPY, home, 0, 0], [DELIVER, away, 0, home], [8, 0, 0, 0]];
        let acts = [first.to_vec(), copies, refused.to_vec(), more.to_vec()].concat();
        let what = format!("home {home} holds 200: a pointer to it gets 8, one on its way counts");
        all.push(Script::new(what, text(&[home], &acts)));

        let to_all = |from: u32| (0..PORTS as u32).filter(move |&to| to != from);
        let sends: Vec<[u32; 4]> =
            to_all(home).flat_map(|to| vec![[SEND, home, 0, to]; 17]).collect();
        let asks = vec![[SETTLE, 0, 0, 0], [7, 0, 0, 0], [8, 0, 0, 0]];
        let arrive: Vec<[u32; 4]> =
            to_all(home).flat_map(|to| vec![[DELIVER, home, 0, to]; 17]).collect();
        let acts = [sends, asks.clone(), arrive, asks].concat();
        let what = format!("home {home} fills all its pointer lanes");
        all.push(Script::new(what, text(&[home], &acts)));

        let chatter = [[COPY, away, 0, 0], [DROP, away, 0, 0], [SEND, away, 0, 5]].repeat(11);
        let full = [
            [DROP, away, 0, 0],
            [SEND, away, 0, 4],
            [SEND, home, 0, away],
            [DELIVER, home, 0, away],
        ];
        let heard = vec![[HEAR, away, 0, home]; 33];
        let acts = [first.to_vec(), chatter, full.to_vec(), heard, full.to_vec()].concat();
        let what = format!("port {away} fills its report lane to home {home}");
        all.push(Script::new(what, text(&[home], &acts)));

        let acts = [
            vec![[MAKE, home, 0, 0]; 66],
            vec![[DROP, home, 9, 0], [8, 0, 9, 0], [MAKE, away, 0, 0]],
        ];
        let what = format!("all objects in use at home {home}, one number given out again");
        all.push(Script::new(what, text(&[], &acts.concat())));
    }
    all
}

/// A random script, its acts steered by the store that it leads to.
fn deep(seed: u64) -> Script {
    let mut dice = Dice::new(1000 + seed);
    let homes: Vec<u32> = match dice.below(4) {
        0 => vec![dice.below(PORTS) as u32],
        1 => (0..OBJECTS).map(|_| dice.below(PORTS + 1) as u32).collect(),
        _ => (0..1 + dice.below(12)).map(|_| dice.below(PORTS) as u32).collect(),
    };
    let mut store = vec![0; part::SIZE];
    model::start(&mut store);
    for &home in &homes {
        model::act(&mut store, MAKE, home, 0, 0);
    }
    let mut acts = Vec::new();
    let mut bytes = text(&homes, &[]).len() + 2;
    let most =
        if dice.once_in(2) { MOST_ACTS as usize } else { 1 + dice.below(MOST_ACTS as usize) };
    'script: loop {
        let steer = Steer::new(&store, 65535, &mut dice);
        for _ in 0..50 + dice.below(250) {
            let numbers = steer.next(&store, &mut dice);
            bytes += text(&[], &[numbers]).len() - text(&[], &[]).len();
            if acts.len() == most || bytes > LONGEST {
                break 'script;
            }
            acts.push(numbers);
            model::act(&mut store, numbers[0], numbers[1], numbers[2], numbers[3]);
        }
    }
    Script::new(format!("deep {seed}"), text(&homes, &acts))
}

/// A valid script of 64 home lines and 500 acts that has a given number of bytes.
pub fn of_size(bytes: usize) -> Vec<u8> {
    let homes: Vec<u32> = (0..OBJECTS as u32).map(|object| object % PORTS as u32).collect();
    let mut acts: Vec<[u32; 4]> =
        (0..MOST_ACTS).map(|at| [SETTLE, at % 10, at % 7, at % 8]).collect();
    // SETTLE names none of its numbers: each may be made longer by up to four digits.
    let mut missing = bytes - text(&homes, &acts).len();
    for act in &mut acts {
        for number in &mut act[1..] {
            let more = missing.min(4);
            *number = [*number, 10 + *number, 100 + *number, 1000 + *number, 65526 + *number][more];
            missing -= more;
        }
    }
    text(&homes, &acts)
}

/// Scripts at a limit of the bench.
fn at_limits() -> Vec<Script> {
    let full = of_size(LONGEST);
    let lines = 2 + OBJECTS + MOST_ACTS as usize;
    let mut faulty_end = full.clone();
    faulty_end[LONGEST - 2] = b'x';
    let seven = text(&[0], &vec![[7, 0, 0, 0]; 500]);
    let named = |what: &str, bytes: Vec<u8>| Script::new(what.to_string(), bytes);
    let bad = |what: &str, bytes: Vec<u8>, line| Script::bad(what.to_string(), bytes, line);
    vec![
        bad("empty input", vec![], 1),
        bad("one LF", b"\n".to_vec(), 1),
        bad("one space", b" ".to_vec(), 1),
        bad("one NUL", b"\0".to_vec(), 1),
        named("OBJECTS 0 and ACTS 0", text(&[], &[])),
        named("OBJECTS 0", text(&[], &[[9, 0, 0, 0], [1, 4, 0, 0]])),
        named("ACTS 0", text(&[0, 7, 3], &[])),
        named("64 objects", text(&[6; 64], &[[1, 0, 0, 0]])),
        bad("65 objects", text(&[6; 65], &[[1, 0, 0, 0]]), 1),
        named("500 acts", seven.clone()),
        bad("501 acts", text(&[0], &vec![[7, 0, 0, 0]; 501]), 3),
        bad("500 acts and one more line", [seven.clone(), b"7 0 0 0\n".to_vec()].concat(), 504),
        bad("500 acts, the last LF missing", seven[..seven.len() - 1].to_vec(), 503),
        bad("500 acts announced, 499 given", seven[..seven.len() - 8].to_vec(), 503),
        named("homes above 7", text(&[7, 8, 0, 65535, 256, 263], &[[1, 0, 0, 0]])),
        named(
            "numbers of 65535",
            text(&[0], &[[65535; 4], [2, 65535, 0, 1], [2, 0, 65535, 1], [2, 0, 0, 65535]]),
        ),
        named(
            "ignored numbers of 65535",
            text(&[0], &[[1, 0, 65535, 65535], [9, 65535, 65535, 65535]]),
        ),
        named(
            "codes 256 above an act's",
            text(&[0], &[[257, 0, 0, 0], [263, 0, 0, 0], [0, 0, 0, 0]]),
        ),
        named("8,192 bytes", full.clone()),
        named("8,191 bytes", of_size(LONGEST - 1)),
        Script::long("8,193 bytes, else valid", of_size(LONGEST + 1)),
        Script::long("8,192 valid bytes and one LF", [full.clone(), b"\n".to_vec()].concat()),
        bad("8,192 bytes, the last line faulty", faulty_end, lines),
        bad("8,191 bytes, the last LF missing", full[..LONGEST - 1].to_vec(), lines),
        bad(
            "8,191 valid bytes and one LF",
            [of_size(LONGEST - 1), b"\n".to_vec()].concat(),
            lines + 1,
        ),
        bad(
            "8,191 valid bytes and one NUL",
            [of_size(LONGEST - 1), b"\0".to_vec()].concat(),
            lines + 1,
        ),
        bad("8,192 bytes without LF", vec![b'0'; LONGEST], 1),
        bad("8,192 LFs", vec![b'\n'; LONGEST], 1),
        Script::long("8,193 LFs: LONG and BAD", vec![b'\n'; LONGEST + 1]),
        Script::long("8,193 NULs: LONG and BAD", vec![0; LONGEST + 1]),
        Script::long("22,000 bytes: LONG and BAD", b"OBJECTS 01\n".repeat(2000)),
        Script::long("100,000 bytes: LONG and BAD", vec![b'9'; 100_000]),
    ]
}

#[cfg(test)]
mod tests {
    use super::*;
    use crate::bench::{self, output};
    use crate::pairs::{Met, listed, name};

    #[test]
    fn outputs_are_as_the_scripts_were_made() {
        for script in scripts() {
            if let Some(stated) = script.output {
                assert_eq!(output(&script.bytes), stated, "{}", script.what);
            }
        }
    }

    #[test]
    fn the_scripts_meet_every_pair_that_acts_can_reach() {
        let mut met = Met::default();
        for script in scripts() {
            let Ok(read) = bench::read(&script.bytes) else { continue };
            let answers = bench::run(&read);
            let codes = read.homes.iter().map(|_| MAKE).chain(read.acts.iter().map(|act| act[0]));
            for (code, answer) in codes.zip(answers) {
                met.note(format!("reached {} {}", name(code), answer.refusal));
            }
        }
        for line in listed().filter(|line| line.starts_with("reached ")) {
            assert!(met.times(line) > 0, "{line}");
        }
    }

    #[test]
    fn scripts_of_a_size_have_it() {
        for bytes in [LONGEST - 1, LONGEST, LONGEST + 1] {
            assert_eq!(of_size(bytes).len(), bytes);
            assert!(bench::read(&of_size(bytes)).is_ok());
        }
    }
}
