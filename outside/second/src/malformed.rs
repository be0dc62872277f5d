//! Malformed scripts of every kind, each from a valid one.

use crate::dice::Dice;
use crate::scripts::{Script, text};

/// A valid script's lines.
const LINES: [&str; 7] = ["OBJECTS 2", "0", "7", "ACTS 3", "2 0 0 1", "5 0 0 1", "7 0 0 0"];
/// The lines that get each fault: both counts, a home, an act, the last act.
const FAULTY: [usize; 5] = [0, 1, 3, 4, 6];

/// Ways to write a line's last number that no script may have.
const NUMBERS: [&str; 21] = [
    "",
    "00",
    "01",
    "007",
    "+0",
    "-0",
    "-1",
    "+1",
    "0x1",
    "1e0",
    "1.0",
    "1,0",
    "1_0",
    "a",
    "\u{663}",
    "65536",
    "65537",
    "99999",
    "4294967296",
    "4294967297",
    "18446744073709551616",
];

/// What may stand before a line, after it, or between its words, and makes it faulty.
const BYTES: [(&str, &[u8]); 10] = [
    ("a space", b" "),
    ("a tab", b"\t"),
    ("a CR", b"\r"),
    ("a NUL", b"\0"),
    ("a vertical tab", b"\x0b"),
    ("a form feed", b"\x0c"),
    ("byte 128", b"\x80"),
    ("byte 160", b"\xa0"),
    ("byte 255", b"\xff"),
    ("a semicolon", b";"),
];

/// All malformed scripts.
pub fn scripts() -> Vec<Script> {
    let mut all = Vec::new();
    for at in FAULTY {
        all.extend(numbers(at));
        all.extend(bytes(at));
        all.extend(whole_line(at));
    }
    all.extend(words());
    all.extend(lines());
    all.extend((0..60).map(changed));
    all
}

/// The lines as a script, each ended by LF.
fn joined(lines: &[Vec<u8>]) -> Vec<u8> {
    lines.iter().flat_map(|line| [line, &b"\n"[..]].concat()).collect()
}

/// The valid lines.
fn valid() -> Vec<Vec<u8>> {
    LINES.iter().map(|line| line.as_bytes().to_vec()).collect()
}

/// The valid script with one line replaced, which is bad in that line.
fn replaced(what: &str, at: usize, line: Vec<u8>) -> Script {
    let mut lines = valid();
    lines[at] = line;
    Script::bad(format!("{what} in line {}", at + 1), joined(&lines), at + 1)
}

/// A line without its last word.
fn without_last(line: &str) -> &str {
    line.trim_end_matches(|c: char| c.is_ascii_digit())
}

/// A line's last number in a form that is none, or too high.
fn numbers(at: usize) -> Vec<Script> {
    let head = without_last(LINES[at]);
    let mut all = Vec::new();
    for number in NUMBERS {
        all.push(replaced(&format!("number {number:?}"), at, format!("{head}{number}").into()));
    }
    for (what, digit) in [("nines", "9"), ("zeros", "0")] {
        let number = digit.repeat(6000);
        all.push(replaced(&format!("6,000 {what}"), at, format!("{head}{number}").into()));
    }
    if at == 0 || at == 3 {
        all.push(replaced("count 65535", at, format!("{head}65535").into()));
    }
    all
}

/// A line with a byte too many before it, after it, or in place of its last space.
fn bytes(at: usize) -> Vec<Script> {
    let line = LINES[at].as_bytes();
    let mut all = Vec::new();
    for (what, byte) in BYTES {
        all.push(replaced(&format!("{what} before"), at, [byte, line].concat()));
        all.push(replaced(&format!("{what} after"), at, [line, byte].concat()));
        if let Some(space) = line.iter().rposition(|&byte| byte == b' ') {
            let (head, tail) = (&line[..space], &line[space + 1..]);
            all.push(replaced(
                &format!("{what} more between"),
                at,
                [head, b" ", byte, tail].concat(),
            ));
            if byte != b" " {
                all.push(replaced(&format!("{what} between"), at, [head, byte, tail].concat()));
            }
        }
    }
    all
}

/// A line that is empty, has a word too many or too few, or is cut by the end of the script.
fn whole_line(at: usize) -> Vec<Script> {
    let line = LINES[at];
    let mut cut = joined(&valid()[..=at]);
    cut.pop();
    let mut all = vec![
        replaced("nothing", at, Vec::new()),
        replaced("a number more", at, format!("{line} 0").into()),
        replaced("a number fewer", at, without_last(line).trim_end().into()),
        replaced("a comment", at, format!("{line} # 1").into()),
        Script::bad(format!("LF missing after line {}", at + 1), cut, at + 1),
        Script::bad(format!("end before line {}", at + 1), joined(&valid()[..at]), at + 1),
    ];
    if line.contains(' ') {
        all.push(replaced("no space", at, line.replace(' ', "").into()));
    }
    all
}

/// Count lines with another word.
fn words() -> Vec<Script> {
    let mut all = Vec::new();
    for line in
        ["objects 2", "Objects 2", "OBJECT 2", "OBJECTSS 2", "ACTS 2", "2", "\u{feff}OBJECTS 2"]
    {
        all.push(replaced(&format!("{line:?}"), 0, line.into()));
    }
    for line in ["acts 3", "ACT 3", "ACTSS 3", "ANSWERS 3", "OBJECTS 3", "3", "LONG", "BAD 4"] {
        all.push(replaced(&format!("{line:?}"), 3, line.into()));
    }
    all
}

/// Lines too many or too few, CR LF throughout, and faults in more than one line.
fn lines() -> Vec<Script> {
    let valid = valid();
    let with = |at: usize, line: &str| {
        let mut lines = valid.clone();
        lines.insert(at, line.into());
        joined(&lines)
    };
    let without = |at: usize| {
        let mut lines = valid.clone();
        lines.remove(at);
        joined(&lines)
    };
    let bad = |what: &str, bytes: Vec<u8>, line| Script::bad(what.to_string(), bytes, line);
    let all = joined(&valid);
    let crlf = valid.iter().flat_map(|line| [line, &b"\r\n"[..]].concat()).collect();
    let cr = valid.iter().flat_map(|line| [line, &b"\r"[..]].concat()).collect();
    vec![
        bad("a home line too many", with(2, "1"), 4),
        bad("a home line too few", without(1), 3),
        bad("an act too many", with(5, "9 0 0 0"), 8),
        bad("an act too few", without(5), 7),
        bad("no first line", without(0), 1),
        bad("no ACTS line", without(3), 4),
        bad("an empty line first", with(0, ""), 1),
        bad("an empty line between", with(3, ""), 4),
        bad("an empty line last", with(7, ""), 8),
        bad("a space after the last LF", [&all[..], b" "].concat(), 8),
        bad("a NUL after the last LF", [&all[..], b"\0"].concat(), 8),
        bad("a line without LF after the last", [&all[..], b"9 0 0 0"].concat(), 8),
        bad("the script twice", all.repeat(2), 8),
        bad("CR LF throughout", crlf, 1),
        bad("CR throughout", cr, 1),
        bad("CR LF at the end alone", [&all[..all.len() - 1], b"\r\n"].concat(), 7),
        bad("an act line in the first section", with(1, "2 0 0 1"), 2),
        bad("sections in the other order", b"ACTS 1\n9 0 0 0\nOBJECTS 1\n0\n".to_vec(), 1),
        bad(
            "faults in lines 3 and 6",
            b"OBJECTS 2\n0\n00\nACTS 3\n2 0 0 1\nx\n7 0 0 0\n".to_vec(),
            3,
        ),
        bad("a fault in line 2, the last LF missing", b"OBJECTS 1\n-1\nACTS 0".to_vec(), 2),
        bad("only OBJECTS 0", b"OBJECTS 0\n".to_vec(), 2),
        bad("ACTS 0 with an act", b"OBJECTS 0\nACTS 0\n9 0 0 0\n".to_vec(), 3),
        bad("OBJECTS 0 with a home", b"OBJECTS 0\n0\nACTS 0\n".to_vec(), 2),
        bad(
            "five numbers, the first alone valid",
            b"OBJECTS 0\nACTS 1\n1 0 0 0 65536\n".to_vec(),
            3,
        ),
    ]
}

/// A short valid script with one or two bytes changed, put in or taken out at random.
fn changed(seed: u64) -> Script {
    let mut dice = Dice::new(2000 + seed);
    let homes: Vec<u32> = (0..dice.below(4)).map(|_| dice.below(9) as u32).collect();
    let acts: Vec<[u32; 4]> =
        (0..dice.below(12)).map(|_| [11, 9, 3, 9].map(|end| dice.below(end + 1) as u32)).collect();
    let mut bytes = text(&homes, &acts);
    for _ in 0..1 + dice.below(2) {
        let at = dice.below(bytes.len());
        let byte = dice.pick(b"0123456789 \n\r\t+-\0\xffAO");
        match dice.below(3) {
            0 => bytes[at] = byte,
            1 => bytes.insert(at, byte),
            _ => drop(bytes.remove(at)),
        }
    }
    Script::new(format!("bytes changed at random {seed}"), bytes)
}
