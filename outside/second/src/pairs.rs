//! What a comparison has met: pairs of an act and its refusal, and the ways to meet some of them.
//! `pairs.txt` lists all that must be met; nothing that it does not list may be met.

use crate::layout::{Event, LEAST_TRANSIT, MOST_HELD, Machine, PORTS};
use crate::model::Answer;
use crate::steer::ACTS;
use std::collections::BTreeMap;

/// The list, as it stands beside the sources.
const LIST: &str = include_str!("../pairs.txt");

/// The lines of the list without its comments.
pub fn listed() -> impl Iterator<Item = &'static str> {
    LIST.lines().filter(|line| !line.is_empty() && !line.starts_with('#'))
}

/// How often each pair or way was met.
#[derive(Default)]
pub struct Met(BTreeMap<String, u64>);

impl Met {
    /// Counts one meeting.
    pub fn note(&mut self, line: String) {
        *self.0.entry(line).or_default() += 1;
    }

    /// Counts an act's answer; `store` is the store after it.
    pub fn note_act(&mut self, store: &[u8], numbers: [u32; 4], answer: Answer) {
        let pair = format!("{} {}", name(numbers[0]), answer.refusal);
        if let Some(way) = way(store, numbers, answer) {
            self.note(format!("{pair}: {way}"));
        }
        self.note(pair);
    }

    /// Counts which later checks applied together with the first that did.
    pub fn note_order(&mut self, code: u32, rules: &[u32]) {
        if let Some((first, later)) = rules.split_first() {
            for other in later {
                self.note(format!("{} {first} before {other}", name(code)));
            }
        }
    }

    /// How often a line was met.
    pub fn times(&self, line: &str) -> u64 {
        self.0.get(line).copied().unwrap_or(0)
    }

    /// What is wrong: lines of the list that were not met, and meetings that it does not list.
    pub fn faults(&self) -> Vec<String> {
        let missed = listed().filter(|line| self.times(line) == 0);
        let unlisted = self.0.keys().filter(|met| !listed().any(|line| line == met.as_str()));
        missed
            .map(|line| format!("not met: {line}"))
            .chain(unlisted.map(|met| format!("met but not listed: {met}")))
            .collect()
    }
}

/// An act's name by its code; codes that are no act are ZERO and ABOVE.
pub fn name(code: u32) -> &'static str {
    match code {
        0 => "ZERO",
        1..=10 => ACTS[code as usize - 1],
        _ => "ABOVE",
    }
}

/// Which of several ways led to an answer: ASK's verdicts, who stands against retiring,
/// what would not be well formed. None where there is one way, or two led there together.
/// All these answers leave the store as it was, so it is looked at after the act.
fn way(store: &[u8], [code, a, o, b]: [u32; 4], answer: Answer) -> Option<&'static str> {
    match (code, answer.refusal) {
        (7, 0) => Some(["in use", "absent", "early"][answer.value as usize]),
        (8, 13) => Some(against(&Machine::read(store), o as usize, answer.value as usize)),
        (5, 14) => delivery(&Machine::read(store), a as usize, b as usize),
        (6, 14) => hearing(&Machine::read(store), a as usize, b as usize),
        (8, 14) => retiring(&Machine::read(store), o as usize),
        _ => None,
    }
}

/// Why a port stands against retiring.
fn against(machine: &Machine, object: usize, port: usize) -> &'static str {
    if machine.homes[object] == Some(port) && machine.holdings[port][object] > 0 {
        "the home holds"
    } else if machine.homes[object] != Some(port) && machine.heard_holdings[port][object] > 0 {
        "another port is heard to hold"
    } else if machine.heard_transits[port][object] > 0 {
        "transit above 0"
    } else {
        "transit below 0"
    }
}

/// The one way that is open, if just one is.
fn only(ways: &[(bool, &'static str)]) -> Option<&'static str> {
    let mut open = ways.iter().filter(|(holds, _)| *holds);
    match (open.next(), open.next()) {
        (Some((_, way)), None) => Some(way),
        _ => None,
    }
}

/// Why a store after DELIVER would not be well formed.
fn delivery(machine: &Machine, a: usize, b: usize) -> Option<&'static str> {
    let object = machine.pointers[a][b][0];
    let home = machine.homes[object] == Some(b);
    let full = machine.holdings[b][object] == MOST_HELD;
    only(&[
        (full && home, "home's holding at 200"),
        (full && !home, "holding at 200"),
        (home && machine.heard_transits[b][object] == LEAST_TRANSIT, "home's transit at -224"),
    ])
}

/// Why a store after HEAR would not be well formed.
fn hearing(machine: &Machine, a: usize, b: usize) -> Option<&'static str> {
    let report = machine.reports[a][b][0];
    let full = machine.heard_holdings[a][report.object] == MOST_HELD;
    let low = machine.heard_transits[a][report.object] == LEAST_TRANSIT;
    match report.event {
        Event::Sent(to) if to == b => Some("s to the home, transit at 144"),
        Event::Sent(_) => Some("s to another port, transit at 144"),
        Event::Received => only(&[(full, "r, holding at 200"), (low, "r, transit at -224")]),
        Event::Created => Some("+, holding at 200"),
        Event::Deleted => Some("-, holding at 0"),
    }
}

/// Why a store after RETIRE would not be well formed.
fn retiring(machine: &Machine, object: usize) -> Option<&'static str> {
    let mut pointers = machine.pointers.iter().flatten().flatten();
    let mut reports = machine.reports.iter().flatten().flatten();
    only(&[
        ((0..PORTS).any(|port| machine.holdings[port][object] > 0), "a true holding"),
        (pointers.any(|&entry| entry == object), "a pointer"),
        (reports.any(|report| report.object == object), "a report"),
    ])
}
