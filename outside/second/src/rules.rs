//! Document 01's two tables as tables: which checks an act makes, and when each refusal is given,
//! each rule by itself and whatever the others say. The comparison judges the model's refusals by
//! these and counts which rules applied together.

use crate::layout::{Event, LEAST_TRANSIT, MOST_HELD, MOST_TRANSIT, Machine};
use crate::layout::{OBJECTS, POINTER_PLACES, PORTS, REPORT_PLACES};

/// Each act's checks in their order, by code less 1; 1 and 2 come before them.
pub const CHECKS: [&[u32]; 10] = [
    &[3, 12, 14],
    &[3, 4, 5, 6, 7, 8, 10, 11, 14],
    &[3, 4, 5, 7, 8, 11, 14],
    &[3, 4, 5, 7, 11, 14],
    &[3, 6, 9, 11, 14],
    &[3, 6, 9, 14],
    &[4, 5, 14],
    &[4, 5, 13, 14],
    &[14],
    &[3, 4, 5, 14],
];

/// The refusals among the checks of an act, code 1 to 10, whose rule applies on a well formed store.
pub fn applying(machine: &Machine, numbers: [u32; 4]) -> Vec<u32> {
    let checks = CHECKS[numbers[0] as usize - 1];
    let applies = |&refusal: &u32| rule(machine, numbers, refusal).unwrap_or(false);
    checks.iter().copied().filter(applies).collect()
}

/// A number as a port.
fn port(number: u32) -> Option<usize> {
    usize::try_from(number).ok().filter(|&port| port < PORTS)
}

/// A number as an object.
fn object(number: u32) -> Option<usize> {
    usize::try_from(number).ok().filter(|&object| object < OBJECTS)
}

/// Whether the rule of a refusal applies; none where it speaks of a port or object that is not there.
fn rule(machine: &Machine, [code, a, o, b]: [u32; 4], refusal: u32) -> Option<bool> {
    let names_b = [2, 5, 6].contains(&code);
    Some(match refusal {
        3 => a > 7 || (names_b && b > 7),
        4 => o > 63,
        5 => machine.homes[object(o)?].is_none(),
        6 => a == b,
        7 => machine.holdings[port(a)?][object(o)?] == 0,
        8 => {
            let gaining = port(if code == 2 { b } else { a })?;
            let lanes = (0..PORTS).flat_map(|from| &machine.pointers[from][gaining]);
            let coming = lanes.filter(|&&entry| Some(entry) == object(o)).count();
            machine.holdings[gaining][object(o)?] + coming as i32 >= MOST_HELD
        }
        9 if code == 5 => machine.pointers[port(a)?][port(b)?].is_empty(),
        9 => machine.reports[port(a)?][port(b)?].is_empty(),
        10 => machine.pointers[port(a)?][port(b)?].len() == POINTER_PLACES,
        11 => {
            let (acting, object) = if code == 5 {
                (port(b)?, *machine.pointers[port(a)?][port(b)?].first()?)
            } else {
                (port(a)?, object(o)?)
            };
            let home = machine.homes[object]?;
            acting != home && machine.reports[acting][home].len() == REPORT_PLACES
        }
        12 => machine.homes.iter().all(Option::is_some),
        13 => {
            let object = object(o)?;
            let home = machine.homes[object]?;
            machine.holdings[home][object] > 0
                || (0..PORTS).any(|p| p != home && machine.heard_holdings[p][object] > 0)
                || (0..PORTS).any(|p| machine.heard_transits[p][object] != 0)
        }
        _ => return broken(machine, [code, a, o, b]),
    })
}

/// Rule 14 from what can break: on a well formed store only a count that leaves its range, or
/// something left of an object that is retired.
fn broken(machine: &Machine, [code, a, o, b]: [u32; 4]) -> Option<bool> {
    Some(match code {
        2 => {
            let (a, object, b) = (port(a)?, object(o)?, port(b)?);
            machine.homes[object] == Some(a) && machine.heard_transits[b][object] == MOST_TRANSIT
        }
        5 => {
            let (a, b) = (port(a)?, port(b)?);
            let object = *machine.pointers[a][b].first()?;
            let home = machine.homes[object] == Some(b);
            machine.holdings[b][object] == MOST_HELD
                || (home && machine.heard_transits[b][object] == LEAST_TRANSIT)
        }
        6 => {
            let (a, b) = (port(a)?, port(b)?);
            let report = machine.reports[a][b].first()?;
            let holding = machine.heard_holdings[a][report.object];
            match report.event {
                Event::Sent(to) => machine.heard_transits[to][report.object] == MOST_TRANSIT,
                Event::Received => {
                    machine.heard_transits[a][report.object] == LEAST_TRANSIT
                        || holding == MOST_HELD
                }
                Event::Created => holding == MOST_HELD,
                Event::Deleted => holding == 0,
            }
        }
        8 => {
            let object = object(o)?;
            (0..PORTS).any(|port| machine.holdings[port][object] > 0)
                || (0..PORTS).any(|port| machine.heard_holdings[port][object] > 0)
                || (0..PORTS).any(|port| machine.heard_transits[port][object] != 0)
                || machine.pointers.iter().flatten().flatten().any(|&entry| entry == object)
                || machine.reports.iter().flatten().flatten().any(|report| report.object == object)
        }
        _ => false,
    })
}
