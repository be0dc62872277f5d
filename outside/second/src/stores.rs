//! Well formed stores that no acts made, with counts and lanes at their limits.

use crate::dice::Dice;
use crate::layout::{Event, Machine, Report};
use crate::layout::{LEAST_TRANSIT, MOST_HELD, MOST_TRANSIT};
use crate::layout::{OBJECTS, POINTER_PLACES, PORTS, REPORT_PLACES};

/// A random well formed store.
pub fn any_well_formed(dice: &mut Dice) -> Vec<u8> {
    let mut machine = Machine::fresh();
    let in_use = match dice.below(4) {
        0 => dice.below(4),
        1 => OBJECTS - dice.below(2),
        _ => dice.below(OBJECTS + 1),
    };
    let homes = 1 + dice.below(PORTS);
    for _ in 0..in_use {
        let object = if in_use < OBJECTS - 1 {
            dice.below(OBJECTS)
        } else {
            machine.homes.iter().position(Option::is_none).unwrap_or(0)
        };
        let home = dice.below(homes);
        machine.homes[object] = Some(home);
        counts(&mut machine, object, home, dice);
    }
    lanes(&mut machine, dice);
    machine.write()
}

/// Counts for an object in use: none, only true ones, few, all transits high, one transit,
/// or all near their limits.
fn counts(machine: &mut Machine, object: usize, home: usize, dice: &mut Dice) {
    let mood = dice.below(6);
    for port in 0..PORTS {
        let (held, heard, transit) = match mood {
            0 => (0, 0, 0),
            1 => (i32::from(port != home && dice.once_in(6)), 0, 0),
            2 => (i32::from(dice.once_in(3)), i32::from(dice.once_in(8)), 0),
            3 => (i32::from(port == home), 0, MOST_TRANSIT - dice.between(0, 2)),
            4 => (0, 0, if dice.once_in(8) { dice.between(-2, 2) } else { 0 }),
            _ => (holding(dice), holding(dice), transit(dice)),
        };
        machine.holdings[port][object] = held;
        machine.heard_holdings[port][object] = if port == home { held } else { heard };
        machine.heard_transits[port][object] = transit;
    }
}

/// A holding, often at or beside a limit.
fn holding(dice: &mut Dice) -> i32 {
    if dice.once_in(3) {
        dice.between(0, MOST_HELD)
    } else {
        dice.pick(&[0, 0, 1, MOST_HELD - 17, MOST_HELD - 1, MOST_HELD, MOST_HELD])
    }
}

/// A transit, often at or beside a limit, or where its step carries between its bytes.
fn transit(dice: &mut Dice) -> i32 {
    if dice.once_in(3) {
        dice.between(LEAST_TRANSIT, MOST_TRANSIT)
    } else {
        dice.pick(&[
            LEAST_TRANSIT,
            LEAST_TRANSIT + 1,
            -1,
            0,
            0,
            1,
            31,
            32,
            MOST_TRANSIT - 1,
            MOST_TRANSIT,
        ])
    }
}

/// Entries on the lanes: on few lanes or on most, of all objects or mostly of one.
fn lanes(machine: &mut Machine, dice: &mut Dice) {
    let used: Vec<usize> = (0..OBJECTS).filter(|&object| machine.homes[object].is_some()).collect();
    if used.is_empty() {
        return;
    }
    let favourite = dice.pick(&used);
    let one_in = dice.pick(&[1, 2, 8, 40]);
    let only_favourite = dice.once_in(4);
    for from in 0..PORTS {
        for to in (0..PORTS).filter(|&to| to != from) {
            if dice.once_in(one_in) {
                for _ in 0..length(POINTER_PLACES, dice) {
                    let object = if only_favourite { favourite } else { dice.pick(&used) };
                    machine.pointers[from][to].push(object);
                }
            }
            let homed: Vec<usize> =
                used.iter().copied().filter(|&object| machine.homes[object] == Some(to)).collect();
            if dice.once_in(one_in) && !homed.is_empty() {
                for _ in 0..length(REPORT_PLACES, dice) {
                    let report = Report { event: event(from, dice), object: dice.pick(&homed) };
                    machine.reports[from][to].push(report);
                }
            }
        }
    }
}

/// A lane's length: full, one less, one, or any.
fn length(most: usize, dice: &mut Dice) -> usize {
    match dice.below(6) {
        0 | 1 => most,
        2 => most - 1,
        3 => 1,
        _ => dice.below(most + 1),
    }
}

/// An event that a port may have reported.
pub fn event(from: usize, dice: &mut Dice) -> Event {
    let another = (from + 1 + dice.below(PORTS - 1)) % PORTS;
    dice.pick(&[Event::Sent(another), Event::Received, Event::Created, Event::Deleted])
}

#[cfg(test)]
mod tests {
    use super::*;
    use crate::wellformed::well_formed;

    #[test]
    fn generated_stores_are_well_formed_and_read_back() {
        let mut dice = Dice::new(1);
        for _ in 0..2000 {
            let store = any_well_formed(&mut dice);
            assert!(well_formed(&store));
            assert_eq!(Machine::read(&store).write(), store);
        }
    }
}
