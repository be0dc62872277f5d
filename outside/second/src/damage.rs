//! Stores that are not well formed: bytes changed at random, or a single clause broken.

use crate::dice::Dice;
use crate::layout::{LEAST_TRANSIT, MOST_HELD, MOST_TRANSIT};
use crate::layout::{OBJECTS, POINTER_PLACES, PORTS, REPORT_PLACES};
use crate::layout::{Report, part};
use crate::stores::event;

/// Changes one to three bytes at random.
pub fn change_bytes(store: &mut [u8], dice: &mut Dice) {
    for _ in 0..1 + dice.below(3) {
        let at = dice.below(store.len());
        store[at] = match dice.below(4) {
            0 => store[at].wrapping_add(1),
            1 => store[at].wrapping_sub(1),
            2 => store[at] ^ (1 << dice.below(8)),
            _ => dice.byte(),
        };
    }
}

/// A way to break one clause; it answers false if the store has no place for it.
type Break = fn(&mut [u8], &mut Dice) -> bool;

/// Every clause of "well formed" but the size, with its name.
pub const CLAUSES: [(&str, Break); 22] = [
    ("object byte above 8", object_byte),
    ("true holding above 200", |s, d| one_holding(s, d, part::HOLDINGS)),
    ("heard holding above 200", |s, d| one_holding(s, d, part::HEARD_HOLDINGS)),
    ("home's holdings above 200", home_holdings),
    ("transit above 144", transit_above),
    ("pointer lane too long", |s, d| too_long(s, d, &POINTER)),
    ("report lane too long", |s, d| too_long(s, d, &REPORT)),
    ("pointer lane with a place past its length", |s, d| past_length(s, d, &POINTER)),
    ("report lane with a place past its length", |s, d| past_length(s, d, &REPORT)),
    ("pointer lane from a port to itself", self_pointer),
    ("report lane from a port to itself", self_report),
    ("pointer entry of a free object", pointer_of_free),
    ("pointer entry above 63", pointer_above),
    ("report entry of a free object", report_of_free),
    ("report entry of another home's object", report_of_other_home),
    ("s entry's port above 7", |s, d| report_port(s, d, true, |_, d| 8 + d.below(248))),
    ("s entry's port its sender", |s, d| report_port(s, d, true, |from, _| from)),
    ("another entry's port not 0", |s, d| report_port(s, d, false, |_, d| 1 + d.below(255))),
    ("free object's true holding", |s, d| free_holding(s, d, part::HOLDINGS)),
    ("free object's heard holding", |s, d| free_holding(s, d, part::HEARD_HOLDINGS)),
    ("free object's transit", free_transit),
    ("home's heard holding not its true one", home_differs),
];

/// The lanes of one kind: where they begin, bytes of a lane, bytes of a place, places.
struct Kind {
    begin: usize,
    lane: usize,
    place: usize,
    places: usize,
}

/// The pointer lanes.
const POINTER: Kind =
    Kind { begin: part::POINTERS, lane: part::POINTER_LANE, place: 1, places: POINTER_PLACES };
/// The report lanes.
const REPORT: Kind =
    Kind { begin: part::REPORTS, lane: part::REPORT_LANE, place: 2, places: REPORT_PLACES };

impl Kind {
    /// Where the lane between two ports begins.
    fn at(&self, from: usize, to: usize) -> usize {
        self.begin + self.lane * (PORTS * from + to)
    }

    /// A random entry of these lanes: its sender, its receiver and where it stands.
    fn entry(&self, store: &[u8], dice: &mut Dice) -> Option<(usize, usize, usize)> {
        let mut entries = Vec::new();
        for from in 0..PORTS {
            for to in 0..PORTS {
                let at = self.at(from, to);
                for place in 0..usize::from(store[at]) {
                    entries.push((from, to, at + 1 + self.place * place));
                }
            }
        }
        drawn(&entries, dice)
    }
}

/// One of the given, if there is one.
fn drawn<T: Copy>(these: &[T], dice: &mut Dice) -> Option<T> {
    if these.is_empty() { None } else { Some(dice.pick(these)) }
}

/// A random object whose byte passes the test.
fn object(store: &[u8], dice: &mut Dice, test: impl Fn(u8) -> bool) -> Option<usize> {
    let objects: Vec<usize> = (0..OBJECTS).filter(|&object| test(store[object])).collect();
    drawn(&objects, dice)
}

/// A number just past a limit, or anywhere past it.
fn above(limit: i32, highest: i32, dice: &mut Dice) -> i32 {
    if dice.once_in(2) { limit + 1 } else { dice.between(limit + 1, highest) }
}

/// Writes a byte where the object is there; answers whether it was.
fn put(store: &mut [u8], at: Option<usize>, byte: u8) -> bool {
    if let Some(at) = at {
        store[at] = byte;
    }
    at.is_some()
}

/// Object bytes at most 8.
fn object_byte(store: &mut [u8], dice: &mut Dice) -> bool {
    let at = part::HOMES + dice.below(OBJECTS);
    store[at] = above(PORTS as i32, 255, dice) as u8;
    true
}

/// Holdings in range: one away from the home.
fn one_holding(store: &mut [u8], dice: &mut Dice, begin: usize) -> bool {
    let port = dice.below(PORTS);
    let away = object(store, dice, |byte| byte != 0 && usize::from(byte) != port + 1);
    let byte = above(MOST_HELD, 255, dice) as u8;
    put(store, away.map(|object| begin + OBJECTS * port + object), byte)
}

/// Holdings in range: the home's, true and heard alike.
fn home_holdings(store: &mut [u8], dice: &mut Dice) -> bool {
    let Some(object) = object(store, dice, |byte| byte != 0) else { return false };
    let home = usize::from(store[object]) - 1;
    let byte = above(MOST_HELD, 255, dice) as u8;
    store[part::HOLDINGS + OBJECTS * home + object] = byte;
    store[part::HEARD_HOLDINGS + OBJECTS * home + object] = byte;
    true
}

/// Transits in range.
fn transit_above(store: &mut [u8], dice: &mut Dice) -> bool {
    let Some(object) = object(store, dice, |byte| byte != 0) else { return false };
    let at = part::HEARD_TRANSITS + 2 * (OBJECTS * dice.below(PORTS) + object);
    let number = above(MOST_TRANSIT - LEAST_TRANSIT, 65535, dice) as u16;
    store[at..at + 2].copy_from_slice(&number.to_le_bytes());
    true
}

/// Lane lengths in range: a lane whose entries are else in order.
fn too_long(store: &mut [u8], dice: &mut Dice, kind: &Kind) -> bool {
    let Some((from, to, entry)) = kind.entry(store, dice) else { return false };
    let at = kind.at(from, to);
    for place in usize::from(store[at])..kind.places {
        store.copy_within(entry..entry + kind.place, at + 1 + kind.place * place);
    }
    store[at] = above(kind.places as i32, 255, dice) as u8;
    true
}

/// Places past a length all zero.
fn past_length(store: &mut [u8], dice: &mut Dice, kind: &Kind) -> bool {
    let at = kind.at(dice.below(PORTS), dice.below(PORTS));
    let first_past = 1 + kind.place * usize::from(store[at]);
    if first_past == kind.lane {
        return false;
    }
    store[at + first_past + dice.below(kind.lane - first_past)] = 1 + dice.byte() % 255;
    true
}

/// Lanes from a port to itself empty: a pointer else in order.
fn self_pointer(store: &mut [u8], dice: &mut Dice) -> bool {
    let Some(object) = object(store, dice, |byte| byte != 0) else { return false };
    let port = dice.below(PORTS);
    let at = POINTER.at(port, port);
    store[at] = 1;
    store[at + 1] = object as u8;
    true
}

/// Lanes from a port to itself empty: a report else in order.
fn self_report(store: &mut [u8], dice: &mut Dice) -> bool {
    let Some(object) = object(store, dice, |byte| byte != 0) else { return false };
    let port = usize::from(store[object]) - 1;
    let at = REPORT.at(port, port);
    let report = Report { event: event(port, dice), object }.write();
    store[at] = 1;
    store[at + 1..at + 3].copy_from_slice(&report);
    true
}

/// Every entry names an object in use: a pointer to a free one.
fn pointer_of_free(store: &mut [u8], dice: &mut Dice) -> bool {
    let Some(free) = object(store, dice, |byte| byte == 0) else { return false };
    let entry = POINTER.entry(store, dice);
    put(store, entry.map(|(_, _, at)| at), free as u8)
}

/// Every entry names an object in use: a pointer with a number that is no object's.
fn pointer_above(store: &mut [u8], dice: &mut Dice) -> bool {
    let Some((_, _, at)) = POINTER.entry(store, dice) else { return false };
    store[at] |= dice.pick(&[64, 128, 192]);
    true
}

/// Every entry names an object in use: a report of a free one.
fn report_of_free(store: &mut [u8], dice: &mut Dice) -> bool {
    let Some((_, _, at)) = REPORT.entry(store, dice) else { return false };
    let Some(free) = object(store, dice, |byte| byte == 0) else { return false };
    store[at] = store[at] & 192 | free as u8;
    true
}

/// A report's object has the receiving port as home.
fn report_of_other_home(store: &mut [u8], dice: &mut Dice) -> bool {
    let Some((_, to, at)) = REPORT.entry(store, dice) else { return false };
    let other = object(store, dice, |byte| byte != 0 && usize::from(byte) != to + 1);
    let Some(other) = other else { return false };
    store[at] = store[at] & 192 | other as u8;
    true
}

/// An s entry's port is at most 7 and not its sender, and any other entry's port byte is 0.
fn report_port(
    store: &mut [u8],
    dice: &mut Dice,
    sent: bool,
    wrong: fn(usize, &mut Dice) -> usize,
) -> bool {
    let Some((from, _, at)) = REPORT.entry(store, dice) else { return false };
    let event = if sent { 0 } else { dice.pick(&[64, 128, 192]) };
    store[at] = store[at] & 63 | event;
    store[at + 1] = wrong(from, dice) as u8;
    true
}

/// A free object's counts are all 0: a holding.
fn free_holding(store: &mut [u8], dice: &mut Dice, begin: usize) -> bool {
    let free = object(store, dice, |byte| byte == 0);
    let byte = dice.between(1, MOST_HELD) as u8;
    let at = begin + OBJECTS * dice.below(PORTS);
    put(store, free.map(|free| at + free), byte)
}

/// A free object's counts are all 0: a transit, among them the one stored as two zero bytes.
fn free_transit(store: &mut [u8], dice: &mut Dice) -> bool {
    let Some(free) = object(store, dice, |byte| byte == 0) else { return false };
    let at = part::HEARD_TRANSITS + 2 * (OBJECTS * dice.below(PORTS) + free);
    let transit = dice.pick(&[LEAST_TRANSIT, -1, 1, MOST_TRANSIT, 32]);
    let number = (transit - LEAST_TRANSIT) as u16;
    store[at..at + 2].copy_from_slice(&number.to_le_bytes());
    true
}

/// The home's heard holding equals its true holding.
fn home_differs(store: &mut [u8], dice: &mut Dice) -> bool {
    let Some(object) = object(store, dice, |byte| byte != 0) else { return false };
    let home = usize::from(store[object]) - 1;
    let begin = dice.pick(&[part::HOLDINGS, part::HEARD_HOLDINGS]);
    let at = begin + OBJECTS * home + object;
    store[at] = if store[at] == 0 || (i32::from(store[at]) < MOST_HELD && dice.once_in(2)) {
        store[at] + 1
    } else {
        store[at] - 1
    };
    true
}

#[cfg(test)]
mod tests {
    use super::*;
    use crate::stores::any_well_formed;
    use crate::wellformed::well_formed;

    #[test]
    fn a_store_with_a_broken_clause_is_not_well_formed() {
        let mut dice = Dice::new(2);
        for (name, damage) in CLAUSES {
            let mut done = 0;
            for _ in 0..1000 {
                let mut store = any_well_formed(&mut dice);
                if damage(&mut store, &mut dice) {
                    assert!(!well_formed(&store), "{name}");
                    done += 1;
                }
            }
            assert!(done > 100, "{name}: {done}");
        }
    }
}
