//! When a lent store is well formed: document 01, "The lent store", clause by clause.

use crate::layout::part;
use crate::layout::{LEAST_TRANSIT, MOST_HELD, MOST_TRANSIT};
use crate::layout::{OBJECTS, POINTER_PLACES, PORTS, REPORT_PLACES};

/// Well formed: right size, and every clause below.
pub fn well_formed(store: &[u8]) -> bool {
    store.len() == part::SIZE
        && object_bytes_in_range(store)
        && holdings_in_range(store)
        && transits_in_range(store)
        && free_objects_count_nothing(store)
        && homes_know_themselves(store)
        && pointer_lanes_well_formed(store)
        && report_lanes_well_formed(store)
}

/// The home of an object number, if that is an object in use.
fn home(store: &[u8], object: usize) -> Option<usize> {
    if object < OBJECTS { usize::from(store[part::HOMES + object]).checked_sub(1) } else { None }
}

/// A port's true holding of an object.
fn holding(store: &[u8], port: usize, object: usize) -> u8 {
    store[part::HOLDINGS + OBJECTS * port + object]
}

/// A port's heard holding of an object.
fn heard_holding(store: &[u8], port: usize, object: usize) -> u8 {
    store[part::HEARD_HOLDINGS + OBJECTS * port + object]
}

/// A port's heard transit of an object.
fn heard_transit(store: &[u8], port: usize, object: usize) -> i32 {
    let at = part::HEARD_TRANSITS + 2 * (OBJECTS * port + object);
    i32::from(u16::from_le_bytes([store[at], store[at + 1]])) + LEAST_TRANSIT
}

/// The highest of some bytes.
fn highest(bytes: &[u8]) -> u8 {
    bytes.iter().fold(0, |highest, &byte| highest.max(byte))
}

/// Object bytes at most 8.
fn object_bytes_in_range(store: &[u8]) -> bool {
    usize::from(highest(&store[part::HOMES..part::HOLDINGS])) <= PORTS
}

/// Holdings in range, true and heard.
fn holdings_in_range(store: &[u8]) -> bool {
    i32::from(highest(&store[part::HOLDINGS..part::HEARD_TRANSITS])) <= MOST_HELD
}

/// Transits in range.
fn transits_in_range(store: &[u8]) -> bool {
    (0..PORTS).all(|port| {
        (0..OBJECTS).all(|object| {
            (LEAST_TRANSIT..=MOST_TRANSIT).contains(&heard_transit(store, port, object))
        })
    })
}

/// A free object's counts are all 0.
fn free_objects_count_nothing(store: &[u8]) -> bool {
    (0..OBJECTS).filter(|&object| home(store, object).is_none()).all(|object| {
        (0..PORTS).all(|port| {
            holding(store, port, object) == 0
                && heard_holding(store, port, object) == 0
                && heard_transit(store, port, object) == 0
        })
    })
}

/// The home's heard holding equals its true holding.
fn homes_know_themselves(store: &[u8]) -> bool {
    (0..OBJECTS).all(|object| match home(store, object) {
        Some(home) => heard_holding(store, home, object) == holding(store, home, object),
        None => true,
    })
}

/// Every pointer lane: length in range, places past it zero, none from a port to itself,
/// every entry names an object in use.
fn pointer_lanes_well_formed(store: &[u8]) -> bool {
    (0..PORTS * PORTS).all(|lane| {
        let (from, to) = (lane / PORTS, lane % PORTS);
        let bytes = &store[part::POINTERS + lane * part::POINTER_LANE..][..part::POINTER_LANE];
        let length = usize::from(bytes[0]);
        if length > POINTER_PLACES || (from == to && length > 0) {
            return false;
        }
        let (entries, rest) = bytes[1..].split_at(length);
        entries.iter().all(|&entry| home(store, usize::from(entry)).is_some()) && highest(rest) == 0
    })
}

/// Every report lane: length in range, places past it zero, none from a port to itself,
/// every entry well formed.
fn report_lanes_well_formed(store: &[u8]) -> bool {
    (0..PORTS * PORTS).all(|lane| {
        let (from, to) = (lane / PORTS, lane % PORTS);
        let bytes = &store[part::REPORTS + lane * part::REPORT_LANE..][..part::REPORT_LANE];
        let length = usize::from(bytes[0]);
        if length > REPORT_PLACES || (from == to && length > 0) {
            return false;
        }
        let (entries, rest) = bytes[1..].split_at(2 * length);
        entries.chunks(2).all(|entry| report_well_formed(store, from, to, entry[0], entry[1]))
            && highest(rest) == 0
    })
}

/// A report's object is in use with the receiving port as home; the port of an s is at most 7
/// and not its sender; any other entry's port byte is 0.
fn report_well_formed(store: &[u8], from: usize, to: usize, first: u8, second: u8) -> bool {
    let (event, object) = (usize::from(first) / OBJECTS, usize::from(first) % OBJECTS);
    let sent_to = usize::from(second);
    home(store, object) == Some(to)
        && if event == 0 { sent_to < PORTS && sent_to != from } else { sent_to == 0 }
}
