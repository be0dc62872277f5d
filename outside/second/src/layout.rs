//! The lent store of document 01: its limits and parts, and a machine read from it or written out.

/// Ports are 0 to 7.
pub const PORTS: usize = 8;
/// Objects are 0 to 63.
pub const OBJECTS: usize = 64;
/// No port holds an object more often than this.
pub const MOST_HELD: i32 = 200;
/// The lowest heard transit; the store keeps a transit less this number.
pub const LEAST_TRANSIT: i32 = -224;
/// The highest heard transit.
pub const MOST_TRANSIT: i32 = 144;
/// A pointer lane has at most this many entries.
pub const POINTER_PLACES: usize = 16;
/// A report lane has at most this many entries.
pub const REPORT_PLACES: usize = 32;

/// Where each part of the store begins ("The lent store").
pub mod part {
    use super::*;
    /// Bytes of one pointer lane: its length, then one byte a place.
    pub const POINTER_LANE: usize = 1 + POINTER_PLACES;
    /// Bytes of one report lane: its length, then two bytes a place.
    pub const REPORT_LANE: usize = 1 + 2 * REPORT_PLACES;
    /// The object bytes.
    pub const HOMES: usize = 0;
    /// The true holdings.
    pub const HOLDINGS: usize = HOMES + OBJECTS;
    /// The heard holdings.
    pub const HEARD_HOLDINGS: usize = HOLDINGS + PORTS * OBJECTS;
    /// The heard transits.
    pub const HEARD_TRANSITS: usize = HEARD_HOLDINGS + PORTS * OBJECTS;
    /// The pointer lanes.
    pub const POINTERS: usize = HEARD_TRANSITS + 2 * PORTS * OBJECTS;
    /// The report lanes.
    pub const REPORTS: usize = POINTERS + PORTS * PORTS * POINTER_LANE;
    /// The size of a store.
    pub const SIZE: usize = REPORTS + PORTS * PORTS * REPORT_LANE;
}

/// An event of 004's table 1, without its object and the port where it happens.
#[derive(Clone, Copy, Debug, PartialEq, Eq)]
pub enum Event {
    /// s: a pointer was sent to this port.
    Sent(usize),
    /// r: a pointer was received.
    Received,
    /// +: a pointer was made.
    Created,
    /// -: a pointer was deleted.
    Deleted,
}

/// An entry of a report lane: an event and its object.
#[derive(Clone, Copy, Debug, PartialEq, Eq)]
pub struct Report {
    pub event: Event,
    pub object: usize,
}

/// A well formed store, decoded. Counts and lanes are indexed port first, then object; from, then to.
#[derive(Clone, Debug, PartialEq, Eq)]
pub struct Machine {
    /// Each object's home, or none if the object is free.
    pub homes: [Option<usize>; OBJECTS],
    /// How many pointers to the object the port has in truth.
    pub holdings: [[i32; OBJECTS]; PORTS],
    /// The home's book: 004's pointersTo.
    pub heard_holdings: [[i32; OBJECTS]; PORTS],
    /// The home's book: 004's inTransit.
    pub heard_transits: [[i32; OBJECTS]; PORTS],
    /// The objects that travel from one port to another, oldest first.
    pub pointers: [[Vec<usize>; PORTS]; PORTS],
    /// The reports that travel from one port to another, oldest first.
    pub reports: [[Vec<Report>; PORTS]; PORTS],
}

impl Machine {
    /// A machine with no objects, no entries and all counts 0.
    pub fn fresh() -> Machine {
        Machine {
            homes: [None; OBJECTS],
            holdings: [[0; OBJECTS]; PORTS],
            heard_holdings: [[0; OBJECTS]; PORTS],
            heard_transits: [[0; OBJECTS]; PORTS],
            pointers: Default::default(),
            reports: Default::default(),
        }
    }

    /// Decodes a well formed store.
    pub fn read(store: &[u8]) -> Machine {
        let mut machine = Machine::fresh();
        for object in 0..OBJECTS {
            machine.homes[object] = (store[part::HOMES + object] as usize).checked_sub(1);
        }
        for port in 0..PORTS {
            for object in 0..OBJECTS {
                let at = OBJECTS * port + object;
                let low = store[part::HEARD_TRANSITS + 2 * at];
                let high = store[part::HEARD_TRANSITS + 2 * at + 1];
                machine.holdings[port][object] = i32::from(store[part::HOLDINGS + at]);
                machine.heard_holdings[port][object] = i32::from(store[part::HEARD_HOLDINGS + at]);
                machine.heard_transits[port][object] =
                    i32::from(u16::from_le_bytes([low, high])) + LEAST_TRANSIT;
            }
        }
        for from in 0..PORTS {
            for to in 0..PORTS {
                let lane = PORTS * from + to;
                let pointers = &store[part::POINTERS + lane * part::POINTER_LANE..];
                let entries = &pointers[1..][..usize::from(pointers[0])];
                machine.pointers[from][to] = entries.iter().copied().map(usize::from).collect();
                let reports = &store[part::REPORTS + lane * part::REPORT_LANE..];
                let entries = reports[1..][..2 * usize::from(reports[0])].chunks(2);
                machine.reports[from][to] = entries.map(Report::read).collect();
            }
        }
        machine
    }

    /// Encodes the machine. A count that left its range by one is written so that it is not
    /// well formed: 201 or 255 for a holding, 369 or 65,535 for a transit.
    pub fn write(&self) -> Vec<u8> {
        let mut store = vec![0; part::SIZE];
        for object in 0..OBJECTS {
            store[part::HOMES + object] = self.homes[object].map_or(0, |home| home as u8 + 1);
        }
        for port in 0..PORTS {
            for object in 0..OBJECTS {
                let at = OBJECTS * port + object;
                let transit = (self.heard_transits[port][object] - LEAST_TRANSIT) as u16;
                let transit_at = part::HEARD_TRANSITS + 2 * at;
                store[part::HOLDINGS + at] = self.holdings[port][object] as u8;
                store[part::HEARD_HOLDINGS + at] = self.heard_holdings[port][object] as u8;
                store[transit_at..transit_at + 2].copy_from_slice(&transit.to_le_bytes());
            }
        }
        for from in 0..PORTS {
            for to in 0..PORTS {
                let lane = PORTS * from + to;
                let pointers = &mut store[part::POINTERS + lane * part::POINTER_LANE..];
                pointers[0] = self.pointers[from][to].len() as u8;
                for (place, &object) in self.pointers[from][to].iter().enumerate() {
                    pointers[1 + place] = object as u8;
                }
                let reports = &mut store[part::REPORTS + lane * part::REPORT_LANE..];
                reports[0] = self.reports[from][to].len() as u8;
                for (place, report) in self.reports[from][to].iter().enumerate() {
                    reports[1 + 2 * place..3 + 2 * place].copy_from_slice(&report.write());
                }
            }
        }
        store
    }
}

impl Report {
    /// Decodes a well formed entry: object plus 64 x event, then the port sent to.
    pub fn read(entry: &[u8]) -> Report {
        let event = match entry[0] / OBJECTS as u8 {
            0 => Event::Sent(usize::from(entry[1])),
            1 => Event::Received,
            2 => Event::Created,
            _ => Event::Deleted,
        };
        Report { event, object: usize::from(entry[0]) % OBJECTS }
    }

    /// Encodes an entry.
    pub fn write(self) -> [u8; 2] {
        let (event, sent_to) = match self.event {
            Event::Sent(to) => (0, to),
            Event::Received => (1, 0),
            Event::Created => (2, 0),
            Event::Deleted => (3, 0),
        };
        [(self.object + OBJECTS * event) as u8, sent_to as u8]
    }
}
