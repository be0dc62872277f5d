//! The machine of document 01: START and the ten acts over a lent store of any length.
//!
//! An act checks the store (refusal 1), reads it into a `Machine`, does the act there,
//! writes the machine out as a new store, checks that one (refusal 14), and copies it back.

use crate::layout::{
    Event, MOST_HELD, Machine, OBJECTS, POINTER_PLACES, PORTS, REPORT_PLACES, Report, part,
};
use crate::wellformed::well_formed;

/// What a call answers: the refusal number (0 if taken) and a value.
#[repr(C)]
#[derive(Clone, Copy, Debug, PartialEq, Eq)]
pub struct Answer {
    pub refusal: u32,
    pub value: u32,
}

/// The answer of an act that was taken.
fn taken(value: u32) -> Answer {
    Answer { refusal: 0, value }
}

/// A refusal, with value 0 ("every refusal gives value 0, except 13").
fn refused(refusal: u32) -> Answer {
    Answer { refusal, value: 0 }
}

/// START: makes a buffer of the right size fresh, whatever it held; another size is refused with 1.
pub fn start(store: &mut [u8]) -> Answer {
    if store.len() != part::SIZE {
        return refused(1);
    }
    store.copy_from_slice(&Machine::fresh().write());
    taken(0)
}

/// One act: checks 1 first, then the act's own, then 14; a refusal leaves every byte as it was.
pub fn act(store: &mut [u8], code: u32, a: u32, o: u32, b: u32) -> Answer {
    if !well_formed(store) {
        return refused(1);
    }
    let mut machine = Machine::read(store);
    let value = match machine.step(code, a, o, b) {
        Ok(value) => value,
        Err(refusal) => return refusal,
    };
    let after = machine.write();
    if !well_formed(&after) {
        return refused(14);
    }
    store.copy_from_slice(&after);
    taken(value)
}

/// Check 3: a named port is above 7.
fn port(number: u32) -> Result<usize, Answer> {
    if number < PORTS as u32 { Ok(number as usize) } else { Err(refused(3)) }
}

/// Check 6: A equals B.
fn different(a: usize, b: usize) -> Result<(), Answer> {
    check(a != b, 6)
}

/// Goes on if the condition holds, else gives the refusal.
fn check(condition: bool, refusal: u32) -> Result<(), Answer> {
    if condition { Ok(()) } else { Err(refused(refusal)) }
}

impl Machine {
    /// Check 2 and the act's own checks, then the act; what it answers if 14 does not apply.
    fn step(&mut self, code: u32, a: u32, o: u32, b: u32) -> Result<u32, Answer> {
        match code {
            1 => self.make(a),
            2 => self.send(a, o, b),
            3 => self.copy(a, o),
            4 => self.drop(a, o),
            5 => self.deliver(a, b),
            6 => self.hear(a, b),
            7 => self.ask(o),
            8 => self.retire(o),
            9 => Ok(self.settling_number()),
            10 => self.hold(a, o),
            _ => Err(refused(2)),
        }
    }

    /// MAKE at A: the lowest free object number, home A, A holds one. Checks 3 12.
    fn make(&mut self, a: u32) -> Result<u32, Answer> {
        let a = port(a)?;
        let free = self.homes.iter().position(Option::is_none);
        let object = free.ok_or(refused(12))?;
        self.homes[object] = Some(a);
        self.happen(a, a, Report { event: Event::Created, object });
        Ok(object as u32)
    }

    /// SEND A o B: o goes to the end of the pointer lane; s at A. Checks 3 4 5 6 7 8 10 11.
    fn send(&mut self, a: u32, o: u32, b: u32) -> Result<u32, Answer> {
        let (a, b) = (port(a)?, port(b)?);
        let (object, home) = self.used(o)?;
        different(a, b)?;
        self.held(a, object)?;
        self.room_to_hold(b, object)?;
        check(self.pointers[a][b].len() < POINTER_PLACES, 10)?;
        self.room_to_report(a, home)?;
        self.pointers[a][b].push(object);
        self.happen(a, home, Report { event: Event::Sent(b), object });
        Ok(0)
    }

    /// COPY A o: + at A. Checks 3 4 5 7 8 11.
    fn copy(&mut self, a: u32, o: u32) -> Result<u32, Answer> {
        let a = port(a)?;
        let (object, home) = self.used(o)?;
        self.held(a, object)?;
        self.room_to_hold(a, object)?;
        self.room_to_report(a, home)?;
        self.happen(a, home, Report { event: Event::Created, object });
        Ok(0)
    }

    /// DROP A o: - at A. Checks 3 4 5 7 11.
    fn drop(&mut self, a: u32, o: u32) -> Result<u32, Answer> {
        let a = port(a)?;
        let (object, home) = self.used(o)?;
        self.held(a, object)?;
        self.room_to_report(a, home)?;
        self.happen(a, home, Report { event: Event::Deleted, object });
        Ok(0)
    }

    /// DELIVER A B: the oldest pointer from A arrives at B; r at B. Checks 3 6 9 11.
    fn deliver(&mut self, a: u32, b: u32) -> Result<u32, Answer> {
        let (a, b) = (port(a)?, port(b)?);
        different(a, b)?;
        let &object = self.pointers[a][b].first().ok_or(refused(9))?;
        let home = self.homes[object].expect("a well formed store's entries name objects in use");
        self.room_to_report(b, home)?;
        self.pointers[a][b].remove(0);
        self.happen(b, home, Report { event: Event::Received, object });
        Ok(object as u32)
    }

    /// HEAR A B: the oldest report from A is heard at B. Checks 3 6 9.
    fn hear(&mut self, a: u32, b: u32) -> Result<u32, Answer> {
        let (a, b) = (port(a)?, port(b)?);
        different(a, b)?;
        check(!self.reports[a][b].is_empty(), 9)?;
        let report = self.reports[a][b].remove(0);
        self.enter(a, report);
        Ok(report.object as u32)
    }

    /// ASK o: 0 in use, 1 absent, 2 early ("Verdict and settling number"). Checks 4 5.
    fn ask(&self, o: u32) -> Result<u32, Answer> {
        let (object, home) = self.used(o)?;
        let away = (0..PORTS).any(|p| p != home && self.heard_holdings[p][object] > 0);
        let travelling = (0..PORTS).any(|p| self.heard_transits[p][object] > 0);
        let early = (0..PORTS).any(|p| self.heard_transits[p][object] < 0);
        Ok(match (away || travelling, early) {
            (true, _) => 0,
            (false, true) => 2,
            (false, false) => 1,
        })
    }

    /// RETIRE o: its object byte becomes 0. Checks 4 5 13; 13 gives the lowest port standing against.
    fn retire(&mut self, o: u32) -> Result<u32, Answer> {
        let (object, home) = self.used(o)?;
        if let Some(against) = (0..PORTS).find(|&p| self.stands_against(p, object, home)) {
            return Err(Answer { refusal: 13, value: against as u32 });
        }
        self.homes[object] = None;
        Ok(0)
    }

    /// Rule 13: the home if it holds the object, another port whose heard holding is above 0,
    /// or any port whose heard transit is not 0.
    fn stands_against(&self, port: usize, object: usize, home: usize) -> bool {
        let holds = if port == home {
            self.holdings[port][object] > 0
        } else {
            self.heard_holdings[port][object] > 0
        };
        holds || self.heard_transits[port][object] != 0
    }

    /// SETTLE: twice the pointers on all pointer lanes plus the reports on all report lanes.
    fn settling_number(&self) -> u32 {
        let pointers: usize = self.pointers.iter().flatten().map(Vec::len).sum();
        let reports: usize = self.reports.iter().flatten().map(Vec::len).sum();
        (2 * pointers + reports) as u32
    }

    /// HOLD A o: the true holding. Checks 3 4 5.
    fn hold(&self, a: u32, o: u32) -> Result<u32, Answer> {
        let a = port(a)?;
        let (object, _) = self.used(o)?;
        Ok(self.holdings[a][object] as u32)
    }

    /// Checks 4 and 5: the object number is above 63; that object is not in use. Gives its home too.
    fn used(&self, o: u32) -> Result<(usize, usize), Answer> {
        check(o < OBJECTS as u32, 4)?;
        let object = o as usize;
        let home = self.homes[object].ok_or(refused(5))?;
        Ok((object, home))
    }

    /// Check 7: A's true holding of the object is 0.
    fn held(&self, a: usize, object: usize) -> Result<(), Answer> {
        check(self.holdings[a][object] > 0, 7)
    }

    /// Check 8: the port's true holding and the pointers on all lanes to it are 200 or more.
    fn room_to_hold(&self, port: usize, object: usize) -> Result<(), Answer> {
        let lanes = self.pointers.iter().flat_map(|from| &from[port]);
        let coming = lanes.filter(|&&entry| entry == object).count() as i32;
        check(self.holdings[port][object] + coming < MOST_HELD, 8)
    }

    /// Check 11: the acting port is not the home and its report lane to the home is full.
    fn room_to_report(&self, acting: usize, home: usize) -> Result<(), Answer> {
        check(acting == home || self.reports[acting][home].len() < REPORT_PLACES, 11)
    }

    /// An event happens at a port: the true holding follows it, and it is reported, or heard at
    /// once at the home ("Acts", "The machine").
    fn happen(&mut self, at: usize, home: usize, report: Report) {
        match report.event {
            Event::Sent(_) => {}
            Event::Received | Event::Created => self.holdings[at][report.object] += 1,
            Event::Deleted => self.holdings[at][report.object] -= 1,
        }
        if at == home {
            self.enter(at, report);
        } else {
            self.reports[at][home].push(report);
        }
    }

    /// The effect on the books when an event that happened at a port is heard (004's table 3).
    fn enter(&mut self, at: usize, report: Report) {
        let object = report.object;
        match report.event {
            Event::Sent(to) => self.heard_transits[to][object] += 1,
            Event::Received => {
                self.heard_transits[at][object] -= 1;
                self.heard_holdings[at][object] += 1;
            }
            Event::Created => self.heard_holdings[at][object] += 1,
            Event::Deleted => self.heard_holdings[at][object] -= 1,
        }
    }
}
