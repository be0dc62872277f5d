//! Compares two implementations of START and the acts: the same random calls on the same bytes,
//! then the answers and all bytes. The second program is one side, a foreign library the other.

use crate::damage;
use crate::dice::Dice;
use crate::layout::{Machine, part};
use crate::model::{self, Answer};
use crate::pairs::{Met, name};
use crate::rules;
use crate::steer::Steer;
use crate::stores;
use crate::wellformed::well_formed;

/// START as a library exports it.
pub type Start = unsafe extern "C" fn(store: *mut u8, len: usize) -> Answer;
/// An act as a library exports it: code, A, o, B after the store.
pub type Act = unsafe extern "C" fn(*mut u8, usize, u32, u32, u32, u32) -> Answer;

/// An implementation: its two calls.
#[derive(Clone, Copy)]
pub struct Implementation {
    pub start: Start,
    pub act: Act,
}

/// The second program through the same interface as a library.
pub const OURS: Implementation = Implementation { start: our_start, act: our_act };

/// START of the second program. `store` must point at `len` bytes that are the caller's own.
unsafe extern "C" fn our_start(store: *mut u8, len: usize) -> Answer {
    // SAFETY: the caller lends `len` bytes for the time of the call.
    model::start(unsafe { std::slice::from_raw_parts_mut(store, len) })
}

/// An act of the second program. `store` must point at `len` bytes that are the caller's own.
unsafe extern "C" fn our_act(
    store: *mut u8,
    len: usize,
    code: u32,
    a: u32,
    o: u32,
    b: u32,
) -> Answer {
    // SAFETY: the caller lends `len` bytes for the time of the call.
    let store = unsafe { std::slice::from_raw_parts_mut(store, len) };
    model::act(store, code, a, o, b)
}

/// One call of either implementation.
#[derive(Clone, Copy, Debug)]
enum Call {
    Start,
    Act([u32; 4]),
}

/// A call whose outcome is not the one it should be.
pub struct Difference {
    /// What is different, for a reader.
    pub text: String,
    /// The store before the call.
    pub before: Vec<u8>,
}

/// Bytes on both sides of a lent store that no call may touch.
const GUARD: usize = 64;
/// What these bytes hold.
const GUARD_BYTE: u8 = 0xa5;
/// The kind of store that acts alone made.
const REACHED: &str = "a store reached by acts";
/// Sizes that are wrong.
const SIZES: [usize; 15] = [
    0,
    1,
    2,
    63,
    64,
    65,
    part::HOLDINGS + 1,
    part::POINTERS,
    part::REPORTS,
    part::SIZE - 65,
    part::SIZE - 1,
    part::SIZE + 1,
    part::SIZE + 64,
    2 * part::SIZE,
    65536 + part::SIZE,
];

/// A comparison under way: each side's buffer has the lent store between its guards.
struct Comparison {
    foreign: Implementation,
    dice: Dice,
    met: Met,
    calls: u64,
    kind: &'static str,
    our_buffer: Vec<u8>,
    foreign_buffer: Vec<u8>,
    /// Where the lent store begins, at any alignment, and its length.
    begin: usize,
    len: usize,
}

/// Compares an implementation with the second program for about `count` calls.
pub fn compare(foreign: Implementation, seed: u64, count: u64) -> Result<Met, Box<Difference>> {
    let mut comparison = Comparison {
        foreign,
        dice: Dice::new(seed),
        met: Met::default(),
        calls: 0,
        kind: "",
        our_buffer: Vec::new(),
        foreign_buffer: Vec::new(),
        begin: 0,
        len: 0,
    };
    let mut reached = vec![0; part::SIZE];
    model::start(&mut reached);
    while comparison.calls < count {
        match comparison.dice.below(32) {
            0 => reached = comparison.reached(reached)?,
            1..=12 => comparison.generated()?,
            13..=18 => comparison.changed(&reached)?,
            19..=29 => comparison.broken(&reached)?,
            30 => comparison.wrong_size()?,
            _ => comparison.started()?,
        }
    }
    Ok(comparison.met)
}

impl Comparison {
    /// A store reached by acts alone: a stretch of acts, sometimes after a new START.
    fn reached(&mut self, store: Vec<u8>) -> Result<Vec<u8>, Box<Difference>> {
        self.lend(REACHED, &store);
        if self.dice.once_in(10) {
            self.call(Call::Start)?;
        }
        let acts = 50 + self.dice.below(1000);
        let steer = self.steer();
        for _ in 0..acts {
            let answer = self.steered(&steer)?;
            if answer.refusal == 1 || answer.refusal == 14 {
                return Err(
                    self.wrong("no act from a fresh store gives 1 or 14", self.store().to_vec())
                );
            }
        }
        Ok(self.store().to_vec())
    }

    /// A well formed store that no acts made.
    fn generated(&mut self) -> Result<(), Box<Difference>> {
        let store = stores::any_well_formed(&mut self.dice);
        self.lend("a well formed store that no acts made", &store);
        self.few(30)
    }

    /// A store with some bytes changed: most are not well formed, some still are.
    fn changed(&mut self, reached: &[u8]) -> Result<(), Box<Difference>> {
        let mut store = self.sound(reached);
        damage::change_bytes(&mut store, &mut self.dice);
        self.lend("a store with bytes changed", &store);
        self.few(8)
    }

    /// A store that breaks one clause of "well formed".
    fn broken(&mut self, reached: &[u8]) -> Result<(), Box<Difference>> {
        let (clause, damage) = self.dice.pick(&damage::CLAUSES);
        let mut store = self.sound(reached);
        if !damage(&mut store, &mut self.dice) {
            return Ok(());
        }
        self.lend(clause, &store);
        self.met.note(format!("STORE 1: {clause}"));
        let acts = 1 + self.dice.below(4);
        for _ in 0..acts {
            let numbers = self.any_numbers();
            if self.call(Call::Act(numbers))?.refusal != 1 {
                return Err(self.wrong("the clause is broken", self.store().to_vec()));
            }
        }
        if self.dice.once_in(8) {
            self.call(Call::Start)?;
            self.few(2)?;
        }
        Ok(())
    }

    /// A store of another size, filled with a well formed store's bytes as far as they go.
    fn wrong_size(&mut self) -> Result<(), Box<Difference>> {
        let mut store = stores::any_well_formed(&mut self.dice);
        let mut size = self.dice.pick(&SIZES);
        if self.dice.once_in(4) {
            size = self.dice.below(2 * part::SIZE);
        }
        if size == part::SIZE {
            return Ok(());
        }
        store.resize(size, 0);
        self.lend("a store of another size", &store);
        self.met.note("STORE 1: size".to_string());
        let numbers = self.any_numbers();
        self.call(Call::Act(numbers))?;
        self.call(Call::Start)?;
        self.few(2)
    }

    /// START on any bytes, then a few acts.
    fn started(&mut self) -> Result<(), Box<Difference>> {
        let store: Vec<u8> = (0..part::SIZE).map(|_| self.dice.byte()).collect();
        self.lend("any bytes", &store);
        let numbers = self.any_numbers();
        self.call(Call::Act(numbers))?;
        self.call(Call::Start)?;
        self.few(4)
    }

    /// A well formed store to damage.
    fn sound(&mut self, reached: &[u8]) -> Vec<u8> {
        if self.dice.once_in(2) {
            reached.to_vec()
        } else {
            stores::any_well_formed(&mut self.dice)
        }
    }

    /// Any act with numbers of any kind.
    fn any_numbers(&mut self) -> [u32; 4] {
        let steer = self.steer();
        let mut numbers =
            [self.dice.below(12), self.dice.below(9), self.dice.below(65), self.dice.below(9)]
                .map(|number| number as u32);
        if self.dice.once_in(3) {
            let at = self.dice.below(4);
            numbers[at] = steer.odd(numbers[at], &mut self.dice);
        }
        numbers
    }

    /// A few acts in one mood.
    fn few(&mut self, acts: usize) -> Result<(), Box<Difference>> {
        let steer = self.steer();
        for _ in 0..acts {
            self.steered(&steer)?;
        }
        Ok(())
    }

    /// A stretch of acts on the lent store, with numbers of any size.
    fn steer(&mut self) -> Steer {
        let store = &self.our_buffer[self.begin..self.begin + self.len];
        Steer::new(store, u32::MAX, &mut self.dice)
    }

    /// The next act of a stretch.
    fn steered(&mut self, steer: &Steer) -> Result<Answer, Box<Difference>> {
        let store = &self.our_buffer[self.begin..self.begin + self.len];
        let numbers = steer.next(store, &mut self.dice);
        self.call(Call::Act(numbers))
    }

    /// Puts a store between guards, for both sides alike.
    fn lend(&mut self, kind: &'static str, store: &[u8]) {
        self.kind = kind;
        self.begin = GUARD + self.dice.below(16);
        self.len = store.len();
        self.our_buffer.clear();
        self.our_buffer.resize(self.begin, GUARD_BYTE);
        self.our_buffer.extend_from_slice(store);
        self.our_buffer.resize(self.begin + self.len + GUARD, GUARD_BYTE);
        self.foreign_buffer.clone_from(&self.our_buffer);
    }

    /// The lent store on our side.
    fn store(&self) -> &[u8] {
        &self.our_buffer[self.begin..self.begin + self.len]
    }

    /// One call on both sides: the answers, all bytes and both guards must be equal after it.
    fn call(&mut self, call: Call) -> Result<Answer, Box<Difference>> {
        self.calls += 1;
        let before = self.store().to_vec();
        let rules = self.rules(call);
        let (begin, len) = (self.begin, self.len);
        let answer = carry_out(OURS, call, &mut self.our_buffer, begin, len);
        let foreign = carry_out(self.foreign, call, &mut self.foreign_buffer, begin, len);
        match call {
            Call::Start => self.met.note(format!("START {}", answer.refusal)),
            Call::Act(numbers) => {
                let store = &self.our_buffer[self.begin..self.begin + self.len];
                self.met.note_act(store, numbers, answer);
                self.met.note_order(numbers[0], &rules);
                if self.kind == REACHED {
                    self.met.note(format!("reached {} {}", name(numbers[0]), answer.refusal));
                }
            }
        }
        if answer != foreign || self.our_buffer != self.foreign_buffer {
            let bytes = self.unequal_bytes();
            let text = format!("{call:?}: ours {answer:?}, foreign {foreign:?}, {bytes}");
            return Err(self.wrong(&text, before));
        }
        if answer.refusal != rules.first().copied().unwrap_or(0) {
            return Err(self.wrong(&format!("{call:?}: {answer:?}, but {rules:?} apply"), before));
        }
        if answer.refusal != 0 && self.store() != before {
            return Err(self.wrong(&format!("{call:?}: a refusal changed a byte"), before));
        }
        Ok(answer)
    }

    /// The refusals whose rules apply to a call on the lent store, the one to be given first.
    fn rules(&self, call: Call) -> Vec<u32> {
        match call {
            Call::Start if self.len != part::SIZE => vec![1],
            Call::Start => Vec::new(),
            Call::Act(_) if !well_formed(self.store()) => vec![1],
            Call::Act([code, ..]) if !(1..=10).contains(&code) => vec![2],
            Call::Act(numbers) => rules::applying(&Machine::read(self.store()), numbers),
        }
    }

    /// The first bytes that are not equal, by their place in the store.
    fn unequal_bytes(&self) -> String {
        let pairs = self.our_buffer.iter().zip(&self.foreign_buffer).enumerate();
        let unequal: Vec<String> = pairs
            .filter(|(_, (ours, foreign))| ours != foreign)
            .map(|(at, (ours, foreign))| {
                format!("byte {}: {ours} and {foreign}", at as i64 - self.begin as i64)
            })
            .collect();
        let shown = unequal.iter().take(8).cloned().collect::<Vec<_>>().join(", ");
        format!("{} bytes unequal {shown}", unequal.len())
    }

    /// A difference at this call.
    fn wrong(&self, what: &str, before: Vec<u8>) -> Box<Difference> {
        let text = format!("call {} on {} of {} bytes: {what}", self.calls, self.kind, self.len);
        Box::new(Difference { text, before })
    }
}

/// Makes a call of an implementation on the `len` bytes of a buffer that begin at `begin`.
fn carry_out(
    implementation: Implementation,
    call: Call,
    buffer: &mut [u8],
    begin: usize,
    len: usize,
) -> Answer {
    assert!(begin + len <= buffer.len());
    // SAFETY: the bytes are the buffer's; a library that does not keep to them meets its guards.
    unsafe {
        let store = buffer.as_mut_ptr().add(begin);
        match call {
            Call::Start => (implementation.start)(store, len),
            Call::Act([code, a, o, b]) => (implementation.act)(store, len, code, a, o, b),
        }
    }
}
