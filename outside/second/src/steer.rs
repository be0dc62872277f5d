//! Random acts that lead somewhere: lanes fill, holdings reach 200, every refusal is met.

use crate::dice::Dice;
use crate::layout::{OBJECTS, PORTS, part};

/// The acts' names, by code less 1.
pub const ACTS: [&str; 10] =
    ["MAKE", "SEND", "COPY", "DROP", "DELIVER", "HEAR", "ASK", "RETIRE", "SETTLE", "HOLD"];

/// Which of A, o and B each act names, in the order of `ACTS`; last a code that is no act.
const NAMED: [[bool; 3]; 11] = [
    [true, false, false],
    [true, true, true],
    [true, true, false],
    [true, true, false],
    [true, false, true],
    [true, false, true],
    [false, true, false],
    [false, true, false],
    [false, false, false],
    [true, true, false],
    [false, false, false],
];

/// What a stretch of acts is after.
struct Mood {
    /// How often each act is chosen, in the order of `NAMED`.
    weights: [usize; 11],
    /// With how many objects the stretch stays, one of these.
    objects: &'static [usize],
    /// With how many ports, one of these.
    ports: &'static [usize],
}

/// A mood of few or all objects and ports.
const fn wide(weights: [usize; 11]) -> Mood {
    Mood { weights, objects: &[1, 1, 2, 4, OBJECTS], ports: &[2, 3, 4, PORTS] }
}

/// The moods: anything; all objects in use; full pointer lanes; full report lanes; everything
/// delivered and heard; objects retired; holdings of 200, for one object and two ports.
const MOODS: [Mood; 7] = [
    wide([5, 15, 15, 15, 15, 15, 5, 5, 3, 5, 2]),
    wide([40, 20, 10, 5, 8, 8, 2, 2, 2, 2, 2]),
    wide([2, 60, 8, 2, 4, 14, 2, 1, 2, 3, 2]),
    wide([2, 12, 30, 25, 20, 1, 2, 1, 2, 3, 2]),
    wide([1, 3, 1, 10, 40, 35, 3, 3, 2, 1, 1]),
    wide([2, 1, 0, 25, 22, 25, 5, 15, 2, 2, 1]),
    Mood { weights: [1, 12, 60, 0, 6, 32, 1, 1, 1, 2, 1], objects: &[1], ports: &[2] },
];

/// A stretch of acts: its mood, the objects and ports it stays with, the highest number it may state.
pub struct Steer {
    weights: [usize; 11],
    objects: Vec<usize>,
    ports: Vec<usize>,
    highest: u32,
}

impl Steer {
    /// A stretch with a random mood, few or all objects, mostly in use, and few or all ports.
    pub fn new(store: &[u8], highest: u32, dice: &mut Dice) -> Steer {
        let all: Vec<usize> = (0..OBJECTS).collect();
        let used: Vec<usize> = all
            .iter()
            .copied()
            .filter(|&object| store.get(object).is_some_and(|&byte| byte > 0))
            .collect();
        let from = if used.is_empty() || dice.once_in(8) { &all } else { &used };
        let mood = &MOODS[dice.below(MOODS.len())];
        Steer {
            weights: mood.weights,
            objects: some(from, mood.objects, dice),
            ports: some(&all[..PORTS], mood.ports, dice),
            highest,
        }
    }

    /// The next act: code, A, o, B. Mostly one that can be taken on this store; numbers that it
    /// does not name are often ones that no act could take.
    pub fn next(&self, store: &[u8], dice: &mut Dice) -> [u32; 4] {
        let act = self.act(dice);
        let code = if act < 10 { act as u32 + 1 } else { self.no_act(dice) };
        let (a, o) = match act {
            1..=3 | 9 if !dice.once_in(8) => self.holder(store, dice),
            _ => (dice.pick(&self.ports), dice.pick(&self.objects)),
        };
        let (a, b) = match act {
            4 => self.lane(store, part::POINTERS, part::POINTER_LANE, dice),
            5 => self.lane(store, part::REPORTS, part::REPORT_LANE, dice),
            _ => (a, self.another(a, dice)),
        };
        let mut numbers = [code, a as u32, o as u32, b as u32];
        for (number, named) in numbers[1..].iter_mut().zip(NAMED[act]) {
            if !named && dice.once_in(2) {
                *number = self.odd(*number, dice);
            }
        }
        let mut seldom = 10;
        while dice.once_in(seldom) {
            let at = dice.below(4);
            numbers[at] = self.odd(numbers[at], dice);
            seldom = 2;
        }
        if dice.once_in(30) {
            numbers[3] = numbers[1];
        }
        numbers
    }

    /// An act's place in `NAMED`, by the mood's weights.
    fn act(&self, dice: &mut Dice) -> usize {
        let mut left = dice.below(self.weights.iter().sum());
        let mut act = 0;
        while left >= self.weights[act] {
            left -= self.weights[act];
            act += 1;
        }
        act
    }

    /// A code that is no act.
    fn no_act(&self, dice: &mut Dice) -> u32 {
        if dice.once_in(2) { 0 } else { self.odd(11, dice).max(11) }
    }

    /// A number near a limit, or the valid one with higher bits added.
    pub fn odd(&self, valid: u32, dice: &mut Dice) -> u32 {
        let added = [1 << 8, 1 << 16, 1 << 24, 1 << 31].map(|bit| valid | bit);
        let limits = [8, 9, 63, 64, 65, 128, 255, 256, 257, 65535, 65536, 65537, 1 << 31, u32::MAX];
        let number = match dice.below(4) {
            0 | 1 => dice.pick(&limits),
            2 => dice.pick(&added),
            _ => dice.word() >> dice.below(32),
        };
        if number <= self.highest { number } else { valid | 1 << 8 }
    }

    /// A port that is mostly not the given one.
    fn another(&self, port: usize, dice: &mut Dice) -> usize {
        let mut drawn = port;
        for _ in 0..4 {
            if drawn == port {
                drawn = dice.pick(&self.ports);
            }
        }
        drawn
    }

    /// A port and an object that it holds, if a few draws find one.
    fn holder(&self, store: &[u8], dice: &mut Dice) -> (usize, usize) {
        let mut drawn = (0, 0);
        for _ in 0..12 {
            drawn = (dice.pick(&self.ports), dice.pick(&self.objects));
            if store.get(part::HOLDINGS + OBJECTS * drawn.0 + drawn.1).is_some_and(|&held| held > 0)
            {
                break;
            }
        }
        drawn
    }

    /// Two ports with an entry on the lane between them, if a few draws find some.
    fn lane(&self, store: &[u8], begin: usize, bytes: usize, dice: &mut Dice) -> (usize, usize) {
        let mut drawn = (0, 0);
        for _ in 0..12 {
            drawn.0 = dice.pick(&self.ports);
            drawn.1 = self.another(drawn.0, dice);
            let lane = PORTS * drawn.0 + drawn.1;
            if store.get(begin + bytes * lane).is_some_and(|&length| length > 0) {
                break;
            }
        }
        drawn
    }
}

/// As many of the given as one of the sizes says, the first ones or drawn at random.
fn some(from: &[usize], sizes: &[usize], dice: &mut Dice) -> Vec<usize> {
    let mut left = from.to_vec();
    let size = dice.pick(sizes).min(left.len());
    if dice.once_in(2) {
        left.truncate(size);
        return left;
    }
    (0..size).map(|_| left.swap_remove(dice.below(left.len()))).collect()
}
