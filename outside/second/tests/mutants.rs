//! The comparison must find a machine that is wrong in one point: each mutant below is.

use second::compare::{Act, Implementation, OURS, Start, compare};
use second::layout::{MOST_HELD, Machine, OBJECTS, POINTER_PLACES, PORTS, part};
use second::model::{self, Answer, act};
use second::wellformed::well_formed;

/// Calls within which each mutant must be found.
const CALLS: u64 = 200_000;

/// An act of a mutant, as the second program has it.
type Plain = fn(&mut [u8], [u32; 4]) -> Answer;

/// A mutant's act as a library exports it.
macro_rules! exported {
    ($plain:expr) => {{
        unsafe extern "C" fn act(
            store: *mut u8,
            len: usize,
            code: u32,
            a: u32,
            o: u32,
            b: u32,
        ) -> Answer {
            const PLAIN: Plain = $plain;
            // SAFETY: the comparison lends `len` bytes.
            PLAIN(unsafe { std::slice::from_raw_parts_mut(store, len) }, [code, a, o, b])
        }
        act as Act
    }};
}

/// The right act.
fn right(store: &mut [u8], [code, a, o, b]: [u32; 4]) -> Answer {
    act(store, code, a, o, b)
}

/// The right act, then another answer where the test holds for the store and the answer.
fn or_else(
    store: &mut [u8],
    numbers: [u32; 4],
    test: impl Fn(&Machine, Answer) -> bool,
    refusal: u32,
    value: u32,
) -> Answer {
    let answer = right(store, numbers);
    let wrong = answer.refusal != 1 && test(&Machine::read(store), answer);
    if wrong { Answer { refusal, value } } else { answer }
}

/// The right act on a machine that was changed, and changed back after it.
fn through(store: &mut [u8], numbers: [u32; 4], change: impl Fn(&mut Machine)) -> Answer {
    if !well_formed(store) {
        return right(store, numbers);
    }
    let mut changed = Machine::read(store);
    change(&mut changed);
    let mut other = changed.write();
    let answer = right(&mut other, numbers);
    let mut back = Machine::read(&other);
    change(&mut back);
    store.copy_from_slice(&back.write());
    answer
}

/// What the right act answers on a machine that was changed; the store follows the right act.
fn asked(store: &mut [u8], numbers: [u32; 4], change: impl Fn(&mut Machine)) -> Answer {
    if !well_formed(store) {
        return right(store, numbers);
    }
    let mut machine = Machine::read(store);
    change(&mut machine);
    let answer = right(&mut machine.write(), numbers);
    right(store, numbers);
    answer
}

/// The mutants of an act, each with what is wrong with it.
fn mutants() -> Vec<(&'static str, Act)> {
    vec![
        ("code taken as a byte", exported!(|s, [c, a, o, b]| right(s, [c & 255, a, o, b]))),
        ("code taken as two bytes", exported!(|s, [c, a, o, b]| right(s, [c & 65535, a, o, b]))),
        ("A taken as a byte", exported!(|s, [c, a, o, b]| right(s, [c, a & 255, o, b]))),
        ("A taken as two bytes", exported!(|s, [c, a, o, b]| right(s, [c, a & 65535, o, b]))),
        ("o taken as a byte", exported!(|s, [c, a, o, b]| right(s, [c, a, o & 255, b]))),
        ("o taken as two bytes", exported!(|s, [c, a, o, b]| right(s, [c, a, o & 65535, b]))),
        ("B taken as a byte", exported!(|s, [c, a, o, b]| right(s, [c, a, o, b & 255]))),
        ("B taken as two bytes", exported!(|s, [c, a, o, b]| right(s, [c, a, o, b & 65535]))),
        (
            "o taken as a signed number",
            exported!(|s, [c, a, o, b]| right(s, [c, a, o & 0x7fff_ffff, b])),
        ),
        (
            "MAKE looks at o",
            exported!(|s, n| or_else(s, n, |_, r| n[0] == 1 && n[2] > 63 && r.refusal == 12, 4, 0)),
        ),
        (
            "DELIVER looks at o",
            exported!(|s, n| or_else(s, n, |_, r| n[0] == 5 && n[2] > 63 && r.refusal > 3, 4, 0)),
        ),
        ("ASK looks at A", exported!(|s, n| or_else(s, n, |_, _| n[0] == 7 && n[1] > 7, 3, 0))),
        ("13 always with value 0", exported!(|s, n| or_else(s, n, |_, r| r.refusal == 13, 13, 0))),
        ("14 answered as taken", exported!(|s, n| or_else(s, n, |_, r| r.refusal == 14, 0, 0))),
        (
            "SEND never gives 14",
            exported!(|s, n| or_else(s, n, |_, r| n[0] == 2 && r.refusal == 14, 0, 0)),
        ),
        (
            "unknown code before a damaged store",
            exported!(|s, n| if (1..=10).contains(&n[0]) {
                right(s, n)
            } else {
                Answer { refusal: 2, value: 0 }
            }),
        ),
        (
            "SETTLE takes a store of any size",
            exported!(|s, n| if n[0] == 9 && s.len() != part::SIZE {
                Answer { refusal: 0, value: 0 }
            } else {
                right(s, n)
            }),
        ),
        (
            "a longer store is taken",
            exported!(|s, n| {
                let len = s.len().min(part::SIZE);
                right(&mut s[..len], n)
            }),
        ),
        (
            "4 before 3",
            exported!(|s, n| or_else(
                s,
                n,
                |_, r| r.refusal == 3 && n[0] < 5 && n[0] > 1 && n[2] > 63,
                4,
                0
            )),
        ),
        (
            "7 before 6",
            exported!(|s, n| or_else(
                s,
                n,
                |m, r| n[0] == 2 && r.refusal == 6 && m.holdings[n[1] as usize][n[2] as usize] == 0,
                7,
                0
            )),
        ),
        (
            "10 before 8",
            exported!(|s, n| or_else(
                s,
                n,
                |m, r| r.refusal == 8
                    && n[0] == 2
                    && m.pointers[n[1] as usize][n[3] as usize].len() == POINTER_PLACES,
                10,
                0
            )),
        ),
        (
            "11 before 10",
            exported!(|s, n| or_else(
                s,
                n,
                |m, r| r.refusal == 10
                    && m.homes[n[2] as usize]
                        .is_some_and(|home| m.reports[n[1] as usize][home].len() == 32),
                11,
                0
            )),
        ),
        (
            "8 counts the one lane alone",
            exported!(|s, n| if n[0] == 2 && n[1] < 8 && n[3] < 8 {
                asked(s, n, |m| {
                    for from in (0..PORTS).filter(|&from| from != n[1] as usize) {
                        m.pointers[from][n[3] as usize].clear();
                    }
                })
            } else {
                right(s, n)
            }),
        ),
        (
            "8 counts no pointers for COPY",
            exported!(|s, n| or_else(
                s,
                n,
                |m, r| n[0] == 3
                    && r.refusal == 8
                    && m.holdings[n[1] as usize][n[2] as usize] < MOST_HELD,
                0,
                0
            )),
        ),
        (
            "ASK leaves out the home's transit",
            exported!(|s, n| if n[0] == 7 {
                asked(s, n, |m| {
                    for object in 0..OBJECTS {
                        if let Some(home) = m.homes[object] {
                            m.heard_transits[home][object] = 0;
                        }
                    }
                })
            } else {
                right(s, n)
            }),
        ),
        (
            "early said to be absent",
            exported!(|s, n| or_else(s, n, |_, r| n[0] == 7 && r.value == 2, 0, 1)),
        ),
        (
            "transit clamped at 0",
            exported!(|s, n| {
                let answer = right(s, n);
                if n[0] == 6 && answer.refusal == 0 {
                    let mut machine = Machine::read(s);
                    let transits = machine.heard_transits.iter_mut().flatten();
                    transits.for_each(|transit| *transit = (*transit).max(0));
                    s.copy_from_slice(&machine.write());
                }
                answer
            }),
        ),
        (
            "SETTLE counts a pointer once",
            exported!(|s, n| if n[0] == 9 {
                asked(s, n, |m| {
                    m.pointers.iter_mut().flatten().for_each(|lane| lane.truncate(lane.len() / 2))
                })
            } else {
                right(s, n)
            }),
        ),
        (
            "HOLD answers the heard holding",
            exported!(|s, n| if n[0] == 10 {
                asked(s, n, |m| m.holdings = m.heard_holdings)
            } else {
                right(s, n)
            }),
        ),
        (
            "the newest pointer delivered",
            exported!(|s, n| if n[0] == 5 {
                through(s, n, |m| m.pointers.iter_mut().flatten().for_each(|lane| lane.reverse()))
            } else {
                right(s, n)
            }),
        ),
        (
            "the newest report heard",
            exported!(|s, n| if n[0] == 6 {
                through(s, n, |m| m.reports.iter_mut().flatten().for_each(|lane| lane.reverse()))
            } else {
                right(s, n)
            }),
        ),
        (
            "places past a length not looked at",
            exported!(|s, n| {
                if s.len() != part::SIZE || well_formed(s) {
                    return right(s, n);
                }
                let mut cleared = s.to_vec();
                for lane in 0..PORTS * PORTS {
                    let at = part::POINTERS + lane * part::POINTER_LANE;
                    let length = usize::from(cleared[at]).min(POINTER_PLACES);
                    cleared[at + 1 + length..at + part::POINTER_LANE].fill(0);
                }
                right(&mut cleared, n)
            }),
        ),
        (
            "a byte written on a refusal",
            exported!(|s, n| {
                let answer = right(s, n);
                if answer.refusal == 11 {
                    s[part::SIZE - 1] ^= 1;
                }
                answer
            }),
        ),
        (
            "a place not cleared by HEAR",
            exported!(|s, n| {
                let answer = right(s, n);
                if n[0] == 6 && answer.refusal == 0 {
                    let lane = PORTS * n[1] as usize + n[3] as usize;
                    let at = part::REPORTS + lane * part::REPORT_LANE;
                    s[at + 1 + 2 * usize::from(s[at])] = answer.value as u8 | 64;
                }
                answer
            }),
        ),
        ("a byte written before the store", {
            unsafe extern "C" fn act(
                s: *mut u8,
                len: usize,
                c: u32,
                a: u32,
                o: u32,
                b: u32,
            ) -> Answer {
                // SAFETY: the comparison lends `len` bytes and has a guard before them.
                unsafe {
                    *s.sub(1) = 0;
                    model::act(std::slice::from_raw_parts_mut(s, len), c, a, o, b)
                }
            }
            act
        }),
        ("a byte written after the store", {
            unsafe extern "C" fn act(
                s: *mut u8,
                len: usize,
                c: u32,
                a: u32,
                o: u32,
                b: u32,
            ) -> Answer {
                // SAFETY: the comparison lends `len` bytes and has a guard after them.
                unsafe {
                    *s.add(len) = 0;
                    model::act(std::slice::from_raw_parts_mut(s, len), c, a, o, b)
                }
            }
            act
        }),
    ]
}

/// START that leaves a byte as it was.
unsafe extern "C" fn start_leaves_a_byte(store: *mut u8, len: usize) -> Answer {
    // SAFETY: the comparison lends `len` bytes.
    let store = unsafe { std::slice::from_raw_parts_mut(store, len) };
    let last = store.last().copied();
    let answer = model::start(store);
    if let (Some(place), Some(byte)) = (store.last_mut(), last) {
        *place = byte;
    }
    answer
}

/// START that clears a store of another size.
unsafe extern "C" fn start_writes_any_size(store: *mut u8, len: usize) -> Answer {
    // SAFETY: the comparison lends `len` bytes.
    let store = unsafe { std::slice::from_raw_parts_mut(store, len) };
    if len != part::SIZE {
        store.fill(0);
    }
    model::start(store)
}

#[test]
fn every_mutant_is_found() {
    let mut unfound = Vec::new();
    for (what, act) in mutants() {
        let mutant = Implementation { act, ..OURS };
        match compare(mutant, 7, CALLS) {
            Ok(_) => unfound.push(what),
            Err(difference) => println!("{what}: {}", difference.text),
        }
    }
    let starts: [(&str, Start); 2] =
        [("a byte left", start_leaves_a_byte), ("any size", start_writes_any_size)];
    for (what, start) in starts {
        let mutant = Implementation { start, ..OURS };
        if compare(mutant, 7, CALLS).is_ok() {
            unfound.push(what);
        }
    }
    assert_eq!(unfound, Vec::<&str>::new());
}

#[test]
fn the_second_program_equals_itself() {
    let met = compare(OURS, 7, CALLS).ok().expect("no difference");
    assert_eq!(met.faults(), Vec::<String>::new());
}
