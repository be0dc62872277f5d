//! The bench cases 1 to 12 of document 01: acts and the answers that it states.

/// Codes of the acts.
pub const MAKE: u32 = 1;
pub const SEND: u32 = 2;
pub const COPY: u32 = 3;
pub const DROP: u32 = 4;
pub const DELIVER: u32 = 5;
pub const HEAR: u32 = 6;
pub const ASK: u32 = 7;
pub const RETIRE: u32 = 8;
pub const SETTLE: u32 = 9;
pub const HOLD: u32 = 10;

/// An act (code, A, o, B) and its answer (refusal, value).
pub type Step = ([u32; 4], [u32; 2]);

/// A case: object 0 has home 0 where `made`, then the steps on the same store.
pub struct Case {
    pub number: usize,
    pub made: bool,
    pub steps: Vec<Step>,
}

/// The answer of an act that is taken with value 0.
const TAKEN: [u32; 2] = [0, 0];

/// The same step several times.
fn times(count: usize, step: Step) -> Vec<Step> {
    vec![step; count]
}

/// Case 4, which case 5 goes on from: 0 sends to 1, 1 sends to 2, 2 drops and is heard.
fn passed_on() -> Vec<Step> {
    vec![
        ([SEND, 0, 0, 1], TAKEN),
        ([DELIVER, 0, 0, 1], TAKEN),
        ([SEND, 1, 0, 2], TAKEN),
        ([DELIVER, 1, 0, 2], TAKEN),
        ([DROP, 2, 0, 0], TAKEN),
        ([HEAR, 2, 0, 0], TAKEN),
        ([HEAR, 2, 0, 0], TAKEN),
        ([ASK, 0, 0, 0], [0, 0]),
        ([HOLD, 1, 0, 0], [0, 1]),
        ([SETTLE, 0, 0, 0], [0, 2]),
    ]
}

/// The twelve cases.
pub fn cases() -> Vec<Case> {
    let steps = [
        vec![([ASK, 0, 0, 0], [5, 0]), ([ASK, 0, 64, 0], [4, 0])],
        vec![
            ([MAKE, 0, 0, 0], [0, 0]),
            ([ASK, 0, 0, 0], [0, 1]),
            ([RETIRE, 0, 0, 0], [13, 0]),
            ([DROP, 0, 0, 0], TAKEN),
            ([RETIRE, 0, 0, 0], TAKEN),
            ([MAKE, 3, 0, 0], [0, 0]),
        ],
        vec![
            ([SEND, 0, 0, 1], TAKEN),
            ([ASK, 0, 0, 0], [0, 0]),
            ([DELIVER, 0, 0, 1], TAKEN),
            ([DROP, 1, 0, 0], TAKEN),
            ([SETTLE, 0, 0, 0], [0, 2]),
            ([ASK, 0, 0, 0], [0, 0]),
            ([HEAR, 1, 0, 0], TAKEN),
            ([HEAR, 1, 0, 0], TAKEN),
            ([ASK, 0, 0, 0], [0, 1]),
        ],
        passed_on(),
        [
            passed_on(),
            vec![
                ([DROP, 1, 0, 0], TAKEN),
                ([HEAR, 1, 0, 0], TAKEN),
                ([ASK, 0, 0, 0], [0, 0]),
                ([HEAR, 1, 0, 0], TAKEN),
                ([ASK, 0, 0, 0], [0, 0]),
                ([HEAR, 1, 0, 0], TAKEN),
                ([ASK, 0, 0, 0], [0, 1]),
            ],
        ]
        .concat(),
        vec![([SEND, 0, 0, 0], [6, 0]), ([DROP, 2, 0, 0], [7, 0]), ([SEND, 8, 64, 0], [3, 0])],
        vec![([MAKE, 8, 0, 0], [3, 0]), ([11, 0, 0, 0], [2, 0]), ([HEAR, 1, 0, 0], [9, 0])],
        vec![
            ([SEND, 0, 0, 1], TAKEN),
            ([DELIVER, 0, 0, 1], TAKEN),
            ([SEND, 1, 0, 0], TAKEN),
            ([DROP, 1, 0, 0], TAKEN),
            ([HEAR, 1, 0, 0], TAKEN),
            ([HEAR, 1, 0, 0], TAKEN),
            ([HEAR, 1, 0, 0], TAKEN),
            ([ASK, 0, 0, 0], [0, 0]),
            ([DELIVER, 1, 0, 0], TAKEN),
            ([ASK, 0, 0, 0], [0, 1]),
        ],
        [times(16, ([SEND, 0, 0, 1], TAKEN)), vec![([SEND, 0, 0, 1], [10, 0])]].concat(),
        [
            times(2, ([SEND, 0, 0, 1], TAKEN)),
            vec![([DELIVER, 0, 0, 1], TAKEN)],
            times(31, ([COPY, 1, 0, 0], TAKEN)),
            vec![
                ([COPY, 1, 0, 0], [11, 0]),
                ([DELIVER, 0, 0, 1], [11, 0]),
                ([HEAR, 1, 0, 0], TAKEN),
                ([COPY, 1, 0, 0], TAKEN),
                ([COPY, 1, 0, 0], [11, 0]),
                ([HEAR, 1, 0, 0], TAKEN),
                ([DELIVER, 0, 0, 1], TAKEN),
            ],
        ]
        .concat(),
        [
            times(199, ([COPY, 0, 0, 0], TAKEN)),
            vec![([HOLD, 0, 0, 0], [0, 200]), ([COPY, 0, 0, 0], [8, 0])],
        ]
        .concat(),
        [
            (0..64).map(|object| ([MAKE, 0, 0, 0], [0, object])).collect(),
            vec![([MAKE, 0, 0, 0], [12, 0])],
        ]
        .concat(),
    ];
    let unmade = [1, 2, 7, 12];
    (1..)
        .zip(steps)
        .map(|(number, steps)| Case { number, made: !unmade.contains(&number), steps })
        .collect()
}

#[cfg(test)]
mod tests {
    use super::*;
    use crate::layout::{Machine, OBJECTS, PORTS, part};
    use crate::model::{Answer, act, start};

    /// A fresh store on which a case's acts were done, each with the answer that it states.
    fn done(case: &Case) -> Vec<u8> {
        let mut store = vec![1; part::SIZE];
        assert_eq!(start(&mut store), Answer { refusal: 0, value: 0 });
        if case.made {
            assert_eq!(act(&mut store, MAKE, 0, 0, 0), Answer { refusal: 0, value: 0 });
        }
        for (at, &([code, a, o, b], [refusal, value])) in case.steps.iter().enumerate() {
            let answer = act(&mut store, code, a, o, b);
            assert_eq!(answer, Answer { refusal, value }, "case {} step {at}", case.number);
        }
        store
    }

    #[test]
    fn every_case_answers_as_stated() {
        let cases = cases();
        assert_eq!(cases.len(), 12);
        for case in &cases {
            done(case);
        }
    }

    #[test]
    fn the_books_of_case_4() {
        let machine = Machine::read(&done(&cases()[3]));
        let transits: Vec<i32> = (0..PORTS).map(|port| machine.heard_transits[port][0]).collect();
        assert_eq!(transits, [0, 1, -1, 0, 0, 0, 0, 0]);
        assert!((1..PORTS).all(|port| machine.heard_holdings[port][0] == 0));
    }

    #[test]
    fn the_store_is_laid_out_as_stated() {
        assert_eq!(part::SIZE, 7360);
        let mut store = vec![255; 7360];
        start(&mut store);
        for (at, &byte) in store.iter().enumerate() {
            let transit = (64 + 512 + 512..64 + 512 + 512 + 1024).contains(&at);
            assert_eq!(byte, if transit && at % 2 == 0 { 224 } else { 0 }, "byte {at}");
        }
        // Object 0 with home 2, held twice; a pointer to port 5; port 5's receipt on its way.
        for numbers in
            [[MAKE, 2, 0, 0], [COPY, 2, 0, 0], [SEND, 2, 0, 5], [SEND, 2, 0, 5], [DELIVER, 2, 0, 5]]
        {
            act(&mut store, numbers[0], numbers[1], numbers[2], numbers[3]);
        }
        let mut stated = vec![0; 7360];
        start(&mut stated);
        stated[0] = 3;
        stated[64 + 64 * 2] = 2;
        stated[64 + 64 * 5] = 1;
        stated[64 + 512 + 64 * 2] = 2;
        stated[64 + 512 + 512 + 2 * 64 * 5] = 226;
        stated[2112 + 17 * (8 * 2 + 5)] = 1;
        stated[3200 + 65 * (8 * 5 + 2)] = 1;
        stated[3200 + 65 * (8 * 5 + 2) + 1] = OBJECTS as u8;
        assert_eq!(store, stated);
    }

    #[test]
    fn another_size_is_refused_and_not_written() {
        for size in [0, 1, 7359, 7361, 14720] {
            let mut store = vec![7; size];
            assert_eq!(start(&mut store), Answer { refusal: 1, value: 0 });
            for code in 0..12 {
                assert_eq!(act(&mut store, code, 0, 0, 0), Answer { refusal: 1, value: 0 });
            }
            assert!(store.iter().all(|&byte| byte == 7));
        }
    }
}
