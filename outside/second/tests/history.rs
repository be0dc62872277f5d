//! What documents 01 and 004 claim of stores that acts alone made, tried on the second program.

use second::cases::{ASK, DELIVER, HEAR, SETTLE};
use second::dice::Dice;
use second::layout::{Machine, OBJECTS, PORTS, part};
use second::model::{act, start};
use second::steer::Steer;

/// Walks at random from a fresh store and shows each store on the way.
fn walk(seed: u64, mut look: impl FnMut(&[u8])) {
    let mut dice = Dice::new(seed);
    let mut store = vec![0; part::SIZE];
    start(&mut store);
    for _ in 0..12 {
        let steer = Steer::new(&store, u32::MAX, &mut dice);
        for _ in 0..300 {
            let [code, a, o, b] = steer.next(&store, &mut dice);
            act(&mut store, code, a, o, b);
        }
        look(&store);
    }
}

/// The verdict on an object in use.
fn verdict(store: &[u8], object: usize) -> u32 {
    let answer = act(&mut store.to_vec(), ASK, 0, object as u32, 0);
    assert_eq!(answer.refusal, 0);
    answer.value
}

#[test]
fn absent_means_that_no_pointer_is_left_away_from_home() {
    let mut absent = 0;
    for seed in 0..20 {
        walk(seed, |store| {
            let machine = Machine::read(store);
            for object in 0..OBJECTS {
                let Some(home) = machine.homes[object] else { continue };
                if verdict(store, object) == 0 {
                    continue;
                }
                absent += 1;
                assert!((0..PORTS).all(|port| port == home || machine.holdings[port][object] == 0));
                assert!(!machine.pointers.iter().flatten().flatten().any(|&entry| entry == object));
            }
        });
    }
    assert!(absent > 50, "{absent}");
}

#[test]
fn the_settling_number_bounds_what_is_left_and_the_books_then_tell_the_truth() {
    for seed in 100..108 {
        walk(seed, |store| {
            let mut store = store.to_vec();
            let bound = act(&mut store, SETTLE, 0, 0, 0).value;
            let mut taken = 0;
            loop {
                let before = taken;
                for from in 0..PORTS as u32 {
                    for to in 0..PORTS as u32 {
                        for code in [DELIVER, HEAR] {
                            taken += u32::from(act(&mut store, code, from, 0, to).refusal == 0);
                        }
                    }
                }
                if taken == before {
                    break;
                }
            }
            assert!(taken <= bound, "{taken} of {bound}");
            assert_eq!(act(&mut store, SETTLE, 0, 0, 0).value, 0);
            let machine = Machine::read(&store);
            assert_eq!(machine.heard_holdings, machine.holdings);
            assert!(machine.heard_transits.iter().flatten().all(|&transit| transit == 0));
        });
    }
}
