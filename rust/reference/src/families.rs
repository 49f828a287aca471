//! Families of machines that tests go through.

use crate::Machine;
use std::ops::Range;

/// All machines with `states` states over one letter whose set of transitions is in `subsets`: bit k stands for transition
/// k of all there can be, in rising order.
pub fn small_machines(states: usize, subsets: Range<usize>) -> Vec<Machine> {
    machines_with(states, 1, subsets)
}

/// All machines with `states` states over `letters` letters that have at most `most` transitions.
pub fn few_transitions(states: usize, letters: usize, most: u32) -> Vec<Machine> {
    let all = states * (letters + 1) * states;
    let few = (0..1 << all).filter(|subset: &usize| subset.count_ones() <= most);
    machines_with(states, letters, few)
}

/// All machines whose set of transitions is one of the subsets.
fn machines_with(
    states: usize,
    letters: usize,
    subsets: impl Iterator<Item = usize>,
) -> Vec<Machine> {
    let mut all = Vec::new();
    for from in 0..states {
        for letter in 0..=letters {
            for to in 0..states {
                all.push((from, letter, to));
            }
        }
    }
    let good: Vec<u8> = (0..16).filter(|mark| mark & 12 != 12).collect();
    let mut found = Vec::new();
    for subset in subsets {
        let chosen: Vec<_> = (0..all.len())
            .filter(|bit| subset >> bit & 1 == 1)
            .map(|bit| all[bit])
            .collect();
        for number in 0..good.len().pow(states as u32) {
            let marks: Vec<u8> = (0..states as u32)
                .map(|state| good[number / good.len().pow(state) % good.len()])
                .collect();
            found.push(Machine::new(letters, &marks, &chosen));
        }
    }
    found
}

/// The plain machine of the words whose length is `rest` more than a multiple of `cycle`.
pub fn length_modulo(letters: usize, cycle: usize, rest: usize) -> Machine {
    let marks: Vec<u8> = (0..cycle)
        .map(|state| u8::from(state == 0) + 2 * u8::from(state == rest))
        .collect();
    let mut transitions = Vec::new();
    for state in 0..cycle {
        transitions.extend((1..=letters).map(|letter| (state, letter, (state + 1) % cycle)));
    }
    Machine::new(letters, &marks, &transitions)
}
