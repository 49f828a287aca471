//! Random machines for the common-word search.

use crate::copy_chains::every_word;
use crate::{random_machine, Rng};
use reference::families::length_modulo;
use reference::Machine;

/// A machine of 2 to `states` states, mostly with a copy on the way from the first state to the last.
pub fn random_copying(rng: &mut Rng, states: usize, letters: usize) -> Machine {
    let states = 2 + rng.below(states - 1);
    let mut marks: Vec<u8> = (0..states).map(|_| rng.pick(&[0, 4, 8, 8])).collect();
    marks[0] = rng.pick(&[1, 5, 5]);
    marks[states - 1] = rng.pick(&[2, 10, 10]);
    let mut transitions = Vec::new();
    for _ in 0..states + rng.below(states * (letters + 1)) {
        let letter = rng.below(letters + 1);
        transitions.push((rng.below(states), letter, rng.below(states)));
    }
    Machine::new(letters, &marks, &transitions)
}

/// A chain of short ways from the first state to the last: normal moves and copies, some of them empty.
pub fn random_chain(rng: &mut Rng, letters: usize) -> Machine {
    let mut marks = vec![0];
    let mut transitions = Vec::new();
    for _ in 0..1 + rng.below(3) {
        let begin = marks.len() - 1;
        if rng.once_in(4) {
            marks.push(0);
            transitions.push((begin, rng.below(letters + 1), begin + 1));
            continue;
        }
        // A copy: a buffering state, at times a storing one, one or two that match.
        let mut last = begin;
        if marks[begin] == 8 {
            marks.push(4);
            transitions.push((begin, 0, begin + 1));
            last += 1;
        } else {
            marks[begin] = 4;
        }
        if rng.once_in(2) {
            marks.push(0);
            transitions.push((last, rng.below(letters + 1), last + 1));
            transitions.push((last + 1, rng.below(letters + 1), last + 1));
            last += 1;
        }
        marks.push(8);
        transitions.push((last, rng.below(letters + 1), last + 1));
        last += 1;
        if rng.once_in(2) {
            marks.push(8);
            transitions.push((last, rng.below(letters + 1), last + 1));
            transitions.push((last + 1, rng.below(letters + 1), last));
        }
        for _ in 0..rng.below(3) {
            transitions.push((last, rng.below(letters + 1), last));
        }
    }
    let states = marks.len();
    marks[0] |= 1;
    marks[states - 1] |= 2;
    for _ in 0..rng.pick(&[0, 0, 1, 3]) {
        transitions.push((rng.below(states), rng.below(letters + 1), rng.below(states)));
    }
    Machine::new(letters, &marks, &transitions)
}

/// A plain machine with up to the given number of states.
pub fn random_plain(rng: &mut Rng, states: usize, letters: usize) -> Machine {
    let states = 1 + rng.below(states);
    match rng.below(4) {
        0 => return every_word(letters),
        1 => return length_modulo(letters, states, rng.below(states)),
        _ => {}
    }
    let mut marks: Vec<u8> = (0..states).map(|_| rng.pick(&[0, 0, 1, 2])).collect();
    marks[0] |= 1;
    marks[states - 1] |= 2;
    let mut transitions = Vec::new();
    if letters > 0 {
        for _ in 0..states + rng.below(2 * states * letters) {
            let letter = 1 + rng.below(letters);
            transitions.push((rng.below(states), letter, rng.below(states)));
        }
    }
    Machine::new(letters, &marks, &transitions)
}

/// A second machine for `first`: mostly plain with up to the given number of states and as many letters; at times plain
/// with too many states, of any kind, or with another number of letters.
pub fn random_second(rng: &mut Rng, first: &Machine, states: usize) -> Machine {
    let letters = match rng.below(12) {
        0 => rng.below(4),
        _ => first.letters,
    };
    match rng.below(24) {
        0 => random_machine(rng, 4, letters),
        1 | 2 => random_plain(rng, 60, letters),
        _ => random_plain(rng, states, letters),
    }
}
