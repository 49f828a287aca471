//! Machines and words with many copies: the bad cases of recognition.

use crate::{random_machine, Rng};
use reference::Machine;

/// A machine of several parts one after another, the last one final. Each part is a copy zone or plain; a copy zone
/// stores and matches in loops over some letters. Epsilon cycles and a few other transitions are put in.
pub fn zones(rng: &mut Rng, states: usize, letters: usize) -> Machine {
    let mut marks: Vec<u8> = Vec::new();
    let mut transitions = Vec::new();
    let mut last: Option<usize> = None;
    while marks.len() + 4 <= states {
        let begins = marks.len();
        let copies = rng.below(4) > 0;
        let ends;
        if copies {
            marks.extend([4, 0, 8]);
            transitions.extend([(begins, 0, begins + 1), (begins + 1, 0, begins + 2)]);
            ends = begins + 2;
            if rng.once_in(3) {
                // A second matching state, with an epsilon cycle between the two.
                marks.push(8);
                transitions.extend([(ends, 0, ends + 1), (ends + 1, 0, ends)]);
                transitions.push((ends + 1, 1 + rng.below(letters), ends));
            }
        } else {
            marks.extend([0, 0]);
            transitions.extend([(begins, 0, begins + 1), (begins + 1, 0, begins)]);
            ends = begins;
        }
        for letter in 1..=letters {
            if rng.below(8) > 0 {
                transitions.push((begins + 1, letter, begins + 1));
            }
            if rng.below(8) > 0 {
                transitions.push((ends, letter, ends));
            }
        }
        if let Some(last) = last {
            let letter = rng.pick(&[0, 0, 1]);
            transitions.push((last, letter, begins));
            if rng.once_in(3) {
                transitions.push((ends, 0, last));
            }
            if rng.once_in(4) {
                // Back to the first part.
                transitions.push((ends, 0, 0));
            }
        }
        last = Some(ends);
    }
    let ends = last.expect("a part");
    marks[0] |= 1;
    marks[ends] |= 2;
    while marks.len() < states {
        marks.push(rng.pick(&[0, 1, 2, 8, 4]));
    }
    for _ in 0..rng.pick(&[0, 2, states]) {
        transitions.push((rng.below(states), rng.below(letters + 1), rng.below(states)));
    }
    Machine::new(letters, &marks, &transitions)
}

/// A word of squares, near-squares and single letters.
pub fn long_word(rng: &mut Rng, letters: usize, length: usize) -> Vec<u8> {
    let mut word: Vec<u8> = Vec::new();
    let few = 1 + rng.below(letters);
    while word.len() < length {
        let half = match rng.below(4) {
            0 => rng.below(3),
            1 => length / 2,
            _ => 1 + rng.below(40),
        };
        let part: Vec<u8> = match rng.below(3) {
            0 => vec![1 + rng.below(letters) as u8; half],
            1 => {
                let period = 1 + rng.below(4);
                let piece: Vec<u8> = (0..period).map(|_| 1 + rng.below(few) as u8).collect();
                (0..half).map(|i| piece[i % period]).collect()
            }
            _ => (0..half).map(|_| 1 + rng.below(few) as u8).collect(),
        };
        word.extend(&part);
        let copied = word.len();
        if rng.below(5) > 0 {
            word.extend(&part);
            if half > 0 && rng.once_in(6) {
                // Not quite the same.
                word[copied + rng.below(half)] = 1 + rng.below(letters) as u8;
            }
        }
    }
    word.truncate(length);
    word
}

/// A chain, a loop or a circle of states with this mark, all letters leading on: where it begins and where it ends.
fn part(
    rng: &mut Rng,
    letters: usize,
    mark: u8,
    marks: &mut Vec<u8>,
    transitions: &mut Vec<(usize, usize, usize)>,
) -> (usize, usize) {
    let begin = marks.len();
    let length = 1 + rng.below(5);
    let circle = rng.once_in(2);
    marks.resize(begin + length, mark);
    for state in 0..length {
        let next = match state + 1 == length {
            true if circle => 0,
            true => continue,
            false => state + 1,
        };
        transitions.extend((1..=letters).map(|letter| (begin + state, letter, begin + next)));
    }
    let end = if circle {
        rng.below(length)
    } else {
        length - 1
    };
    (begin, begin + end)
}

/// Copy zones in a circle, each of which stores and matches numbers of letters of its own; some lead back to the first.
pub fn zone_circle(rng: &mut Rng, letters: usize) -> Machine {
    let (mut marks, mut transitions) = (Vec::new(), Vec::new());
    let mut last = None;
    for _ in 0..1 + rng.below(5) {
        let begin = marks.len();
        marks.push(4);
        let (store, stored) = part(rng, letters, 0, &mut marks, &mut transitions);
        let (matching, matched) = part(rng, letters, 8, &mut marks, &mut transitions);
        transitions.extend([(begin, 0, store), (stored, 0, matching)]);
        if rng.once_in(3) {
            transitions.push((begin, 1 + rng.below(letters), store));
        }
        transitions.extend(last.map(|last| (last, 0, begin)));
        if rng.once_in(3) {
            transitions.push((matched, 0, 0));
            marks[matched] |= 2;
        }
        last = Some(matched);
    }
    let last = last.expect("a zone");
    transitions.push((last, 0, 0));
    marks[0] |= 1;
    marks[last] |= 2;
    if rng.once_in(2) {
        // A plain state with a loop, so that copies begin at every place.
        let plain = marks.len();
        marks.push(2);
        transitions.extend([(last, 0, plain), (plain, 0, 0)]);
        transitions.extend((1..=letters).map(|letter| (plain, letter, plain)));
    }
    Machine::new(letters, &marks, &transitions)
}

/// A word with many squares: periodic, with all letters of a period different where there are so many, or a Fibonacci
/// word; with a few letters changed.
pub fn repetitive_word(rng: &mut Rng, letters: usize, length: usize) -> Vec<u8> {
    let mut word: Vec<u8> = if rng.once_in(4) {
        let (mut last, mut word) = (vec![1], vec![1, 1 + (letters > 1) as u8]);
        while word.len() < length {
            let next = [word.clone(), last].concat();
            last = std::mem::replace(&mut word, next);
        }
        word
    } else {
        let period = rng.pick(&[1, 1, 2, 3, 5, letters]);
        (0..length)
            .map(|place| 1 + (place % period % letters) as u8)
            .collect()
    };
    word.truncate(length);
    for _ in 0..rng.pick(&[0, 0, 0, 1, 3]) {
        if length > 0 {
            word[rng.below(length)] = 1 + rng.below(letters) as u8;
        }
    }
    word
}

/// Copy zones, in a circle or one after another, to 64 states, or a random machine of up to 5 states; of at most two
/// letters.
pub fn zones_or_random(rng: &mut Rng) -> Machine {
    let letters = 1 + rng.below(2);
    match rng.below(20) {
        0 => zones(rng, 64, letters),
        1..=6 => zones(rng, 12, letters),
        7..=12 => zone_circle(rng, letters),
        _ => random_machine(rng, 5, 2),
    }
}
