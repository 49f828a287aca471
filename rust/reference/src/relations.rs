//! The least number of letters of a word that a machine accepts, exact for words of any length.
//!
//! A string gives two relations between states: storing leads from one state to another by it, and so does matching. A
//! machine has finitely many relations, so it is enough to look at the strings in order of their length and to make
//! longer only those that give new relations. So each copy, told by the states where it begins and ends, is found with
//! the fewest letters. The least number of letters is then that of a shortest path over normal moves and copies.

use crate::{Machine, Transition, BUFFERING, FINAL, INITIAL, MATCHING};
use std::collections::{BTreeMap, HashSet};

/// The states in a set, one bit each.
fn members(set: u64) -> impl Iterator<Item = usize> {
    (0..64).filter(move |state| set >> state & 1 == 1)
}

/// The states that have the mark.
fn marked(machine: &Machine, mark: u8) -> Vec<usize> {
    let states = 0..machine.states();
    states.filter(|&state| machine.has(state, mark)).collect()
}

/// The moves of one mode.
struct Moves {
    /// For each state the states that letter 0 leads to, in any number of moves.
    closure: Vec<u64>,
    /// For each letter and each state the states that one move by the letter leads to, and then letter 0.
    by: Vec<Vec<u64>>,
}

impl Moves {
    fn new(machine: &Machine, allowed: impl Fn(Transition) -> bool) -> Moves {
        let mut to = vec![vec![0u64; machine.states()]; machine.letters + 1];
        for &transition in &machine.transitions {
            if allowed(transition) {
                to[transition.letter][transition.from] |= 1 << transition.to;
            }
        }
        let mut closure: Vec<u64> = (0..machine.states()).map(|state| 1 << state).collect();
        for set in &mut closure {
            loop {
                let more = members(*set).fold(*set, |all, state| all | to[0][state]);
                if more == *set {
                    break;
                }
                *set = more;
            }
        }
        let by = to.iter().map(|to| after(to, &closure)).collect();
        Moves { closure, by }
    }
}

/// For each set of states the states that these lead to.
fn after(sets: &[u64], leads: &[u64]) -> Vec<u64> {
    let from = |&set: &u64| members(set).fold(0, |all, state| all | leads[state]);
    sets.iter().map(from).collect()
}

/// The relations of a string.
#[derive(Clone, PartialEq, Eq, Hash)]
struct Relations {
    /// For each buffering state the states that storing leads to.
    storing: Vec<u64>,
    /// For each matching state the states that matching leads to.
    matching: Vec<u64>,
}

/// The least number of letters of a word that the machine accepts, or nothing if it accepts no word.
pub fn least_letters(machine: &Machine) -> Option<usize> {
    let (begins, matches) = (marked(machine, BUFFERING), marked(machine, MATCHING));
    let storing = Moves::new(machine, |t| {
        !machine.between_matching(t) && !machine.has(t.to, BUFFERING)
    });
    let matching = Moves::new(machine, |t| machine.between_matching(t));
    let empty = Relations {
        storing: begins.iter().map(|&state| storing.closure[state]).collect(),
        matching: matches
            .iter()
            .map(|&state| matching.closure[state])
            .collect(),
    };
    let mut known = HashSet::from([empty.clone()]);
    let mut strings = vec![empty];
    // For the first and the last state of a copy the fewest letters that are stored.
    let mut copies: BTreeMap<(usize, usize), usize> = BTreeMap::new();
    for length in 0.. {
        for relations in &strings {
            for (&begin, &stored) in begins.iter().zip(&relations.storing) {
                for (&middle, &matched) in matches.iter().zip(&relations.matching) {
                    if stored >> middle & 1 == 1 {
                        for end in members(matched) {
                            copies.entry((begin, end)).or_insert(length);
                        }
                    }
                }
            }
        }
        let least = shortest_path(machine, &copies);
        // A copy of a longer string reads 2 x (length + 1) letters or more.
        if least.is_some_and(|least| least <= 2 * (length + 1)) {
            return least;
        }
        let mut longer = Vec::new();
        for relations in &strings {
            for letter in 1..=machine.letters {
                let next = Relations {
                    storing: after(&relations.storing, &storing.by[letter]),
                    matching: after(&relations.matching, &matching.by[letter]),
                };
                if known.insert(next.clone()) {
                    longer.push(next);
                }
            }
        }
        if longer.is_empty() {
            return least;
        }
        strings = longer;
    }
    unreachable!("there are finitely many relations")
}

/// The least number of letters on a way from an initial to a final state by normal moves and the copies.
fn shortest_path(machine: &Machine, copies: &BTreeMap<(usize, usize), usize>) -> Option<usize> {
    let mut ways: Vec<(usize, usize, usize)> = Vec::new();
    for &t in &machine.transitions {
        if !machine.between_matching(t) && !machine.has(t.from, BUFFERING) {
            ways.push((t.from, t.to, usize::from(t.letter != 0)));
        }
    }
    for (&(begin, end), &stored) in copies {
        ways.push((begin, end, 2 * stored));
    }
    let mut least: Vec<Option<usize>> = (0..machine.states())
        .map(|state| machine.has(state, INITIAL).then_some(0))
        .collect();
    loop {
        let mut changed = false;
        for &(from, to, letters) in &ways {
            if let Some(before) = least[from] {
                let sum = before + letters;
                if least[to].is_none_or(|known| sum < known) {
                    least[to] = Some(sum);
                    changed = true;
                }
            }
        }
        if !changed {
            break;
        }
    }
    let ends = marked(machine, FINAL);
    ends.into_iter().filter_map(|state| least[state]).min()
}
