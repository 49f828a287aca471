//! Machines for the common-word search with many transitions.

use crate::Rng;
use reference::{Machine, BUFFERING, FINAL, INITIAL, MATCHING};
use std::collections::BTreeSet;

/// What is special about a machine with many transitions.
#[derive(Clone, Copy, PartialEq, Eq, Debug)]
pub enum Kind {
    /// Nothing: a short word is accepted.
    Any,
    /// No state is final.
    NoFinal,
    /// No transition leaves the initial state.
    NoWayOut,
    /// No letter is both stored and matched, and a word needs a copy.
    NeverMatched,
    /// Each letter leads from an even state to an odd one or back, a word is one copy from an even state on, and the
    /// final states are odd.
    Parity,
}

/// The roles of states, in turn.
const ROLES: [u8; 8] = [BUFFERING, 0, 0, MATCHING, MATCHING, MATCHING, 0, BUFFERING];

/// A machine with so many transitions, at random and the same in every run, none of them by epsilon. The first state is
/// initial, a buffering one; but for some kinds all matching states are final.
pub fn dense(kind: Kind, states: usize, letters: usize, count: usize) -> Machine {
    let mut marks: Vec<u8> = (0..states)
        .map(|state| ROLES[state % ROLES.len()])
        .collect();
    for (state, mark) in marks.iter_mut().enumerate() {
        let ends = match kind {
            Kind::NoFinal => false,
            Kind::Parity => state % 2 == 1,
            _ => true,
        };
        if *mark == MATCHING && ends {
            *mark |= FINAL;
        }
    }
    marks[0] |= INITIAL;
    let mut rng = Rng::new(20_240_029);
    let mut chosen = BTreeSet::new();
    while chosen.len() < count {
        let (from, to) = (rng.below(states), rng.below(states));
        let letter = 1 + rng.below(letters);
        let matched = marks[from] & marks[to] & MATCHING != 0;
        let kept = match kind {
            Kind::NoWayOut => from != 0,
            // Even letters are matched, odd ones are not.
            Kind::NeverMatched => matched == letter.is_multiple_of(2),
            Kind::Parity => {
                let leaves = marks[from] & MATCHING != 0 && !matched;
                from % 2 != to % 2 && !leaves
            }
            Kind::Any | Kind::NoFinal => true,
        };
        if kept {
            chosen.insert((from, letter, to));
        }
    }
    let chosen: Vec<_> = chosen.into_iter().collect();
    Machine::new(letters, &marks, &chosen)
}

/// Doubled words over so many letters.
pub fn doubled(letters: usize) -> Machine {
    let mut transitions = vec![(0, 0, 1), (1, 0, 2)];
    for letter in 1..=letters {
        transitions.extend([(1, letter, 1), (2, letter, 2)]);
    }
    Machine::new(letters, &[5, 0, 10], &transitions)
}

/// A plain machine with so many transitions, at random and the same in every run. The first state is initial, the last
/// one is final if `ends`.
pub fn dense_plain(states: usize, letters: usize, count: usize, ends: bool) -> Machine {
    let mut marks = vec![0; states];
    marks[0] |= INITIAL;
    if ends {
        marks[states - 1] |= FINAL;
    }
    let mut rng = Rng::new(20_240_030);
    let mut chosen = BTreeSet::new();
    while chosen.len() < count {
        chosen.insert((rng.below(states), 1 + rng.below(letters), rng.below(states)));
    }
    let chosen: Vec<_> = chosen.into_iter().collect();
    Machine::new(letters, &marks, &chosen)
}
