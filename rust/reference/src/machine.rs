//! Machines (document 01: tables), as a caller passes them and after their rules are checked.

use crate::Refusal;

/// Mark of an initial state.
pub const INITIAL: u8 = 1;
/// Mark of a final state.
pub const FINAL: u8 = 2;
/// Mark of a buffering state (G in source 000).
pub const BUFFERING: u8 = 4;
/// Mark of a matching state (H in source 000).
pub const MATCHING: u8 = 8;

/// A machine's record. Its transitions stand in a list of their own, three numbers each: from, letter, to.
#[derive(Clone, PartialEq, Eq, Debug)]
pub struct Record {
    pub states: usize,
    pub letters: usize,
    pub transitions: usize,
    pub marks: [u8; 64],
}

/// A transition. Transitions compare by from, then letter, then to. Letter 0 is epsilon.
#[derive(Clone, Copy, PartialEq, Eq, PartialOrd, Ord, Hash, Debug)]
pub struct Transition {
    pub from: usize,
    pub letter: usize,
    pub to: usize,
}

/// A machine that keeps the rules of "The table" and whose transitions rise strictly. The number of states is
/// the number of marks.
#[derive(Clone, PartialEq, Eq, Debug)]
pub struct Machine {
    pub letters: usize,
    pub marks: Vec<u8>,
    pub transitions: Vec<Transition>,
}

impl Record {
    /// The machine of this record and list, or refusal 16 if they break a rule of "The table" or the
    /// transitions do not rise strictly. Elements past three times the count are not looked at.
    pub fn machine(&self, list: &[u16]) -> Result<Machine, Refusal> {
        let broken = Err(Refusal::of(16));
        if self.states < 1 || self.states > 64 {
            return broken;
        }
        if self.letters > 250 {
            return broken;
        }
        if self.transitions > 4000 {
            return broken;
        }
        for (state, &mark) in self.marks.iter().enumerate() {
            if mark > 15 {
                return broken;
            }
            if mark & BUFFERING != 0 && mark & MATCHING != 0 {
                return broken;
            }
            if state >= self.states && mark != 0 {
                return broken;
            }
        }
        if list.len() < 3 * self.transitions {
            return broken;
        }
        let mut transitions: Vec<Transition> = Vec::new();
        for number in 0..self.transitions {
            let transition = Transition {
                from: usize::from(list[3 * number]),
                letter: usize::from(list[3 * number + 1]),
                to: usize::from(list[3 * number + 2]),
            };
            if transition.from >= self.states || transition.to >= self.states {
                return broken;
            }
            if transition.letter > self.letters {
                return broken;
            }
            if let Some(&before) = transitions.last() {
                if before >= transition {
                    return broken;
                }
            }
            transitions.push(transition);
        }
        Ok(Machine {
            letters: self.letters,
            marks: self.marks[..self.states].to_vec(),
            transitions,
        })
    }
}

impl Machine {
    /// A machine from its marks and transitions, which are put in rising order without repeats. The caller
    /// keeps the other rules.
    pub fn new(letters: usize, marks: &[u8], transitions: &[(usize, usize, usize)]) -> Machine {
        let mut sorted: Vec<Transition> = transitions
            .iter()
            .map(|&(from, letter, to)| Transition { from, letter, to })
            .collect();
        sorted.sort();
        sorted.dedup();
        Machine {
            letters,
            marks: marks.to_vec(),
            transitions: sorted,
        }
    }

    /// The number of states.
    pub fn states(&self) -> usize {
        self.marks.len()
    }

    /// Whether the state is there and has the mark.
    pub fn has(&self, state: usize, mark: u8) -> bool {
        state < self.states() && self.marks[state] & mark != 0
    }

    /// Whether both ends of the transition are matching states.
    pub fn between_matching(&self, transition: Transition) -> bool {
        self.has(transition.from, MATCHING) && self.has(transition.to, MATCHING)
    }

    /// Whether the machine is plain: no buffering or matching state and no epsilon transition.
    pub fn is_plain(&self) -> bool {
        let no_marks =
            (0..self.states()).all(|q| !self.has(q, BUFFERING) && !self.has(q, MATCHING));
        let no_epsilon = self.transitions.iter().all(|t| t.letter != 0);
        no_marks && no_epsilon
    }

    /// The machine's record and list.
    pub fn record(&self) -> (Record, Vec<u16>) {
        let mut marks = [0; 64];
        marks[..self.states()].copy_from_slice(&self.marks);
        let record = Record {
            states: self.states(),
            letters: self.letters,
            transitions: self.transitions.len(),
            marks,
        };
        (record, self.list())
    }

    /// The list of transitions, three numbers each.
    pub fn list(&self) -> Vec<u16> {
        let mut list = Vec::new();
        for t in &self.transitions {
            list.extend([t.from as u16, t.letter as u16, t.to as u16]);
        }
        list
    }
}
