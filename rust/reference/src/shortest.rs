//! Recognition by breadth-first search over numbered configurations: for words and machines that are too large for
//! [`crate::published`]. The run has the fewest entries, and of those runs it is the first in order of its entries.
//!
//! Emptying mode goes back to normal mode only after it has read the letters of the buffer. So a configuration in
//! emptying mode whose buffer is not how the rest of the word begins leads to no accepting run and is left out, and two
//! others with the same position, state and number of letters in the buffer have the same buffer. They are told apart by
//! the position up to which the buffer will be read.

use crate::{Machine, Transition, BACK_TO_NORMAL, BEGIN_BUFFERING, BEGIN_EMPTYING};
use crate::{BUFFERING, FINAL, INITIAL, MATCHING};

/// A configuration.
#[derive(Clone, Copy, PartialEq, Eq, Debug)]
enum Node {
    Normal {
        position: usize,
        state: usize,
    },
    /// The buffer is `word[start..position]`.
    Buffering {
        start: usize,
        position: usize,
        state: usize,
    },
    /// The buffer is `word[position..target]`.
    Emptying {
        position: usize,
        target: usize,
        state: usize,
    },
}

use Node::{Buffering, Emptying, Normal};

struct Graph<'a> {
    machine: &'a Machine,
    word: &'a [u8],
    /// The transitions from state q are those numbered `first[q]..first[q + 1]`.
    first: Vec<usize>,
}

impl<'a> Graph<'a> {
    fn new(machine: &'a Machine, word: &'a [u8]) -> Graph<'a> {
        let first = (0..=machine.states())
            .map(|state| machine.transitions.partition_point(|t| t.from < state))
            .collect();
        Graph {
            machine,
            word,
            first,
        }
    }

    /// A bound above all numbers of nodes.
    fn size(&self) -> usize {
        let positions = self.word.len() + 1;
        positions * (1 + 2 * positions) * self.machine.states()
    }

    /// The number of the node; different nodes have different numbers.
    fn number(&self, node: Node) -> usize {
        let positions = self.word.len() + 1;
        let (row, state) = match node {
            Normal { position, state } => (position, state),
            Buffering {
                start,
                position,
                state,
            } => (positions * (1 + start) + position, state),
            Emptying {
                position,
                target,
                state,
            } => (positions * (1 + positions + position) + target, state),
        };
        row * self.machine.states() + state
    }

    fn accepts(&self, node: Node) -> bool {
        match node {
            Normal { position, state } => {
                position == self.word.len() && self.machine.has(state, FINAL)
            }
            _ => false,
        }
    }

    /// Calls `found` with every entry that is allowed, in rising order, and the node it leads to, until `found` says
    /// true. Returns whether it did.
    fn any_next(&self, node: Node, mut found: impl FnMut(u16, Node) -> bool) -> bool {
        let (Normal { position, state }
        | Buffering {
            position, state, ..
        }
        | Emptying {
            position, state, ..
        }) = node;
        for number in self.first[state]..self.first[state + 1] {
            if let Some(next) = self.take(node, position, self.machine.transitions[number]) {
                if found(number as u16, next) {
                    return true;
                }
            }
        }
        match node {
            Normal { .. } if self.machine.has(state, BUFFERING) => {
                let next = Buffering {
                    start: position,
                    position,
                    state,
                };
                found(BEGIN_BUFFERING, next)
            }
            Buffering { start, .. } if self.machine.has(state, MATCHING) => {
                let target = position + (position - start);
                let buffer = &self.word[start..position];
                if self.word.get(position..target) != Some(buffer) {
                    return false;
                }
                let next = Emptying {
                    position,
                    target,
                    state,
                };
                found(BEGIN_EMPTYING, next)
            }
            Emptying { target, .. } if position == target && self.machine.has(state, MATCHING) => {
                found(BACK_TO_NORMAL, Normal { position, state })
            }
            _ => false,
        }
    }

    /// The node after a transition from the node's state, if that is allowed.
    fn take(&self, node: Node, position: usize, transition: Transition) -> Option<Node> {
        let reads = transition.letter != 0;
        if reads && usize::from(*self.word.get(position)?) != transition.letter {
            return None;
        }
        let both_matching = self.machine.between_matching(transition);
        let position = position + usize::from(reads);
        let state = transition.to;
        match node {
            Normal { .. } if !both_matching && !self.machine.has(transition.from, BUFFERING) => {
                Some(Normal { position, state })
            }
            Buffering { start, .. } if !both_matching && !self.machine.has(state, BUFFERING) => {
                Some(Buffering {
                    start,
                    position,
                    state,
                })
            }
            // The letter read is word[position], the first of the buffer, unless the buffer is empty.
            Emptying { target, .. } if both_matching && position <= target => Some(Emptying {
                position,
                target,
                state,
            }),
            _ => None,
        }
    }
}

/// The accepting run of the word with the fewest entries, the first of those in order of its entries; nothing if the
/// machine does not accept the word.
pub fn find_run(machine: &Machine, word: &[u8]) -> Option<Vec<u16>> {
    let graph = Graph::new(machine, word);
    // The nodes in the order in which they are reached, each with the number of entries before it, and for each node
    // its place in that order plus 1, or 0.
    let mut reached: Vec<(Node, usize)> = Vec::new();
    let mut place = vec![0u32; graph.size()];
    for state in 0..machine.states() {
        if machine.has(state, INITIAL) {
            let start = Normal { position: 0, state };
            reached.push((start, 0));
            place[graph.number(start)] = reached.len() as u32;
        }
    }
    let mut next_up = 0;
    let length = loop {
        let &(node, before) = reached.get(next_up)?;
        if graph.accepts(node) {
            break before;
        }
        graph.any_next(node, |_, next| {
            let place = &mut place[graph.number(next)];
            if *place == 0 {
                reached.push((next, before + 1));
                *place = reached.len() as u32;
            }
            false
        });
        next_up += 1;
    };
    // Whether a node is on some accepting run of that length: from the last nodes back to the first.
    let mut useful = vec![false; reached.len()];
    let useful_after = |useful: &[bool], before: usize, next: Node| {
        let place = place[graph.number(next)] as usize;
        place != 0 && useful[place - 1] && reached[place - 1].1 == before + 1
    };
    for index in (0..reached.len()).rev() {
        let (node, before) = reached[index];
        useful[index] = if before == length {
            graph.accepts(node)
        } else {
            before < length && graph.any_next(node, |_, next| useful_after(&useful, before, next))
        };
    }
    // The initial states come first in `reached`, in rising order.
    let first = useful.iter().position(|&useful| useful)?;
    let Normal { state, .. } = reached[first].0 else {
        unreachable!("a run starts in normal mode");
    };
    let mut run = vec![state as u16];
    let mut node = reached[first].0;
    for before in 0..length {
        let mut after = node;
        graph.any_next(node, |entry, next| {
            let takes = useful_after(&useful, before, next);
            if takes {
                run.push(entry);
                after = next;
            }
            takes
        });
        node = after;
    }
    Some(run)
}
