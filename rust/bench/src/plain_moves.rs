//! The moves of a machine over sets of states, as the plain recognizer, the plain listing and the plain sets take them.
//! A set is a 64-bit number.

use zagvirk::{Machine, BUFFERING, FINAL, INITIAL, MATCHING};

pub const NORMAL: usize = 0;
pub const STORING: usize = 1;
pub const EMPTYING: usize = 2;

pub struct Moves {
    pub states: usize,
    pub initial: u64,
    pub ends: u64,
    pub buffering: u64,
    pub matching: u64,
    /// The states with an epsilon transition.
    epsilon: u64,
    /// `to[number of the letter * states + from]` is the set of states that the transitions lead to.
    to: Vec<u64>,
    /// For each mode and state the states that a transition may lead to.
    allowed: [[u64; 64]; 3],
}

/// The states of the set.
#[inline]
pub fn states_of(mut set: u64) -> impl Iterator<Item = usize> {
    std::iter::from_fn(move || {
        if set == 0 {
            return None;
        }
        let state = set.trailing_zeros() as usize;
        set &= set - 1;
        Some(state)
    })
}

impl Moves {
    /// The moves by epsilon, number 0, and by the letters that have a number from 1 to `count`; `letters` has the number
    /// of each letter, 0 where it has none.
    #[inline]
    pub fn new(machine: &Machine, list: &[u16], letters: &[u8; 256], count: usize) -> Moves {
        let states = machine.states;
        let (mut initial, mut ends, mut buffering, mut matching) = (0u64, 0u64, 0u64, 0u64);
        for (state, &mark) in machine.marks[..states].iter().enumerate() {
            initial |= u64::from(mark & INITIAL != 0) << state;
            ends |= u64::from(mark & FINAL != 0) << state;
            buffering |= u64::from(mark & BUFFERING != 0) << state;
            matching |= u64::from(mark & MATCHING != 0) << state;
        }
        let mut to = vec![0; (count + 1) * states];
        let mut epsilon = 0;
        for triple in list.chunks_exact(3) {
            let (from, letter) = (usize::from(triple[0]), triple[1]);
            let number = usize::from(letters[usize::from(letter)]);
            if letter == 0 {
                epsilon |= 1 << from;
            } else if number == 0 {
                continue;
            }
            to[number * states + from] |= 1 << triple[2];
        }
        let mut allowed = [[0; 64]; 3];
        for (state, &mark) in machine.marks[..states].iter().enumerate() {
            let apart = if mark & MATCHING != 0 { !matching } else { !0 };
            allowed[NORMAL][state] = if mark & BUFFERING != 0 { 0 } else { apart };
            allowed[STORING][state] = apart & !buffering;
            allowed[EMPTYING][state] = if mark & MATCHING != 0 { matching } else { 0 };
        }
        Moves {
            states,
            initial,
            ends,
            buffering,
            matching,
            epsilon,
            to,
            allowed,
        }
    }

    /// The states that a transition with the letter's number leads to from the state.
    #[inline]
    pub fn step_from(&self, mode: usize, from: usize, number: usize) -> u64 {
        self.to[number * self.states + from] & self.allowed[mode][from]
    }

    /// The states that a transition with the letter's number leads to from the set.
    #[inline]
    pub fn step(&self, mode: usize, set: u64, number: usize) -> u64 {
        let to = &self.to[number * self.states..(number + 1) * self.states];
        states_of(set).fold(0, |all, from| all | to[from] & self.allowed[mode][from])
    }

    /// The set closed under epsilon moves.
    #[inline]
    pub fn close(&self, mode: usize, set: u64) -> u64 {
        let (mut all, mut new) = (set, set);
        while new & self.epsilon != 0 {
            new = self.step(mode, new & self.epsilon, 0) & !all;
            all |= new;
        }
        all
    }

    /// The set in normal mode closed under epsilon moves and empty copies.
    #[inline]
    pub fn close_normal(&self, seed: u64) -> u64 {
        let mut all = self.close(NORMAL, seed);
        let mut copied = 0;
        loop {
            let begin = all & self.buffering & !copied;
            if begin == 0 {
                return all;
            }
            copied |= begin;
            let stored = self.close(STORING, begin) & self.matching;
            let emptied = self.close(EMPTYING, stored) & !all;
            all |= self.close(NORMAL, emptied);
        }
    }
}
