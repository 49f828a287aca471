//! A plain decision in Rust whether a machine accepts a word, written for speed: a table is prepared once for all words.
//!
//! For each place of a word there is the set of states that runs reach there in normal mode. Copies are followed start by
//! start, up to the longest square from there. Each set that was met in a mode has a row, which says to which row a
//! letter leads; it is filled in when it is first asked for, so that a set is taken apart once for all words.

use crate::plain_moves::{Moves, EMPTYING, NORMAL, STORING};
use zagvirk::Machine;

/// The most letters of a word.
pub const LONGEST: usize = 255;
/// What letters are compared by: so many at once.
const BLOCK: usize = 8;
/// A step that was not asked for so far.
const UNKNOWN: u32 = u32::MAX;
/// The places in which rows are looked for at first.
const FIRST_PLACES: usize = 64;
/// With more steps than so many in the rows of a mode they are all given up before the next word; in tests soon.
const MOST_STEPS: usize = if cfg!(test) { 1 << 9 } else { 1 << 21 };

/// The letters of a word, and whatever bytes behind them. A place of a word and its length fit into a byte.
pub struct Word {
    pub letters: [u8; LONGEST + BLOCK],
    pub length: usize,
}

impl Word {
    pub fn new() -> Word {
        Word {
            letters: [0; LONGEST + BLOCK],
            length: 0,
        }
    }

    /// The letters from a place on, as many as are compared at once.
    fn block(&self, place: usize) -> u64 {
        let block = self.letters[place..place + BLOCK].try_into();
        u64::from_le_bytes(block.expect("a block"))
    }

    /// The first place from `from` on where the letter is not the one `half` before it, or some place from `stop` on up
    /// to the word's end if there is none before.
    fn repeats_to(&self, half: usize, from: usize, stop: usize) -> usize {
        let mut at = from;
        while at < stop {
            let different = self.block(at) ^ self.block(at - half);
            if different != 0 {
                at += different.trailing_zeros() as usize / 8;
                break;
            }
            at += BLOCK;
        }
        at.min(self.length)
    }
}

/// The rows of the sets that were met in a mode. Row 0 is that of the empty set.
struct Rows {
    /// A row has two to this power steps: the first is not a letter's but leads to the row of the next mode, that of the
    /// set in which storing or emptying begins.
    shift: u32,
    steps: Vec<u32>,
    sets: Vec<u64>,
    /// Where the row of a set is looked for: at the place of its hash or behind it, `UNKNOWN` ends the search. At most
    /// half of the places are taken.
    places: Vec<u32>,
}

impl Rows {
    fn new(letters: usize) -> Rows {
        let shift = (letters + 1).next_power_of_two().trailing_zeros();
        Rows {
            shift,
            steps: vec![0; 1 << shift],
            sets: vec![0],
            places: vec![UNKNOWN; FIRST_PLACES],
        }
    }

    /// The place of the set's row, or the free one where it belongs.
    fn place_of(&self, set: u64) -> usize {
        let last = self.places.len() - 1;
        let mut place = (set.wrapping_mul(0x9e37_79b9_7f4a_7c15) >> 32) as usize & last;
        while self.places[place] != UNKNOWN && self.set(self.places[place]) != set {
            place = (place + 1) & last;
        }
        place
    }

    /// The row of a set, if it was met.
    fn find(&self, set: u64) -> Option<u32> {
        if set == 0 {
            return Some(0);
        }
        let row = self.places[self.place_of(set)];
        (row != UNKNOWN).then_some(row)
    }

    /// Adds the row of a set that was not met, which turns to a row of the next mode.
    fn add(&mut self, set: u64, turned: u32) -> u32 {
        let row = self.steps.len() as u32;
        self.steps.push(turned);
        self.steps.resize(row as usize + (1 << self.shift), UNKNOWN);
        self.sets.push(set);
        if 2 * self.sets.len() > self.places.len() {
            self.widen();
        } else {
            let place = self.place_of(set);
            self.places[place] = row;
        }
        row
    }

    /// Doubles the number of places.
    fn widen(&mut self) {
        self.places = vec![UNKNOWN; 2 * self.places.len()];
        for number in 1..self.sets.len() {
            let place = self.place_of(self.sets[number]);
            self.places[place] = (number << self.shift) as u32;
        }
    }

    /// Where the row's first step leads.
    fn turned(&self, row: u32) -> u32 {
        self.steps[row as usize]
    }

    fn set(&self, row: u32) -> u64 {
        self.sets[(row >> self.shift) as usize]
    }
}

/// The matching half of copies that begin to empty in the row `ready`: the letters up to `place` lead to `row`.
struct Tail {
    ready: u32,
    place: usize,
    row: u32,
}

/// A machine prepared for the words that are asked for one after another.
pub struct Decision {
    letters: usize,
    moves: Moves,
    modes: [Rows; 3],
    /// For each row of emptying the states that are reached in normal mode where copies end in it.
    backs: Vec<u64>,
    /// The row of normal mode before any letter.
    start: u32,
    /// The last set of normal mode that was joined, and its row.
    last_joined: (u64, u32),
    /// For each place the states that copies end in.
    copied: [u64; LONGEST + 1],
    /// For each distance a place up to which the letters are known to be the same as so far before them.
    known: [u8; LONGEST / 2 + 1],
    tails: Vec<Tail>,
}

impl Decision {
    pub fn new(machine: &Machine, list: &[u16]) -> Decision {
        let numbers = std::array::from_fn(|letter| letter as u8);
        let letters = machine.letters;
        let mut decision = Decision {
            letters,
            moves: Moves::new(machine, list, &numbers, letters),
            modes: [(); 3].map(|()| Rows::new(letters)),
            backs: Vec::new(),
            start: 0,
            last_joined: (0, 0),
            copied: [0; LONGEST + 1],
            known: [0; LONGEST / 2 + 1],
            tails: Vec::new(),
        };
        decision.begin();
        decision
    }

    /// Gives up all rows.
    fn begin(&mut self) {
        self.modes = [(); 3].map(|()| Rows::new(self.letters));
        self.backs = vec![0];
        self.last_joined = (0, 0);
        self.start = self.row_of(NORMAL, self.moves.close_normal(self.moves.initial));
    }

    /// The row of a set in a mode.
    fn row_of(&mut self, mode: usize, set: u64) -> u32 {
        if let Some(row) = self.modes[mode].find(set) {
            return row;
        }
        let turned = match mode {
            NORMAL => {
                let stored = self.moves.close(STORING, set & self.moves.buffering);
                self.row_of(STORING, stored)
            }
            STORING => {
                let emptied = self.moves.close(EMPTYING, set & self.moves.matching);
                self.row_of(EMPTYING, emptied)
            }
            _ => {
                self.backs.push(self.moves.close_normal(set));
                0
            }
        };
        self.modes[mode].add(set, turned)
    }

    /// The row after a letter.
    fn step(&mut self, mode: usize, row: u32, letter: u8) -> u32 {
        match self.modes[mode].steps[row as usize + usize::from(letter)] {
            UNKNOWN => self.find_step(mode, row, letter),
            known => known,
        }
    }

    #[cold]
    fn find_step(&mut self, mode: usize, row: u32, letter: u8) -> u32 {
        let set = self.modes[mode].set(row);
        let read = self.moves.step(mode, set, usize::from(letter));
        let closed = match mode {
            NORMAL => self.moves.close_normal(read),
            _ => self.moves.close(mode, read),
        };
        let next = self.row_of(mode, closed);
        self.modes[mode].steps[row as usize + usize::from(letter)] = next;
        next
    }

    /// Whether the machine accepts the word; each of its letters is from 1 to the machine's count.
    pub fn accepts(&mut self, word: &Word) -> bool {
        if self.modes.iter().any(|rows| rows.steps.len() > MOST_STEPS) {
            self.begin();
        }
        let length = word.length;
        self.copied[..=length].fill(0);
        self.known[..=length / 2].fill(0);
        let mut row = self.start;
        for place in 0..length {
            self.copies_from(word, place, row);
            row = self.step(NORMAL, row, word.letters[place]);
            row = self.joined(row, self.copied[place + 1]);
        }
        self.modes[NORMAL].set(row) & self.moves.ends != 0
    }

    /// The row of normal mode with some states more.
    fn joined(&mut self, row: u32, more: u64) -> u32 {
        if more == 0 {
            return row;
        }
        let set = self.modes[NORMAL].set(row);
        if more & !set == 0 {
            return row;
        }
        if self.last_joined.0 != set | more {
            self.last_joined = (set | more, self.row_of(NORMAL, set | more));
        }
        self.last_joined.1
    }

    /// Whether the `half` letters from `start` on stand once more behind them.
    fn is_square(&mut self, word: &Word, start: usize, half: usize) -> bool {
        let stop = start + 2 * half;
        let known = usize::from(self.known[half]);
        if known >= stop {
            return true;
        }
        let end = word.repeats_to(half, known.max(start + half), stop);
        self.known[half] = end as u8;
        end >= stop
    }

    /// Adds what copies with letters reach that begin at the place in the row of normal mode.
    fn copies_from(&mut self, word: &Word, start: usize, row: u32) {
        let mut row = self.modes[NORMAL].turned(row);
        if row == 0 {
            return;
        }
        let halves = 1..=(word.length - start) / 2;
        let Some(longest) = halves.rev().find(|&half| self.is_square(word, start, half)) else {
            return;
        };
        self.tails.clear();
        let mut tail = Tail {
            ready: 0,
            place: start,
            row: 0,
        };
        for half in 1..=longest {
            row = self.step(STORING, row, word.letters[start + half - 1]);
            if row == 0 {
                return;
            }
            let ready = self.modes[STORING].turned(row);
            if ready != 0 && self.is_square(word, start, half) {
                if ready != tail.ready {
                    tail = self.other_tail(tail, ready, start);
                }
                for &letter in &word.letters[tail.place..start + half] {
                    tail.row = self.step(EMPTYING, tail.row, letter);
                }
                tail.place = start + half;
                let back = self.backs[(tail.row >> self.modes[EMPTYING].shift) as usize];
                self.copied[start + 2 * half] |= back;
            }
        }
    }

    /// Keeps a tail of copies from the place `start`, and returns the one from the row `ready`: where it was kept, or at
    /// its begin.
    fn other_tail(&mut self, tail: Tail, ready: u32, start: usize) -> Tail {
        self.tails.push(tail);
        match self.tails.iter().position(|kept| kept.ready == ready) {
            Some(index) => self.tails.swap_remove(index),
            None => Tail {
                ready,
                place: start,
                row: ready,
            },
        }
    }
}
