//! Why not: the states that runs reach at each position of a word, and for a word that is not accepted where the runs
//! that get furthest stand and what they lack there.
//!
//! - [`reach`]: the states by position and mode, from which [`Reach::ground`] finds why a word is not accepted.
//! - [`reach_into`]: the same states as sets in a slice of the caller.
//! - [`sets_needed`]: the length that this slice needs.

use crate::recognize::LONGEST_RECOGNIZED;
use crate::{Machine, Mode, Refusal, Table, FINAL, MATCHING};
use std::fmt::{self, Display, Formatter};
use std::ops::RangeInclusive;

/// How many numbers a set of states takes: state `q` is in it if bit `q % 64` of number `q / 64` is 1.
pub const SET_NUMBERS: usize = 1;

/// The number of modes, each of which has a set at a position.
const MODES: usize = 3;

/// The result of [`reach_record`]: `refusal` is 0, 16, 9, 8 or 36; `needed` is 0 but for refusal 36; `sets` is how many
/// numbers are written, 0 after a refusal.
#[derive(Clone, Copy, PartialEq, Eq, Debug)]
#[repr(C)]
pub struct ReachRecord {
    pub refusal: u8,
    pub needed: usize,
    pub sets: usize,
}

extern "C" {
    fn zagvirk_reach(
        machine: Machine,
        list: *const u16,
        list_len: usize,
        word: *const u8,
        word_len: usize,
        sets: *mut u64,
        sets_len: usize,
    ) -> ReachRecord;
}

/// Finds the sets of states, as [`reach_into`].
pub fn reach_record(table: Table, word: &[u8], sets: &mut [u64]) -> ReachRecord {
    // SAFETY: a slice's pointer is not null and is good for its length, also where that is 0. The call writes to `sets`
    // only, which overlaps with no other slice.
    unsafe {
        zagvirk_reach(
            *table.machine,
            table.list.as_ptr(),
            table.list.len(),
            word.as_ptr(),
            word.len(),
            sets.as_mut_ptr(),
            sets.len(),
        )
    }
}

/// The length that the slice for sets needs for a word of `letters` letters: a set for each mode at each position.
pub fn sets_needed(letters: usize) -> usize {
    SET_NUMBERS * MODES * (letters + 1)
}

/// How many numbers are written to the front of `sets`: for each position of the word, 0 to its number of letters, the
/// sets of the states that runs reach there in normal, buffering and emptying mode. The set of a position and a mode is
/// at 3 × position + mode. The rest of `sets` stays as it was, and after a refusal all of it.
///
/// A state is in the set of a position and a mode exactly if some entries lead from where a run starts (position 0, an
/// initial state, normal mode, an empty buffer) to a configuration with this state, position and mode, whatever is in its
/// buffer.
///
/// Refuses, in this order: [`Refusal::MachineBroken`], [`Refusal::WordTooLong`] over 255 letters,
/// [`Refusal::WordLetter`], [`Refusal::SetsTooShort`] if `sets` has fewer than [`sets_needed`] elements.
///
/// ```
/// use zagvirk::reach::{reach_into, sets_needed};
/// use zagvirk::{Machine, Table};
/// let machine = Machine::new(2, 6, &[5, 0, 10]);
/// let list = [0, 0, 1, 1, 0, 2, 1, 1, 1, 1, 2, 1, 2, 1, 2, 2, 2, 2];
/// let doubled = Table::new(&machine, &list);
/// let mut sets = vec![0; sets_needed(1)];
/// assert_eq!(reach_into(doubled, &[1], &mut sets), Ok(6));
/// // At the start: 0 and, after an empty copy, 2; storing in 0, 1, 2; matching in 2. After 1: none, 1 and 2, 2.
/// assert_eq!(sets, [0b101, 0b111, 0b100, 0, 0b110, 0b100]);
/// ```
pub fn reach_into(table: Table, word: &[u8], sets: &mut [u64]) -> Result<usize, Refusal> {
    let reached = reach_record(table, word, sets);
    Refusal::check(reached.refusal, reached.needed)?;
    Ok(reached.sets)
}

/// The states that runs reach at each position of the word in each mode, in memory of their own.
///
/// Refuses, in this order: [`Refusal::MachineBroken`], [`Refusal::WordTooLong`] over 255 letters,
/// [`Refusal::WordLetter`].
///
/// ```
/// use zagvirk::reach::reach;
/// use zagvirk::{Machine, Mode, Table};
/// let machine = Machine::new(2, 6, &[5, 0, 10]);
/// let list = [0, 0, 1, 1, 0, 2, 1, 1, 1, 1, 2, 1, 2, 1, 2, 2, 2, 2];
/// let doubled = Table::new(&machine, &list);
/// let reached = reach(doubled, &[1, 2, 2, 1]).unwrap();
/// assert_eq!(reached.states(4, Mode::Normal).count(), 0);
/// assert!(reached.states(4, Mode::Buffering).eq([1, 2]));
/// assert!(reached.states(4, Mode::Emptying).eq([2]));
/// assert_eq!(
///     reached.ground().unwrap().to_string(),
///     "the whole word is read, but no run accepts: some are still storing in states 1, 2; some have letters left to \
///      match in state 2"
/// );
/// assert_eq!(reach(doubled, &[1, 2, 1, 2]).unwrap().ground(), None);
/// ```
pub fn reach<'a>(table: Table<'a>, word: &'a [u8]) -> Result<Reach<'a>, Refusal> {
    // A longer word is refused whatever the length of the slice.
    let mut sets = vec![0; sets_needed(word.len().min(LONGEST_RECOGNIZED))];
    reach_into(table, word, &mut sets)?;
    Ok(Reach { table, word, sets })
}

/// The states that runs on a word reach, made by [`reach`]. A position is the number of letters that are read.
#[derive(Clone, PartialEq, Eq, Debug)]
pub struct Reach<'a> {
    table: Table<'a>,
    word: &'a [u8],
    /// As [`reach_into`] writes them.
    sets: Vec<u64>,
}

impl Reach<'_> {
    /// The number of letters of the word.
    pub fn letters(&self) -> usize {
        self.word.len()
    }

    /// The positions of the word: from 0, before the first letter, to the number of letters.
    pub fn positions(&self) -> RangeInclusive<usize> {
        0..=self.letters()
    }

    /// Whether a run reaches the state at the position in the mode.
    fn has(&self, position: usize, mode: Mode, state: usize) -> bool {
        let set = SET_NUMBERS * (MODES * position + mode as usize);
        self.sets[set + state / 64] >> (state % 64) & 1 == 1
    }

    /// The states that runs reach at the position in the mode, rising.
    ///
    /// # Panics
    ///
    /// With a position past the word's end.
    pub fn states(&self, position: usize, mode: Mode) -> impl Iterator<Item = usize> + '_ {
        assert!(position <= self.letters(), "a position of the word");
        (0..self.table.machine.states).filter(move |&state| self.has(position, mode, state))
    }

    /// Whether no run reaches the position. Then none reaches those behind it.
    ///
    /// # Panics
    ///
    /// With a position past the word's end.
    pub fn is_empty_at(&self, position: usize) -> bool {
        let modes = [Mode::Normal, Mode::Buffering, Mode::Emptying];
        modes
            .into_iter()
            .all(|mode| self.states(position, mode).next().is_none())
    }

    /// The last position that a run reaches: the most letters that a run reads. None if no run starts, for no state is
    /// initial.
    pub fn last_position(&self) -> Option<usize> {
        self.positions()
            .rev()
            .find(|&position| !self.is_empty_at(position))
    }

    /// Whether the machine accepts the word: a run reaches its end in normal mode in a final state.
    pub fn is_accepted(&self) -> bool {
        let marks = &self.table.machine.marks;
        self.states(self.letters(), Mode::Normal)
            .any(|state| marks[state] & FINAL != 0)
    }

    /// Why the machine does not accept the word, or `None` if it does.
    ///
    /// ```
    /// use zagvirk::reach::{reach, Ground};
    /// use zagvirk::{Machine, Table};
    /// // The words 1 1 and 1 2, without a copy.
    /// let machine = Machine::new(2, 3, &[1, 0, 2]);
    /// let list = [0, 1, 1, 1, 1, 2, 1, 2, 2];
    /// let word = [1, 2, 1];
    /// let reached = reach(Table::new(&machine, &list), &word).unwrap();
    /// let Some(Ground::Stuck(stuck)) = reached.ground() else {
    ///     panic!("no run reads the whole word");
    /// };
    /// assert_eq!((stuck.read, stuck.letter), (2, 1));
    /// assert_eq!(stuck.normal.without, [2]);
    /// ```
    pub fn ground(&self) -> Option<Ground> {
        if self.is_accepted() {
            return None;
        }
        Some(match self.last_position() {
            None => Ground::NoStart,
            Some(last) => match self.word.get(last) {
                Some(&letter) => Ground::Stuck(self.stuck(last, letter)),
                None => Ground::Unfinished(self.unfinished()),
            },
        })
    }

    /// What the runs at the last position lack to read the letter that is next.
    fn stuck(&self, last: usize, letter: u8) -> Stuck {
        let emptying = self.states(last, Mode::Emptying);
        let (matched, unmatched): (Vec<usize>, Vec<usize>) =
            emptying.partition(|&state| self.leads_to_matching(state, letter));
        // A run that has matched all it stored goes back to normal mode in the same state.
        let (other_or_none, other) = matched
            .into_iter()
            .partition(|&state| self.has(last, Mode::Normal, state));
        Stuck {
            read: last,
            letter,
            normal: self.barred(self.states(last, Mode::Normal), letter),
            buffering: self.barred(self.states(last, Mode::Buffering), letter),
            emptying: self.barred(unmatched, letter),
            other,
            other_or_none,
        }
    }

    /// The states, from which no transition by the letter may be taken, by whether there is one.
    fn barred(&self, states: impl IntoIterator<Item = usize>, letter: u8) -> Barred {
        let (forbidden, without) = states
            .into_iter()
            .partition(|&state| self.targets(state, letter).next().is_some());
        Barred { without, forbidden }
    }

    /// Where the runs that read the whole word stand.
    fn unfinished(&self) -> Unfinished {
        let end = self.letters();
        Unfinished {
            normal: self.states(end, Mode::Normal).collect(),
            buffering: self.states(end, Mode::Buffering).collect(),
            // As above: in a state that is not reached in normal mode no run has matched all.
            emptying: self
                .states(end, Mode::Emptying)
                .filter(|&state| !self.has(end, Mode::Normal, state))
                .collect(),
        }
    }

    /// The states that the transitions by the letter lead to from the state.
    fn targets(&self, state: usize, letter: u8) -> impl Iterator<Item = usize> + '_ {
        let list = &self.table.list[..3 * self.table.machine.transitions];
        list.chunks_exact(3)
            .filter(move |transition| {
                usize::from(transition[0]) == state && transition[1] == u16::from(letter)
            })
            .map(|transition| usize::from(transition[2]))
    }

    /// Whether a transition by the letter leads from the state to a matching state.
    fn leads_to_matching(&self, state: usize, letter: u8) -> bool {
        let marks = &self.table.machine.marks;
        self.targets(state, letter)
            .any(|target| marks[target] & MATCHING != 0)
    }
}

/// Why a machine does not accept a word, made by [`Reach::ground`]. As text it is one sentence, with letters and states
/// as numbers; [`Ground::sentence`] has letters as the caller spells them.
#[derive(Clone, PartialEq, Eq, Debug)]
#[non_exhaustive]
pub enum Ground {
    /// No run starts: no state is initial.
    NoStart,
    /// No run reads the whole word.
    Stuck(Stuck),
    /// Runs read the whole word, and none of them accepts.
    Unfinished(Unfinished),
}

/// Where the runs stand that read the most letters, and why none of them reads the next one. Each state that such a run
/// is in after these letters is in one of the lists of its mode, rising.
#[derive(Clone, PartialEq, Eq, Debug)]
#[non_exhaustive]
pub struct Stuck {
    /// The number of letters that are read.
    pub read: usize,
    /// The letter that is next, `word[read]`.
    pub letter: u8,
    /// The states of runs in normal mode.
    pub normal: Barred,
    /// The states of runs in buffering mode.
    pub buffering: Barred,
    /// The states of runs in emptying mode from which no transition by the letter leads to a matching state.
    pub emptying: Barred,
    /// The other states of runs in emptying mode, where each run has letters left to match and the next is another.
    pub other: Vec<usize>,
    /// The other states of runs in emptying mode, where the next letter to match is another or none is left.
    pub other_or_none: Vec<usize>,
}

/// States from which no transition by a letter may be taken in a mode.
#[derive(Clone, PartialEq, Eq, Debug)]
#[non_exhaustive]
pub struct Barred {
    /// No transition by the letter leaves these states.
    pub without: Vec<usize>,
    /// Transitions by the letter leave these states, and the mode forbids each of them: normal mode forbids those out of a
    /// buffering state, buffering mode those into one, both of these those between two matching states, and emptying mode
    /// all others.
    pub forbidden: Vec<usize>,
}

/// Where the runs stand that read the whole word, rising in each list.
#[derive(Clone, PartialEq, Eq, Debug)]
#[non_exhaustive]
pub struct Unfinished {
    /// The states of runs in normal mode; none is final.
    pub normal: Vec<usize>,
    /// The states of runs in buffering mode.
    pub buffering: Vec<usize>,
    /// The states of runs in emptying mode that are not in `normal`: each run has letters left to match there.
    pub emptying: Vec<usize>,
}

impl Ground {
    /// The ground as one sentence, with letters as they are spelled by the function.
    ///
    /// ```
    /// use zagvirk::{reach::reach, Machine, Table};
    /// let machine = Machine::new(2, 1, &[1, 2]);
    /// let reached = reach(Table::new(&machine, &[0, 1, 1]), &[1, 2]).unwrap();
    /// let ground = reached.ground().unwrap();
    /// assert_eq!(
    ///     ground.sentence(|letter| char::from(b'a' + letter - 1).to_string()),
    ///     "no run reads past letter 1 of the word, and the next one is b: in normal mode no transition by b leaves state 1"
    /// );
    /// ```
    pub fn sentence(&self, spell: impl Fn(u8) -> String) -> String {
        match self {
            Ground::NoStart => "no run starts: no state is initial".to_string(),
            Ground::Stuck(stuck) => stuck.sentence(&spell(stuck.letter)),
            Ground::Unfinished(unfinished) => unfinished.sentence(),
        }
    }
}

impl Display for Ground {
    fn fmt(&self, f: &mut Formatter<'_>) -> fmt::Result {
        f.write_str(&self.sentence(|letter| letter.to_string()))
    }
}

impl Stuck {
    fn sentence(&self, letter: &str) -> String {
        let begin = match self.read {
            0 => format!("no run reads the first letter of the word, {letter}"),
            read => {
                format!("no run reads past letter {read} of the word, and the next one is {letter}")
            }
        };
        let mut parts = Vec::new();
        for (mode, barred) in [
            ("in normal mode", &self.normal),
            ("while storing", &self.buffering),
            ("while matching", &self.emptying),
        ] {
            parts.extend(
                named(&barred.without)
                    .map(|states| format!("{mode} no transition by {letter} leaves {states}")),
            );
            parts.extend(named(&barred.forbidden).map(|states| {
                format!("{mode} no transition by {letter} out of {states} may be taken")
            }));
        }
        parts.extend(named(&self.other).map(|states| {
            format!("while matching the next stored letter in {states} is not {letter}")
        }));
        parts.extend(named(&self.other_or_none).map(|states| {
            format!("while matching the next stored letter in {states} is not {letter}, or none is left")
        }));
        format!("{begin}: {}", parts.join("; "))
    }
}

impl Unfinished {
    fn sentence(&self) -> String {
        let mut parts = Vec::new();
        let are = match self.normal.len() {
            1 => "is",
            _ => "are",
        };
        parts.extend(
            named(&self.normal)
                .map(|states| format!("some end in {states}, which {are} not final")),
        );
        parts.extend(
            named(&self.buffering).map(|states| format!("some are still storing in {states}")),
        );
        parts.extend(
            named(&self.emptying)
                .map(|states| format!("some have letters left to match in {states}")),
        );
        format!(
            "the whole word is read, but no run accepts: {}",
            parts.join("; ")
        )
    }
}

/// The states as text; nothing if there are none.
fn named(states: &[usize]) -> Option<String> {
    let numbers: Vec<String> = states.iter().map(usize::to_string).collect();
    match states.len() {
        0 => None,
        1 => Some(format!("state {}", numbers[0])),
        _ => Some(format!("states {}", numbers.join(", "))),
    }
}
