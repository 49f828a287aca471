//! Letters, states and whole tables as text.
//!
//! - [`Spelling`]: letters by their signs or by their numbers, alone and in words.
//! - [`sign`]: the sign of a letter.
//! - [`ranges`]: letters in runs of neighbours.
//! - [`joined`]: parts of a sentence one after another.
//! - [`Arrow`], [`arrows`]: the transitions from one state to another, which texts and pictures show together.
//! - [`sentences`]: a table as sentences.

use crate::word::{self, Word};
use zagvirk::{Machine, Table, BUFFERING, FINAL, INITIAL, MATCHING};

/// The last letter that has a sign.
pub const LAST_SIGN: u16 = 28;
/// The last letter of a to z.
const Z: u16 = 26;
/// A word with more letters is shown by its first and its last ones.
const SHOWN_WHOLE: usize = 32;
/// So many letters are shown at each end of a longer word.
const SHOWN_AT_AN_END: usize = 12;

/// The sign of a letter: a to z for 1 to 26, hyphen for 27, apostrophe for 28; the others have none.
pub fn sign(letter: u16) -> Option<char> {
    u8::try_from(letter).ok().and_then(word::sign)
}

/// How letters are shown.
#[derive(Clone, Copy, PartialEq, Eq, Debug)]
pub enum Spelling {
    /// By their signs; a letter without one by its number.
    Signs,
    /// By their numbers.
    Numbers,
}

impl Spelling {
    /// As the word was written.
    pub fn of_word(word: &Word) -> Spelling {
        match word.spelled {
            true => Spelling::Signs,
            false => Spelling::Numbers,
        }
    }

    /// Signs if each of the letters has one, else numbers.
    pub fn of_letters(letters: impl IntoIterator<Item = u16>) -> Spelling {
        match letters
            .into_iter()
            .all(|letter| letter == 0 || sign(letter).is_some())
        {
            true => Spelling::Signs,
            false => Spelling::Numbers,
        }
    }

    /// Signs if the machine has no letter without one, else numbers.
    pub fn of_machine(machine: &Machine) -> Spelling {
        match machine.letters <= usize::from(LAST_SIGN) {
            true => Spelling::Signs,
            false => Spelling::Numbers,
        }
    }

    /// The letter alone: `b`, or `2`.
    pub fn letter(self, letter: u16) -> String {
        match (self, sign(letter)) {
            (Spelling::Signs, Some(sign)) => sign.to_string(),
            _ => letter.to_string(),
        }
    }

    /// The letter within a sentence that has other numbers too: `b`, or `letter 2`.
    pub fn named(self, letter: u16) -> String {
        match (self, sign(letter)) {
            (Spelling::Signs, Some(sign)) => sign.to_string(),
            _ => format!("letter {letter}"),
        }
    }

    /// The whole word as it is typed: `abab`, or `1 2 1 2`.
    pub fn typed(self, word: &[u8]) -> String {
        let between = match self {
            Spelling::Signs => "",
            Spelling::Numbers => " ",
        };
        let letters: Vec<String> = word
            .iter()
            .map(|&letter| self.letter(u16::from(letter)))
            .collect();
        letters.join(between)
    }

    /// The word within a sentence: `"abab"`, or `1 2 1 2`. Of a long word its ends and its number of letters.
    pub fn word(self, word: &[u8]) -> String {
        if word.len() <= SHOWN_WHOLE {
            return self.quoted(self.typed(word));
        }
        let (front, _) = word.split_at(SHOWN_AT_AN_END);
        let (_, back) = word.split_at(word.len() - SHOWN_AT_AN_END);
        let dots = match self {
            Spelling::Signs => "…",
            Spelling::Numbers => " … ",
        };
        let ends = format!("{}{dots}{}", self.typed(front), self.typed(back));
        format!("{} ({} letters)", self.quoted(ends), word.len())
    }

    /// Signs stand in quotes; numbers need none.
    fn quoted(self, text: String) -> String {
        match self {
            Spelling::Signs => format!("\"{text}\""),
            Spelling::Numbers => text,
        }
    }
}

/// The letters, which rise, in runs of neighbours: the first and the last of each. Runs of two are taken apart, and with
/// signs no run goes past z.
pub fn ranges(letters: &[u16], spelling: Spelling) -> Vec<(u16, u16)> {
    let mut found: Vec<(u16, u16)> = Vec::new();
    for &letter in letters {
        let apart = spelling == Spelling::Signs && (Z + 1..=LAST_SIGN + 1).contains(&letter);
        match found.last_mut() {
            Some((_, last)) if !apart && letter.checked_sub(1) == Some(*last) => *last = letter,
            _ => found.push((letter, letter)),
        }
    }
    let parts = found
        .into_iter()
        .flat_map(|(first, last)| match last - first {
            1 => vec![(first, first), (last, last)],
            _ => vec![(first, last)],
        });
    parts.collect()
}

/// `a`, `a and b`, `a, b and c`.
pub fn joined(parts: &[String]) -> String {
    match parts {
        [] => String::new(),
        [one] => one.clone(),
        [front @ .., last] => format!("{} and {last}", front.join(", ")),
    }
}

/// The number with its noun: `1 state`, `3 states`.
pub fn counted(count: usize, noun: &str) -> String {
    match count {
        1 => format!("1 {noun}"),
        _ => format!("{count} {noun}s"),
    }
}

/// Whether the state has the mark.
pub fn has(machine: &Machine, state: usize, mark: u8) -> bool {
    machine
        .marks
        .get(state)
        .is_some_and(|marks| marks & mark != 0)
}

/// From-state, letter and to-state of the transition with this number.
pub fn transition(table: Table, number: usize) -> Option<(usize, u16, usize)> {
    if number >= table.machine.transitions {
        return None;
    }
    match table.list.chunks_exact(3).nth(number)? {
        &[from, letter, to] => Some((usize::from(from), letter, usize::from(to))),
        _ => None,
    }
}

/// All transitions, in order.
pub fn transitions(table: Table<'_>) -> impl Iterator<Item = (usize, u16, usize)> + '_ {
    let numbers = table.list.chunks_exact(3).take(table.machine.transitions);
    numbers.map(|numbers| (usize::from(numbers[0]), numbers[1], usize::from(numbers[2])))
}

/// The transitions from one state to another.
#[derive(Clone, PartialEq, Eq, Debug)]
pub struct Arrow {
    pub from: usize,
    pub to: usize,
    /// Their letters, rising; letter 0 among them if one reads nothing.
    pub letters: Vec<u16>,
}

/// The transitions by from-state and to-state, rising.
pub fn arrows(table: Table) -> Vec<Arrow> {
    let mut sorted: Vec<(usize, usize, u16)> = transitions(table)
        .map(|(from, letter, to)| (from, to, letter))
        .collect();
    sorted.sort_unstable();
    let mut found: Vec<Arrow> = Vec::new();
    for (from, to, letter) in sorted {
        match found.last_mut() {
            Some(arrow) if (arrow.from, arrow.to) == (from, to) => arrow.letters.push(letter),
            _ => found.push(Arrow {
                from,
                to,
                letters: vec![letter],
            }),
        }
    }
    found
}

/// The table as sentences, one a line: the counts, each state, the transitions, and what keeps it from accepting any word
/// if that can be seen from its marks.
pub fn sentences(table: Table, spelling: Spelling) -> Vec<String> {
    let machine = table.machine;
    let mut found = vec![format!(
        "{}, {}, {}.",
        counted(machine.states, "state"),
        counted(machine.letters, "letter"),
        counted(machine.transitions, "transition"),
    )];
    found.extend((0..machine.states).map(|state| of_state(machine, state)));
    for arrow in arrows(table) {
        found.extend(of_arrow(machine, &arrow, spelling));
    }
    for (mark, name) in [(INITIAL, "initial"), (FINAL, "final")] {
        if !(0..machine.states).any(|state| has(machine, state, mark)) {
            found.push(format!("No state is {name}: no word is accepted."));
        }
    }
    found
}

/// What the marks of the state say.
fn of_state(machine: &Machine, state: usize) -> String {
    let is: Vec<&str> = [(INITIAL, "initial"), (FINAL, "final")]
        .into_iter()
        .filter(|&(mark, _)| has(machine, state, mark))
        .map(|(_, name)| name)
        .collect();
    let mut parts = Vec::new();
    if !is.is_empty() {
        parts.push(format!("is {}", is.join(" and ")));
    }
    if has(machine, state, BUFFERING) {
        parts.push("stores letters from here".to_string());
    }
    if has(machine, state, MATCHING) {
        parts.push("matches stored letters here".to_string());
    }
    if parts.is_empty() {
        return format!("State {state} has no mark.");
    }
    let mark = machine.marks.get(state).copied().unwrap_or(0);
    // With three parts: `is initial and final and ...` would hide where the list ends.
    let between = match is.len() {
        2 => ", and ",
        _ => " and ",
    };
    format!("State {state} {} (mark {mark}).", parts.join(between))
}

/// What the transitions from one state to another do: those that read nothing, then the letters.
fn of_arrow(machine: &Machine, arrow: &Arrow, spelling: Spelling) -> Vec<String> {
    let (from, to) = (arrow.from, arrow.to);
    let mut found = Vec::new();
    let letters: Vec<u16> = arrow.letters.iter().copied().filter(|&l| l != 0).collect();
    if letters.len() < arrow.letters.len() {
        let when = condition(machine, from, to, Reads::Nothing);
        found.push(format!(
            "From state {from}, reading nothing leads to state {to}{when}."
        ));
    }
    if !letters.is_empty() {
        let (reads, leads) = match letters.len() {
            1 => (Reads::One, "leads"),
            _ => (Reads::Many, "lead"),
        };
        let when = condition(machine, from, to, reads);
        found.push(format!(
            "From state {from}, {} {leads} to state {to}{when}.",
            listed(&letters, spelling)
        ));
    }
    found
}

/// What transitions read.
#[derive(Clone, Copy)]
enum Reads {
    Nothing,
    One,
    Many,
}

/// When transitions from one state to another may be taken, if not in normal mode and while storing alike.
fn condition(machine: &Machine, from: usize, to: usize, reads: Reads) -> &'static str {
    if has(machine, from, MATCHING) && has(machine, to, MATCHING) {
        return match reads {
            Reads::Nothing => ", only while matching",
            Reads::One => ", if it is the next stored letter",
            Reads::Many => ", each if it is the next stored letter",
        };
    }
    match (has(machine, from, BUFFERING), has(machine, to, BUFFERING)) {
        (true, true) => ", but no run may take this: both states are buffering",
        (true, false) => ", only while storing",
        (false, true) => ", only in normal mode",
        (false, false) => "",
    }
}

/// The letters with their signs: `letter 1 (a)`, `letters 1 (a) and 2 (b)`, `letters 1 to 4 (a to d)`.
fn listed(letters: &[u16], spelling: Spelling) -> String {
    let parts: Vec<String> = ranges(letters, spelling)
        .into_iter()
        .map(|(first, last)| range(first, last, spelling))
        .collect();
    let noun = match letters.len() {
        1 => "letter",
        _ => "letters",
    };
    format!("{noun} {}", joined(&parts))
}

/// A run of letters with their signs.
fn range(first: u16, last: u16, spelling: Spelling) -> String {
    let signs = match spelling {
        Spelling::Signs => sign(first).zip(sign(last)),
        Spelling::Numbers => None,
    };
    match (first == last, signs) {
        (true, Some((sign, _))) => format!("{first} ({sign})"),
        (true, None) => first.to_string(),
        (false, Some((from, to))) => format!("{first} to {last} ({from} to {to})"),
        (false, None) => format!("{first} to {last}"),
    }
}

#[cfg(test)]
mod tests {
    use super::*;

    const T: [u16; 18] = [0, 0, 1, 1, 0, 2, 1, 1, 1, 1, 2, 1, 2, 1, 2, 2, 2, 2];

    #[test]
    fn signs_are_those_of_the_translation() {
        for letter in 1..=LAST_SIGN {
            let sign = sign(letter).expect("a sign").to_string();
            let mut word = [0; 1];
            assert_eq!(
                zagvirk::spelling::translate(sign.as_bytes(), &mut word),
                Ok(1)
            );
            assert_eq!(u16::from(word[0]), letter);
        }
        assert_eq!((sign(0), sign(29), sign(u16::MAX)), (None, None, None));
    }

    #[test]
    fn words_are_spelled() {
        let signs = Spelling::Signs;
        assert_eq!(signs.word(&[1, 2, 27, 28]), "\"ab-'\"");
        assert_eq!(signs.word(&[]), "\"\"");
        assert_eq!(Spelling::Numbers.word(&[1, 2, 29]), "1 2 29");
        assert_eq!(Spelling::Numbers.named(2), "letter 2");
        assert_eq!(
            (signs.named(2), signs.letter(29)),
            ("b".into(), "29".into())
        );
        assert_eq!(signs.word(&[1; 32]).len(), 34);
        let long: Vec<u8> = (0..40).map(|i| 1 + i % 26).collect();
        assert_eq!(
            signs.word(&long),
            "\"abcdefghijkl…cdefghijklmn\" (40 letters)"
        );
        assert_eq!(Spelling::of_letters([0, 1, 28]), Spelling::Signs);
        assert_eq!(Spelling::of_letters([1, 29]), Spelling::Numbers);
    }

    #[test]
    fn letters_are_in_runs() {
        let signs = Spelling::Signs;
        assert_eq!(ranges(&[], signs), []);
        assert_eq!(
            ranges(&[1, 2, 3, 5, 6, 9], signs),
            [(1, 3), (5, 5), (6, 6), (9, 9)]
        );
        let all: Vec<u16> = (1..=40).collect();
        assert_eq!(ranges(&all, signs), [(1, 26), (27, 27), (28, 28), (29, 40)]);
        assert_eq!(ranges(&all, Spelling::Numbers), [(1, 40)]);
        assert_eq!(listed(&all, Spelling::Numbers), "letters 1 to 40");
        assert_eq!(
            listed(&all, signs),
            "letters 1 to 26 (a to z), 27 (-), 28 (') and 29 to 40"
        );
        assert_eq!(listed(&[2], signs), "letter 2 (b)");
    }

    #[test]
    fn table_t_as_sentences() {
        let machine = Machine::new(2, 6, &[5, 0, 10]);
        assert_eq!(
            sentences(Table::new(&machine, &T), Spelling::Signs),
            [
                "3 states, 2 letters, 6 transitions.",
                "State 0 is initial and stores letters from here (mark 5).",
                "State 1 has no mark.",
                "State 2 is final and matches stored letters here (mark 10).",
                "From state 0, reading nothing leads to state 1, only while storing.",
                "From state 1, letters 1 (a) and 2 (b) lead to state 1.",
                "From state 1, reading nothing leads to state 2.",
                "From state 2, letters 1 (a) and 2 (b) lead to state 2, each if it is the next stored letter.",
            ]
        );
    }

    #[test]
    fn conditions_and_tables_without_words() {
        let machine = Machine::new(1, 4, &[4, 4, 8, 11]);
        let list = [0, 1, 1, 2, 0, 3, 2, 1, 0, 2, 1, 2];
        assert_eq!(
            sentences(Table::new(&machine, &list), Spelling::Numbers)[1..],
            [
                "State 0 stores letters from here (mark 4).",
                "State 1 stores letters from here (mark 4).",
                "State 2 matches stored letters here (mark 8).",
                "State 3 is initial and final, and matches stored letters here (mark 11).",
                "From state 0, letter 1 leads to state 1, but no run may take this: both states are buffering.",
                "From state 2, letter 1 leads to state 0, only in normal mode.",
                "From state 2, letter 1 leads to state 2, if it is the next stored letter.",
                "From state 2, reading nothing leads to state 3, only while matching.",
            ]
        );
        let bare = Machine::new(0, 0, &[0]);
        assert_eq!(
            sentences(Table::new(&bare, &[]), Spelling::Signs),
            [
                "1 state, 0 letters, 0 transitions.",
                "State 0 has no mark.",
                "No state is initial: no word is accepted.",
                "No state is final: no word is accepted.",
            ]
        );
    }
}
