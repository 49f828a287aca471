//! Runs in words: what each entry does, and of a run that does not accept the first entry that is not allowed and why.
//!
//! - [`Walk`]: the moves of a run as far as they are allowed. Its configurations come from [`zagvirk::step`]; on a word of
//!   more than 255 letters that call gets the part of the word that a move can look at.
//! - [`Move`]: one entry that is allowed, with the configurations before and after it; [`Move::line`] has it in words.
//! - [`Fault`]: why a run does not accept; [`Fault::sentence`] has it in words.
//! - [`fault`]: the fault of a run, or that it accepts, as [`zagvirk::check_run`] says.
//! - [`copies`]: the copies with letters of an accepting run, in words.

use crate::sentences::{counted, has, transition, Spelling};
use zagvirk::recognize::LONGEST_RECOGNIZED;
use zagvirk::{Config, Machine, Mode, Refusal, Table};
use zagvirk::{BACK_TO_NORMAL, BEGIN_BUFFERING, BEGIN_EMPTYING};
use zagvirk::{FINAL, INITIAL, MATCHING};

/// One entry of a run that is allowed. Entry 0 is the start state, with the same configuration before and after it.
#[derive(Clone, Copy, PartialEq, Eq, Debug)]
pub struct Move {
    pub number: usize,
    pub entry: u16,
    pub before: Config,
    pub after: Config,
}

impl Move {
    /// The entry in words, without its number: what happens, the states, and the mode and the buffer after it.
    pub fn words(&self, table: Table, word: &[u8], spelling: Spelling) -> String {
        let state = self.after.state;
        if self.number == 0 {
            return format!("start in state {state}");
        }
        let what = match self.entry {
            BEGIN_BUFFERING => return format!("begin storing in state {state}"),
            BACK_TO_NORMAL => return format!("back to normal in state {state}"),
            BEGIN_EMPTYING => format!("begin matching in state {state}"),
            number => self.taken(table, number, spelling),
        };
        format!("{what}, {}", mode_and_buffer(self.after, word, spelling))
    }

    /// The transition that is taken.
    fn taken(&self, table: Table, number: u16, spelling: Spelling) -> String {
        let letter = transition(table, usize::from(number)).map_or(0, |(_, letter, _)| letter);
        let reads = match letter {
            0 => "nothing read".to_string(),
            _ => format!("read {}", spelling.named(letter)),
        };
        let (from, to) = (self.before.state, self.after.state);
        format!("{reads} by transition {number}: {from} → {to}")
    }

    /// The entry in words behind its number, which stands in a column of so many signs.
    pub fn line(&self, table: Table, word: &[u8], spelling: Spelling, width: usize) -> String {
        let words = self.words(table, word, spelling);
        format!("{:>width$}  {words}", self.number)
    }
}

/// The width of the column for the numbers of a run's entries.
pub fn number_width(entries: usize) -> usize {
    entries.saturating_sub(1).to_string().len()
}

/// The mode and the buffer of a configuration in words.
fn mode_and_buffer(config: Config, word: &[u8], spelling: Spelling) -> String {
    let buffer = buffer(config, word);
    match (config.mode, buffer.is_empty()) {
        (Mode::Normal, _) => "normal".to_string(),
        (Mode::Buffering, true) => "storing, nothing yet".to_string(),
        (Mode::Buffering, false) => format!("storing {}", spelling.word(buffer)),
        (Mode::Emptying, true) => "nothing left to match".to_string(),
        (Mode::Emptying, false) => format!("still to match {}", spelling.word(buffer)),
    }
}

/// The buffered letters.
fn buffer(config: Config, word: &[u8]) -> &[u8] {
    word.get(config.start..config.end).unwrap_or(&[])
}

/// The moves of a run, the start first, as far as they are allowed.
#[derive(Clone, Debug)]
pub struct Walk<'a> {
    table: Table<'a>,
    word: &'a [u8],
    run: &'a [u16],
    /// How many entries were given.
    given: usize,
    /// The configuration after them.
    config: Config,
}

impl<'a> Walk<'a> {
    /// The moves of the run on the word.
    pub fn new(table: Table<'a>, word: &'a [u8], run: &'a [u16]) -> Walk<'a> {
        let state = run.first().map_or(0, |&state| usize::from(state));
        Walk {
            table,
            word,
            run,
            given: 0,
            config: Config::initial(state),
        }
    }

    /// Whether there is a start state and it is initial.
    fn starts(&self) -> bool {
        !self.run.is_empty()
            && self.config.state < self.table.machine.states
            && has(self.table.machine, self.config.state, INITIAL)
    }

    /// Why the run does not accept, or `None` if it does; after all moves were given.
    pub fn fault(&self) -> Option<Fault> {
        let state = self.config.state;
        if self.run.is_empty() {
            return Some(Fault::Empty);
        }
        if self.given == 0 {
            let states = self.table.machine.states;
            return Some(match state < states {
                true => Fault::NotInitial { state },
                false => Fault::NoState { state, states },
            });
        }
        match self.run.get(self.given) {
            Some(&entry) => Some(Fault::NotAllowed {
                number: self.given,
                entry,
                why: why(self.table, self.word, self.config, entry),
            }),
            None => {
                let end = self.end();
                (!end.accepts()).then_some(Fault::Unfinished(end))
            }
        }
    }

    /// Where the run stands.
    fn end(&self) -> End {
        End {
            state: self.config.state,
            is_final: has(self.table.machine, self.config.state, FINAL),
            mode: self.config.mode,
            read: self.config.position,
            letters: self.word.len(),
        }
    }
}

impl Iterator for Walk<'_> {
    type Item = Result<Move, Refusal>;

    fn next(&mut self) -> Option<Result<Move, Refusal>> {
        let entry = *self.run.get(self.given)?;
        let after = match self.given {
            0 => Ok(self.starts().then_some(self.config)),
            _ => step(self.table, self.word, self.config, entry),
        };
        let after = match after {
            Ok(after) => after?,
            Err(refusal) => return Some(Err(refusal)),
        };
        let moved = Move {
            number: self.given,
            entry,
            before: self.config,
            after,
        };
        self.given += 1;
        self.config = after;
        Some(Ok(moved))
    }
}

/// One move by the proved call. That call tests the whole word each time, which for a long word and a long run would take
/// too long; a long word is given to it as the part that a move can look at.
fn step(table: Table, word: &[u8], config: Config, entry: u16) -> Result<Option<Config>, Refusal> {
    match word.len() <= LONGEST_RECOGNIZED {
        true => zagvirk::step(table, word, config, entry),
        false => step_in_part(table, word, config, entry),
    }
}

/// One move by the proved call on the part of the word that it can look at: the buffer's first letter, if there is one,
/// and the next letter of the word, if there is one. A buffer of more letters is one of a single letter to the move.
fn step_in_part(
    table: Table,
    word: &[u8],
    config: Config,
    entry: u16,
) -> Result<Option<Config>, Refusal> {
    let mut part: Vec<u8> = buffer(config, word).iter().copied().take(1).collect();
    let mut inner = config;
    inner.start = 0;
    inner.end = part.len();
    inner.position = part.len();
    part.extend(word.get(config.position));
    let Some(moved) = zagvirk::step(table, &part, inner, entry)? else {
        return Ok(None);
    };
    // Back to normal is for an empty buffer, and the part's buffer is empty exactly if the word's is.
    let mut after = config;
    after.state = moved.state;
    after.mode = moved.mode;
    after.position += moved.position - inner.position;
    match entry {
        BEGIN_BUFFERING => (after.start, after.end) = (config.position, config.position),
        _ => {
            after.start += moved.start - inner.start;
            after.end += moved.end - inner.end;
        }
    }
    Ok(Some(after))
}

/// Why the run does not accept the word, or `None` if it does.
///
/// Refuses as [`zagvirk::check_run`] does.
pub fn fault(table: Table, word: &[u8], run: &[u16]) -> Result<Option<Fault>, Refusal> {
    if zagvirk::check_run(table, word, run)? {
        return Ok(None);
    }
    let mut walk = Walk::new(table, word, run);
    for moved in &mut walk {
        moved?;
    }
    // Whether the run accepts is the checker's word, so there is a fault whatever was found.
    let fault = walk.fault().unwrap_or(Fault::Unfinished(walk.end()));
    Ok(Some(fault))
}

/// Why a run does not accept.
#[derive(Clone, Copy, PartialEq, Eq, Debug)]
pub enum Fault {
    /// The run has no entry.
    Empty,
    /// The start state is not there.
    NoState { state: usize, states: usize },
    /// The start state is not initial.
    NotInitial { state: usize },
    /// The entry is not allowed; all before it are.
    NotAllowed { number: usize, entry: u16, why: Why },
    /// All entries are allowed, and the run does not accept.
    Unfinished(End),
}

/// Where a run ends.
#[derive(Clone, Copy, PartialEq, Eq, Debug)]
pub struct End {
    pub state: usize,
    pub is_final: bool,
    pub mode: Mode,
    /// How many letters are read, of how many.
    pub read: usize,
    pub letters: usize,
}

/// Why an entry is not allowed.
#[derive(Clone, Copy, PartialEq, Eq, Debug)]
pub enum Why {
    /// The number is neither a transition's nor a change of mode.
    NamesNothing,
    /// The transition leaves another state.
    OtherState { state: usize },
    /// The next letter of the word, at this position, is another.
    OtherLetter { position: usize, next: u8 },
    /// The word is read to its end.
    WordEnds,
    /// The transition is between two matching states, and the mode is normal or storing.
    BothMatching { mode: Mode },
    /// The transition leaves a buffering state in normal mode.
    OutOfBuffering,
    /// The transition leads into a buffering state while storing.
    IntoBuffering,
    /// The run is matching, and this end of the transition is not a matching state.
    NotBothMatching { state: usize },
    /// The run is matching, and no stored letter is left.
    NoneStored,
    /// The run is matching, and the next stored letter is another.
    OtherStored { stored: u8 },
    /// The change of mode is for another mode.
    OtherMode { mode: Mode },
    /// Storing begins in a buffering state, and this is none.
    NotBuffering { state: usize },
    /// Matching begins and ends in a matching state, and this is none.
    NotMatching { state: usize },
    /// So many letters are left to match.
    LettersLeft { letters: usize },
}

/// Why the entry is not allowed from the configuration, of which that is known. The configuration is one of a run.
fn why(table: Table, word: &[u8], config: Config, entry: u16) -> Why {
    let (machine, state, mode) = (table.machine, config.state, config.mode);
    match entry {
        BEGIN_BUFFERING if mode != Mode::Normal => Why::OtherMode { mode },
        BEGIN_BUFFERING => Why::NotBuffering { state },
        BEGIN_EMPTYING if mode != Mode::Buffering => Why::OtherMode { mode },
        BEGIN_EMPTYING => Why::NotMatching { state },
        BACK_TO_NORMAL if mode != Mode::Emptying => Why::OtherMode { mode },
        BACK_TO_NORMAL if !has(machine, state, MATCHING) => Why::NotMatching { state },
        BACK_TO_NORMAL => Why::LettersLeft {
            letters: buffer(config, word).len(),
        },
        number => match transition(table, usize::from(number)) {
            None => Why::NamesNothing,
            Some(taken) => why_not_taken(machine, word, config, taken),
        },
    }
}

/// Why the transition may not be taken: its state, the next letter, the mode, the next stored letter, in this order.
fn why_not_taken(
    machine: &Machine,
    word: &[u8],
    config: Config,
    (from, letter, to): (usize, u16, usize),
) -> Why {
    if from != config.state {
        return Why::OtherState {
            state: config.state,
        };
    }
    if letter != 0 {
        match word.get(config.position) {
            None => return Why::WordEnds,
            Some(&next) if u16::from(next) != letter => {
                return Why::OtherLetter {
                    position: config.position,
                    next,
                }
            }
            Some(_) => {}
        }
    }
    let mode = config.mode;
    let matching = |state| has(machine, state, MATCHING);
    match (mode, matching(from) && matching(to)) {
        (Mode::Normal | Mode::Buffering, true) => Why::BothMatching { mode },
        (Mode::Normal, false) => Why::OutOfBuffering,
        (Mode::Buffering, false) => Why::IntoBuffering,
        (Mode::Emptying, false) => Why::NotBothMatching {
            state: if matching(from) { to } else { from },
        },
        (Mode::Emptying, true) => match buffer(config, word).first() {
            None => Why::NoneStored,
            Some(&stored) => Why::OtherStored { stored },
        },
    }
}

impl Fault {
    /// The fault as a sentence without a full stop.
    pub fn sentence(&self, table: Table, spelling: Spelling) -> String {
        match *self {
            Fault::Empty => "the run is empty: it has no start state".to_string(),
            Fault::NoState { state, states } => format!(
                "entry 0 names start state {state}, and there {} {}, numbered from 0",
                are(states),
                counted(states, "state"),
            ),
            Fault::NotInitial { state } => {
                format!("entry 0 names start state {state}, which is not initial")
            }
            Fault::NotAllowed { number, entry, why } => {
                not_allowed(table, spelling, number, entry, why)
            }
            Fault::Unfinished(end) => end.sentence(),
        }
    }
}

/// `is` for one, `are` for more or none.
fn are(count: usize) -> &'static str {
    match count {
        1 => "is",
        _ => "are",
    }
}

/// That an entry is not allowed, and why.
fn not_allowed(table: Table, spelling: Spelling, number: usize, entry: u16, why: Why) -> String {
    let taken = transition(table, usize::from(entry));
    let what = match (entry, taken) {
        (BEGIN_BUFFERING, _) => "begin storing".to_string(),
        (BEGIN_EMPTYING, _) => "begin matching".to_string(),
        (BACK_TO_NORMAL, _) => "back to normal".to_string(),
        (_, Some((from, 0, to))) => format!("transition {entry} ({from} → {to}, reads nothing)"),
        (_, Some((from, letter, to))) => {
            let letter = spelling.named(letter);
            format!("transition {entry} ({from} → {to}, reads {letter})")
        }
        (_, None) => {
            let transitions = table.machine.transitions;
            return format!(
                "entry {number} is {entry}, which names nothing: there {} {}, numbered from 0, and the changes of mode \
                 65533, 65534 and 65535",
                are(transitions),
                counted(transitions, "transition"),
            );
        }
    };
    let why = because(why, entry, spelling);
    format!("entry {number}, {what}, is not allowed: {why}")
}

/// Why an entry is not allowed, in words.
fn because(why: Why, entry: u16, spelling: Spelling) -> String {
    match why {
        Why::NamesNothing => "it names nothing".to_string(),
        Why::OtherState { state } => format!("the run is in state {state}"),
        Why::OtherLetter { position, next } => {
            let next = spelling.named(u16::from(next));
            format!("the next letter of the word, number {}, is {next}", position + 1)
        }
        Why::WordEnds => "the word is read to its end".to_string(),
        Why::BothMatching { mode } => format!(
            "it is between two matching states, so only a run that is matching may take it, and this one is {}",
            adjective(mode)
        ),
        Why::OutOfBuffering => {
            "it leaves a buffering state, where a run in normal mode must begin storing first".to_string()
        }
        Why::IntoBuffering => {
            "it leads into a buffering state, which a run that is storing may not enter".to_string()
        }
        Why::NotBothMatching { state } => format!(
            "the run is matching and may only go between two matching states, and state {state} is none"
        ),
        Why::NoneStored => "the run is matching, and no stored letter is left".to_string(),
        Why::OtherStored { stored } => format!(
            "the run is matching, and the next stored letter is {}",
            spelling.named(u16::from(stored))
        ),
        Why::OtherMode { mode } => {
            format!("the run is {}, not {}", adjective(mode), mode_before(entry))
        }
        Why::NotBuffering { state } => format!("state {state} is not a buffering state"),
        Why::NotMatching { state } => format!("state {state} is not a matching state"),
        Why::LettersLeft { letters } => {
            format!("{} {} left to match", counted(letters, "letter"), are(letters))
        }
    }
}

/// What a run in the mode is.
fn adjective(mode: Mode) -> &'static str {
    match mode {
        Mode::Normal => "normal",
        Mode::Buffering => "storing",
        Mode::Emptying => "matching",
    }
}

/// What a run must be for the change of mode.
fn mode_before(entry: u16) -> &'static str {
    adjective(match entry {
        BEGIN_BUFFERING => Mode::Normal,
        BEGIN_EMPTYING => Mode::Buffering,
        _ => Mode::Emptying,
    })
}

impl End {
    /// Whether a run accepts that ends here.
    fn accepts(&self) -> bool {
        self.is_final && self.mode == Mode::Normal && self.read == self.letters
    }

    /// What the run lacks here.
    fn sentence(&self) -> String {
        let mut parts = Vec::new();
        if self.mode != Mode::Normal {
            parts.push(format!("it is still {}", adjective(self.mode)));
        }
        if !self.is_final {
            parts.push(format!("state {} is not final", self.state));
        }
        if self.read != self.letters {
            let letters = counted(self.letters, "letter");
            parts.push(format!("it has read {} of {letters}", self.read));
        }
        format!(
            "every entry is allowed, but the run does not accept where it ends: {}",
            parts.join("; ")
        )
    }
}

/// The copies with letters of an accepting run in words, a line each behind one with their number: which letters of the
/// word were stored.
///
/// Refuses as [`zagvirk::copies::list_copies`] does, but for the length of its slice.
pub fn copies(
    table: Table,
    word: &[u8],
    run: &[u16],
    spelling: Spelling,
) -> Result<Vec<String>, Refusal> {
    // The letters of each copy stand twice in the word, so two elements for each are not more than it has letters.
    let mut list = vec![0; word.len()];
    let listed = zagvirk::copies::list_copies(table, word, run, &mut list)?;
    let mut lines = vec![match listed.count {
        0 => "no copy".to_string(),
        1 => format!("1 copy, {}:", counted(listed.total, "letter")),
        count => format!(
            "{count} copies, {} in all:",
            counted(listed.total, "letter")
        ),
    }];
    for copy in list.chunks_exact(2).take(listed.count) {
        lines.push(copied(
            word,
            usize::from(copy[0]),
            usize::from(copy[1]),
            spelling,
        ));
    }
    Ok(lines)
}

/// One copy: where storing began and what was stored.
fn copied(word: &[u8], place: usize, letters: usize, spelling: Spelling) -> String {
    let stored = word.get(place..place + letters).unwrap_or(&[]);
    match letters {
        1 => format!("  letter {}: {}", place + 1, spelling.word(stored)),
        _ => format!(
            "  letters {} to {}: {}",
            place + 1,
            place + letters,
            spelling.word(stored)
        ),
    }
}

#[cfg(test)]
mod tests {
    use super::*;
    use crate::sentences::transitions;
    use zagvirk::recognize::{recognize, run_length};
    use zagvirk::BUFFERING;

    const T: [u16; 18] = [0, 0, 1, 1, 0, 2, 1, 1, 1, 1, 2, 1, 2, 1, 2, 2, 2, 2];
    const RUN: [u16; 10] = [0, 65_533, 0, 2, 3, 1, 65_534, 4, 5, 65_535];

    fn t() -> Machine {
        Machine::new(2, 6, &[5, 0, 10])
    }

    fn lines(table: Table, word: &[u8], run: &[u16], spelling: Spelling) -> Vec<String> {
        let width = number_width(run.len());
        Walk::new(table, word, run)
            .map(|moved| moved.unwrap().line(table, word, spelling, width))
            .collect()
    }

    #[test]
    fn a_run_in_words() {
        let machine = t();
        let table = Table::new(&machine, &T);
        let word = [1, 2, 1, 2];
        assert_eq!(
            lines(table, &word, &RUN, Spelling::Signs),
            [
                "0  start in state 0",
                "1  begin storing in state 0",
                "2  nothing read by transition 0: 0 → 1, storing, nothing yet",
                "3  read a by transition 2: 1 → 1, storing \"a\"",
                "4  read b by transition 3: 1 → 1, storing \"ab\"",
                "5  nothing read by transition 1: 1 → 2, storing \"ab\"",
                "6  begin matching in state 2, still to match \"ab\"",
                "7  read a by transition 4: 2 → 2, still to match \"b\"",
                "8  read b by transition 5: 2 → 2, nothing left to match",
                "9  back to normal in state 2",
            ]
        );
        assert_eq!(
            lines(table, &word, &RUN, Spelling::Numbers)[4],
            "4  read letter 2 by transition 3: 1 → 1, storing 1 2"
        );
        assert_eq!(
            copies(table, &word, &RUN, Spelling::Signs).unwrap(),
            ["1 copy, 2 letters:", "  letters 1 to 2: \"ab\""]
        );
    }

    #[test]
    fn normal_moves_and_copies_of_nothing() {
        // Letter 1 to a state where nothing is copied twice.
        let machine = Machine::new(1, 2, &[1, 4, 10]);
        let table = Table::new(&machine, &[0, 1, 1, 1, 0, 2]);
        let run = [0, 0, 65_533, 1, 65_534, 65_535];
        assert_eq!(
            lines(table, &[1], &run, Spelling::Signs),
            [
                "0  start in state 0",
                "1  read a by transition 0: 0 → 1, normal",
                "2  begin storing in state 1",
                "3  nothing read by transition 1: 1 → 2, storing, nothing yet",
                "4  begin matching in state 2, nothing left to match",
                "5  back to normal in state 2",
            ]
        );
        assert_eq!(
            copies(table, &[1], &run, Spelling::Signs).unwrap(),
            ["no copy"]
        );
        let plain = Machine::new(1, 1, &[1, 2]);
        let plain = Table::new(&plain, &[0, 1, 1]);
        assert_eq!(
            copies(plain, &[1], &[0, 0], Spelling::Signs).unwrap(),
            ["no copy"]
        );
        let refused = copies(plain, &[1], &[0], Spelling::Signs);
        assert_eq!(refused, Err(Refusal::NotAccepting));
    }

    #[test]
    fn copies_of_nothing_among_others() {
        // T with an epsilon transition from its last state back to its first.
        let machine = Machine::new(2, 7, &[5, 0, 10]);
        let list = [
            0, 0, 1, 1, 0, 2, 1, 1, 1, 1, 2, 1, 2, 0, 0, 2, 1, 2, 2, 2, 2,
        ];
        let table = Table::new(&machine, &list);
        let nothing = &[65_533, 0, 1, 65_534, 65_535][..];
        let a = &[65_533, 0, 2, 1, 65_534, 5, 65_535][..];
        let shown = |word: &[u8], parts: &[&[u16]]| {
            let run = [&[0], parts.join(&4).as_slice()].concat();
            copies(table, word, &run, Spelling::Signs).unwrap()
        };
        assert_eq!(shown(&[], &[nothing; 40]), ["no copy"]);
        assert_eq!(
            shown(&[1, 1], &[nothing, a, nothing, nothing]),
            ["1 copy, 1 letter:", "  letter 1: \"a\""]
        );
        assert_eq!(
            shown(&[1; 4], &[nothing, a, nothing, a, nothing]),
            [
                "2 copies, 2 letters in all:",
                "  letter 1: \"a\"",
                "  letter 3: \"a\""
            ]
        );
        let lines = shown(&[1; 254], &[a; 127]);
        assert_eq!(lines.len(), 128);
        assert_eq!(lines[127], "  letter 253: \"a\"");
    }

    /// The sentence of the fault of a run of T.
    fn of_t(word: &[u8], run: &[u16]) -> String {
        let machine = t();
        let table = Table::new(&machine, &T);
        let fault = fault(table, word, run).unwrap().expect("a fault");
        fault.sentence(table, Spelling::Signs)
    }

    #[test]
    fn faults_of_t() {
        let abab = &[1, 2, 1, 2];
        for (word, run, expected) in [
            (&abab[..], &[][..], "the run is empty: it has no start state"),
            (abab, &[7], "entry 0 names start state 7, and there are 3 states, numbered from 0"),
            (abab, &[1], "entry 0 names start state 1, which is not initial"),
            (
                abab,
                &[0, 6],
                "entry 1 is 6, which names nothing: there are 6 transitions, numbered from 0, and the changes of mode \
                 65533, 65534 and 65535",
            ),
            (
                abab,
                &[0, 2],
                "entry 1, transition 2 (1 → 1, reads a), is not allowed: the run is in state 0",
            ),
            (
                abab,
                &[0, 0],
                "entry 1, transition 0 (0 → 1, reads nothing), is not allowed: it leaves a buffering state, where a run in \
                 normal mode must begin storing first",
            ),
            (
                abab,
                &[0, 65_533, 0, 3],
                "entry 3, transition 3 (1 → 1, reads b), is not allowed: the next letter of the word, number 1, is a",
            ),
            (
                &[1],
                &[0, 65_533, 0, 2, 2],
                "entry 4, transition 2 (1 → 1, reads a), is not allowed: the word is read to its end",
            ),
            (
                abab,
                &[0, 65_533, 0, 1, 4],
                "entry 4, transition 4 (2 → 2, reads a), is not allowed: it is between two matching states, so only a run \
                 that is matching may take it, and this one is storing",
            ),
            (
                &[1, 2, 2, 1],
                &[0, 65_533, 0, 2, 3, 1, 65_534, 5],
                "entry 7, transition 5 (2 → 2, reads b), is not allowed: the run is matching, and the next stored letter is a",
            ),
            (
                &[1, 1, 1],
                &[0, 65_533, 0, 2, 1, 65_534, 4, 4],
                "entry 7, transition 4 (2 → 2, reads a), is not allowed: the run is matching, and no stored letter is left",
            ),
            (
                abab,
                &[0, 65_534],
                "entry 1, begin matching, is not allowed: the run is normal, not storing",
            ),
            (
                abab,
                &[0, 65_533, 65_533],
                "entry 2, begin storing, is not allowed: the run is storing, not normal",
            ),
            (
                abab,
                &[0, 65_533, 65_534],
                "entry 2, begin matching, is not allowed: state 0 is not a matching state",
            ),
            (
                abab,
                &[0, 65_533, 0, 2, 3, 1, 65_534, 65_535],
                "entry 7, back to normal, is not allowed: 2 letters are left to match",
            ),
            (
                abab,
                &[0, 65_533, 0, 2, 1, 65_534],
                "every entry is allowed, but the run does not accept where it ends: it is still matching; it has read 1 of 4 \
                 letters",
            ),
            (
                &[],
                &[0],
                "every entry is allowed, but the run does not accept where it ends: state 0 is not final",
            ),
        ] {
            assert_eq!(of_t(word, run), expected);
        }
    }

    #[test]
    fn faults_that_t_has_not() {
        let machine = Machine::new(1, 4, &[5, 4, 8, 0]);
        let table = Table::new(&machine, &[0, 0, 1, 0, 0, 2, 2, 0, 2, 2, 0, 3]);
        for (run, expected) in [
            (
                &[0, 65_533, 0][..],
                "entry 2, transition 0 (0 → 1, reads nothing), is not allowed: it leads into a buffering state, which a run \
                 that is storing may not enter",
            ),
            (
                &[0, 65_533, 1, 65_534, 3],
                "entry 4, transition 3 (2 → 3, reads nothing), is not allowed: the run is matching and may only go between \
                 two matching states, and state 3 is none",
            ),
            (
                &[0, 65_533, 1, 65_534, 65_535, 65_533],
                "entry 5, begin storing, is not allowed: state 2 is not a buffering state",
            ),
            (
                &[0, 65_533, 1, 65_534, 65_535, 2],
                "entry 5, transition 2 (2 → 2, reads nothing), is not allowed: it is between two matching states, so only a \
                 run that is matching may take it, and this one is normal",
            ),
        ] {
            let fault = fault(table, &[], run).unwrap().expect("a fault");
            assert_eq!(fault.sentence(table, Spelling::Signs), expected);
        }
    }

    /// Pseudo-random numbers (splitmix64).
    struct Rng(u64);

    impl Rng {
        fn below(&mut self, bound: usize) -> usize {
            self.0 = self.0.wrapping_add(0x9e37_79b9_7f4a_7c15);
            let mut z = self.0;
            z = (z ^ (z >> 30)).wrapping_mul(0xbf58_476d_1ce4_e5b9);
            z = (z ^ (z >> 27)).wrapping_mul(0x94d0_49bb_1331_11eb);
            ((z ^ (z >> 31)) % bound as u64) as usize
        }

        fn pick<T: Copy>(&mut self, choices: &[T]) -> T {
            choices[self.below(choices.len())]
        }
    }

    /// A machine of up to 5 states and 3 letters in which copies are frequent, now and then T.
    fn random_machine(rng: &mut Rng) -> (Machine, Vec<u16>) {
        if rng.below(8) == 0 {
            return (t(), T.to_vec());
        }
        let states = 1 + rng.below(5);
        let letters = 1 + rng.below(3);
        let mut marks: Vec<u8> = (0..states)
            .map(|_| rng.pick(&[0, 0, 4, 8, 8]) | rng.pick(&[0, 0, 1, 2, 3]))
            .collect();
        if states > 1 && rng.below(2) == 0 {
            marks[0] = 5;
            marks[states - 1] = 10;
        }
        let mut found: Vec<[u16; 3]> = (0..rng.below(4 * states * letters + 1))
            .map(|_| {
                [
                    rng.below(states) as u16,
                    rng.below(letters + 1) as u16,
                    rng.below(states) as u16,
                ]
            })
            .collect();
        found.sort_unstable();
        found.dedup();
        (Machine::new(letters, found.len(), &marks), found.concat())
    }

    /// A word of up to 6 letters, often doubled.
    fn random_word(rng: &mut Rng, letters: usize) -> Vec<u8> {
        let mut word: Vec<u8> = (0..rng.below(4))
            .map(|_| 1 + rng.below(letters) as u8)
            .collect();
        if rng.below(2) == 0 {
            word.extend(word.clone());
        }
        word
    }

    /// An entry, mostly one that names something and often one of a transition out of the state.
    fn random_entry(rng: &mut Rng, table: Table, state: usize) -> u16 {
        let leaving: Vec<usize> = transitions(table)
            .enumerate()
            .filter(|(_, (from, _, _))| *from == state)
            .map(|(number, _)| number)
            .collect();
        match rng.below(8) {
            0 => 65_533,
            1 => 65_534,
            2 => 65_535,
            3 => rng.pick(&[0, 65_532, table.machine.transitions as u16]),
            4 => rng.below(table.machine.transitions + 1) as u16,
            _ if leaving.is_empty() => 0,
            _ => rng.pick(&leaving) as u16,
        }
    }

    /// A run that goes as far as random entries allow, and one entry more.
    fn random_run(rng: &mut Rng, table: Table, word: &[u8]) -> Vec<u16> {
        let initial: Vec<usize> = (0..table.machine.states)
            .filter(|&state| has(table.machine, state, INITIAL))
            .collect();
        let start = match initial.is_empty() || rng.below(20) == 0 {
            true => rng.below(table.machine.states + 1),
            false => rng.pick(&initial),
        };
        let mut run = vec![start as u16];
        let mut config = Config::initial(start);
        for _ in 0..rng.below(40) {
            let mut entry = 0;
            let mut after = None;
            for _ in 0..1 + rng.below(16) {
                entry = random_entry(rng, table, config.state);
                after = zagvirk::step(table, word, config, entry).unwrap();
                if after.is_some() {
                    break;
                }
            }
            run.push(entry);
            match after {
                Some(after) => config = after,
                None => break,
            }
        }
        run
    }

    /// A run of the word: one that accepts, if there is one, often damaged; else a random one.
    fn good_or_damaged(rng: &mut Rng, table: Table, word: &[u8]) -> Vec<u16> {
        let mut run = vec![0; run_length(table.machine, word.len())];
        match recognize(table, word, &mut run).unwrap() {
            Some(entries) if rng.below(4) > 0 => run.truncate(entries),
            _ => return random_run(rng, table, word),
        }
        let at = rng.below(run.len());
        match rng.below(6) {
            0 => run[at] = random_entry(rng, table, 0),
            1 => drop(run.remove(at)),
            2 => run.insert(at, random_entry(rng, table, 0)),
            3 => run.truncate(at),
            _ => {}
        }
        run
    }

    /// The configuration before the entry of a fault.
    fn before(table: Table, word: &[u8], run: &[u16], number: usize) -> Config {
        let mut config = Config::initial(usize::from(run[0]));
        for &entry in &run[1..number] {
            config = zagvirk::step(table, word, config, entry)
                .unwrap()
                .expect("all entries ahead of the fault are allowed");
        }
        let next = zagvirk::step(table, word, config, run[number]).unwrap();
        assert_eq!(next, None, "the entry of a fault is not allowed");
        config
    }

    /// Whether all that is said of why an entry is not allowed holds, and that it forbids the entry.
    fn holds(table: Table, word: &[u8], config: Config, entry: u16, why: Why) -> bool {
        let machine = table.machine;
        let taken = transition(table, usize::from(entry));
        let marked = |state, mark| has(machine, state, mark);
        let both = |from, to| marked(from, MATCHING) && marked(to, MATCHING);
        let left = config.end - config.start;
        let needed = match entry {
            BEGIN_BUFFERING => Mode::Normal,
            BEGIN_EMPTYING => Mode::Buffering,
            _ => Mode::Emptying,
        };
        let is_here = taken.is_some_and(|(from, _, _)| from == config.state);
        match (why, taken) {
            (Why::NamesNothing, taken) => taken.is_none() && entry < BEGIN_BUFFERING,
            (Why::OtherMode { mode }, None) => mode == config.mode && mode != needed,
            (Why::NotBuffering { state }, None) => {
                entry == BEGIN_BUFFERING && state == config.state && !marked(state, BUFFERING)
            }
            (Why::NotMatching { state }, None) => {
                entry > BEGIN_BUFFERING && state == config.state && !marked(state, MATCHING)
            }
            (Why::LettersLeft { letters }, None) => {
                entry == BACK_TO_NORMAL && letters == left && left > 0
            }
            (Why::OtherState { state }, Some((from, _, _))) => {
                state == config.state && from != state
            }
            (Why::OtherLetter { position, next }, Some((_, letter, _))) => {
                position == config.position
                    && word[position] == next
                    && letter != 0
                    && u16::from(next) != letter
                    && is_here
            }
            (Why::WordEnds, Some((_, letter, _))) => {
                letter != 0 && config.position == word.len() && is_here
            }
            (Why::BothMatching { mode }, Some((from, _, to))) => {
                mode == config.mode && mode != Mode::Emptying && both(from, to) && is_here
            }
            (Why::OutOfBuffering, Some((from, _, _))) => {
                config.mode == Mode::Normal && marked(from, BUFFERING) && is_here
            }
            (Why::IntoBuffering, Some((_, _, to))) => {
                config.mode == Mode::Buffering && marked(to, BUFFERING) && is_here
            }
            (Why::NotBothMatching { state }, Some((from, _, to))) => {
                config.mode == Mode::Emptying
                    && (state == from || state == to)
                    && !marked(state, MATCHING)
                    && is_here
            }
            (Why::NoneStored, Some((_, letter, _))) => {
                config.mode == Mode::Emptying && letter != 0 && left == 0 && is_here
            }
            (Why::OtherStored { stored }, Some((_, letter, _))) => {
                config.mode == Mode::Emptying
                    && left > 0
                    && word[config.start] == stored
                    && letter != 0
                    && u16::from(stored) != letter
                    && is_here
            }
            _ => false,
        }
    }

    /// A number for each kind of fault, to count them.
    fn kind(fault: Option<Fault>) -> String {
        match fault {
            None => "none".to_string(),
            Some(Fault::NotAllowed { why, .. }) => {
                let text = format!("{why:?}");
                text.split(' ').next().unwrap_or("").to_string()
            }
            Some(other) => format!("{other:?}")
                .split([' ', '('])
                .next()
                .unwrap_or("")
                .to_string(),
        }
    }

    #[test]
    fn exactly_the_accepting_runs_have_no_fault() {
        let mut rng = Rng(20);
        let mut counts = std::collections::BTreeMap::new();
        for _ in 0..20_000 {
            let (machine, list) = random_machine(&mut rng);
            let table = Table::new(&machine, &list);
            for _ in 0..10 {
                let word = random_word(&mut rng, machine.letters);
                let run = good_or_damaged(&mut rng, table, &word);
                let mut walk = Walk::new(table, &word, &run);
                assert!(walk.by_ref().all(|moved| moved.is_ok()));
                let found = walk.fault();
                let context = format!("{machine:?} {list:?} {word:?} {run:?} {found:?}");
                let accepts = zagvirk::check_run(table, &word, &run).unwrap();
                assert_eq!(found.is_none(), accepts, "{context}");
                assert_eq!(fault(table, &word, &run), Ok(found), "{context}");
                if let Some(Fault::NotAllowed { number, entry, why }) = found {
                    assert_eq!(entry, run[number], "{context}");
                    let config = before(table, &word, &run, number);
                    assert!(holds(table, &word, config, entry, why), "{context}");
                }
                *counts.entry(kind(found)).or_insert(0) += 1;
            }
        }
        println!("runs by fault: {counts:?}");
        // Matching never leaves the matching states, so `NotMatching` is of 65,534 only.
        assert_eq!(counts.len(), 19, "every kind of fault: {counts:?}");
        assert!(counts.values().all(|&count| count >= 50), "{counts:?}");
    }

    #[test]
    fn a_move_on_a_part_of_the_word_is_that_on_the_whole() {
        let mut rng = Rng(21);
        let mut allowed = 0;
        for _ in 0..20_000 {
            let (machine, list) = random_machine(&mut rng);
            let table = Table::new(&machine, &list);
            for _ in 0..20 {
                let word = random_word(&mut rng, machine.letters);
                let mut config = Config::initial(rng.below(machine.states));
                config.position = rng.below(word.len() + 1);
                config.mode = rng.pick(&[Mode::Normal, Mode::Buffering, Mode::Emptying]);
                config.end = match config.mode {
                    Mode::Buffering => config.position,
                    _ => rng.below(config.position + 1),
                };
                config.start = match config.mode {
                    Mode::Normal => config.end,
                    _ => rng.below(config.end + 1),
                };
                let entry = random_entry(&mut rng, table, config.state);
                let whole = zagvirk::step(table, &word, config, entry).unwrap();
                let part = step_in_part(table, &word, config, entry).unwrap();
                assert_eq!(
                    part, whole,
                    "{machine:?} {list:?} {word:?} {config:?} {entry}"
                );
                allowed += usize::from(whole.is_some());
            }
        }
        println!("moves allowed: {allowed}");
        assert!(allowed > 10_000);
    }

    #[test]
    fn a_long_word_is_walked() {
        let machine = t();
        let table = Table::new(&machine, &T);
        let letters = 20_000;
        let word: Vec<u8> = (0..2 * letters)
            .map(|i| 1 + u8::from(i % letters % 3 == 0))
            .collect();
        let mut run = vec![0, 65_533, 0];
        run.extend(word[..letters].iter().map(|&letter| 1 + u16::from(letter)));
        run.extend([1, 65_534]);
        run.extend(word[letters..].iter().map(|&letter| 3 + u16::from(letter)));
        run.push(65_535);
        assert_eq!(fault(table, &word, &run), Ok(None));
        let mut walk = Walk::new(table, &word, &run);
        assert_eq!(walk.by_ref().flatten().count(), run.len());
        assert_eq!(walk.fault(), None);
        let last = run.len() - 2;
        run[last] = 65_535;
        assert!(matches!(
            fault(table, &word, &run),
            Ok(Some(Fault::NotAllowed {
                why: Why::LettersLeft { letters: 1 },
                ..
            }))
        ));
    }
}
