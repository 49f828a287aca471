//! Comparison of the proved calls with the reference. The functions here make one comparison each; the tests choose
//! the inputs and print how many cases they compared.

pub mod accepting_runs;
pub mod c;
pub mod calls;
pub mod columns;
pub mod copy_chains;
pub mod dense;
pub mod doubled_words;
pub mod kept;
pub mod longest_runs;
pub mod many_copies;
pub mod pairs;

use kept::Kept;
use reference::{Machine, Record, Refusal};
use std::sync::atomic::{AtomicUsize, Ordering};
use std::thread;
use zagvirk::{records, Table};

/// A pseudo-random generator (splitmix64).
pub struct Rng(u64);

impl Rng {
    /// The generator with the seed.
    pub fn new(seed: u64) -> Rng {
        Rng(seed)
    }

    /// The next 64 bits.
    pub fn bits(&mut self) -> u64 {
        self.0 = self.0.wrapping_add(0x9e37_79b9_7f4a_7c15);
        let mut z = self.0;
        z = (z ^ (z >> 30)).wrapping_mul(0xbf58_476d_1ce4_e5b9);
        z = (z ^ (z >> 27)).wrapping_mul(0x94d0_49bb_1331_11eb);
        z ^ (z >> 31)
    }

    /// A number below `bound`.
    pub fn below(&mut self, bound: usize) -> usize {
        (self.bits() % bound as u64) as usize
    }

    /// True once in `times`.
    pub fn once_in(&mut self, times: usize) -> bool {
        self.below(times) == 0
    }

    /// One of the choices.
    pub fn pick<T: Copy>(&mut self, choices: &[T]) -> T {
        choices[self.below(choices.len())]
    }
}

/// The results for all items, each item once and in any order, by one thread for each processor.
pub fn in_threads<T: Sync, R: Send>(items: &[T], find: impl Fn(&T) -> R + Sync) -> Vec<R> {
    let next = AtomicUsize::new(0);
    let some = || -> Vec<R> {
        let items = std::iter::from_fn(|| items.get(next.fetch_add(1, Ordering::Relaxed)));
        items.map(&find).collect()
    };
    let processors = thread::available_parallelism().map_or(1, usize::from);
    thread::scope(|scope| {
        let threads: Vec<_> = (0..processors).map(|_| scope.spawn(some)).collect();
        let results = threads.into_iter().map(|thread| thread.join());
        results
            .flat_map(|found| found.expect("the comparison of each item"))
            .collect()
    })
}

/// What a lent slice of 16-bit numbers holds before a call: numbers that no call writes.
pub fn filled(length: usize) -> Vec<u16> {
    (0..length).map(|i| 40_000 + (i % 9_973) as u16).collect()
}

/// What a lent slice of bytes holds before a call: bytes that no call writes.
pub fn filled_bytes(length: usize) -> Vec<u8> {
    (0..length).map(|i| 129 + (i % 113) as u8).collect()
}

/// What a lent slice of 64-bit numbers holds before a call: numbers that no call is likely to write.
pub fn filled_numbers(length: usize) -> Vec<u64> {
    (0..length)
        .map(|i| 0xa5c3_0000_5a3c_0000 + i as u64)
        .collect()
}

/// The machine of a result after a refusal.
pub const NO_MACHINE: zagvirk::Machine = zagvirk::Machine {
    states: 0,
    letters: 0,
    transitions: 0,
    marks: [0; 64],
};

/// The record for the proved calls.
pub fn record_of(record: &Record) -> zagvirk::Machine {
    zagvirk::Machine {
        states: record.states,
        letters: record.letters,
        transitions: record.transitions,
        marks: record.marks,
    }
}

/// The configuration for the proved calls.
pub fn config_of(config: reference::Config) -> records::Config {
    records::Config {
        position: config.position,
        state: config.state,
        mode: config.mode,
        start: config.start,
        end: config.end,
    }
}

/// A machine and a word ready for many comparisons: whether they are refused is found once, and the list and the word
/// are copied once. After every call the list, the word and the run are compared with their copies.
pub struct Case<'a> {
    record: &'a Record,
    list: &'a [u16],
    word: &'a [u8],
    judged: Result<Machine, Refusal>,
    proved: zagvirk::Machine,
    kept_list: Kept<u16>,
    kept_word: Kept<u8>,
    kept_run: Kept<u16>,
    /// The number of comparisons made.
    pub cases: u64,
}

impl<'a> Case<'a> {
    /// The case of the machine and the word.
    pub fn new(record: &'a Record, list: &'a [u16], word: &'a [u8]) -> Case<'a> {
        let judged = record.machine(list).and_then(|machine| {
            reference::check_word(&machine, word, reference::LONGEST_CHECKED)?;
            Ok(machine)
        });
        Case {
            record,
            list,
            word,
            judged,
            proved: record_of(record),
            kept_list: Kept::new("list", list),
            kept_word: Kept::new("word", word),
            kept_run: Kept::new("run", &[]),
            cases: 0,
        }
    }

    /// The table, as the calls take it.
    fn table(&self) -> Table<'_> {
        Table::new(&self.proved, self.list)
    }

    /// The refusal that the reference gives, or 0.
    pub fn refusal(&self) -> u8 {
        self.judged
            .as_ref()
            .err()
            .map_or(0, |refusal| refusal.number)
    }

    /// Compares one move. Returns the next configuration if there is one.
    pub fn step(&mut self, config: reference::Config, entry: u16) -> Option<reference::Config> {
        let next = match &self.judged {
            Ok(machine) => reference::moves::step(machine, self.word, config, entry),
            Err(_) => None,
        };
        let expected = records::Stepped {
            refusal: self.refusal(),
            allowed: u8::from(next.is_some()),
            config: config_of(next.unwrap_or(config)),
        };
        let found = records::step(self.table(), self.word, config_of(config), entry);
        self.same("step");
        if found != expected {
            panic!(
                "step differs\n{}\nconfig {config:?}\nentry {entry}\nreference {expected:?}\nproved {found:?}",
                self.input()
            );
        }
        self.cases += 1;
        next
    }

    /// Compares the run checker on one run. Returns whether the run accepts.
    pub fn check_run(&mut self, run: &[u16]) -> bool {
        let accepting = match &self.judged {
            Ok(machine) => reference::moves::accepting(machine, self.word, run),
            Err(_) => false,
        };
        let expected = records::Checked {
            refusal: self.refusal(),
            accepting: u8::from(accepting),
        };
        self.kept_run.again(run);
        let found = records::check_run(self.table(), self.word, run);
        self.same_with_run("check_run", run);
        if found != expected {
            let shown = &run[..run.len().min(200)];
            panic!(
                "check_run differs\n{}\nrun of {} entries {shown:?}\nreference {expected:?}\nproved {found:?}",
                self.input(),
                run.len(),
            );
        }
        self.cases += 1;
        accepting
    }

    /// Compares the wrappers with enums with the reference on one configuration of the three modes, and on one run.
    pub fn wrappers(&mut self, config: reference::Config, entry: u16, run: &[u16]) {
        let mut typed = zagvirk::Config::initial(config.state);
        typed.position = config.position;
        typed.mode = match config.mode {
            0 => zagvirk::Mode::Normal,
            1 => zagvirk::Mode::Buffering,
            2 => zagvirk::Mode::Emptying,
            _ => panic!("one of the three modes"),
        };
        typed.start = config.start;
        typed.end = config.end;
        let found = zagvirk::step(self.table(), self.word, typed, entry);
        self.same("step");
        let found = found.map(|next| next.map(records::Config::from));
        let judged = self.judged.as_ref();
        let expected = judged.map(|machine| {
            reference::moves::step(machine, self.word, config, entry).map(config_of)
        });
        assert_eq!(
            found.map_err(|refusal| refusal.number()),
            expected.map_err(|refusal| refusal.number)
        );
        self.kept_run.again(run);
        let found = zagvirk::check_run(self.table(), self.word, run);
        self.same_with_run("check_run", run);
        let judged = self.judged.as_ref();
        let expected = judged.map(|machine| reference::moves::accepting(machine, self.word, run));
        assert_eq!(
            found.map_err(|refusal| refusal.number()),
            expected.map_err(|refusal| refusal.number)
        );
        self.cases += 2;
    }

    /// Panics if the call changed the list or the word.
    fn same(&self, call: &str) {
        let list = self.kept_list.change(self.list);
        let word = self.kept_word.change(self.word);
        if let Some(change) = list.or(word) {
            panic!("{call}: {change}\nafter the call:\n{}", self.input());
        }
    }

    /// Panics if the call changed the list, the word or the run.
    fn same_with_run(&self, call: &str, run: &[u16]) {
        self.same(call);
        if let Some(change) = self.kept_run.change(run) {
            panic!("{call}: {change}\n{}", self.input());
        }
    }

    /// The number of comparisons made.
    pub fn finish(self) -> u64 {
        assert!(
            self.proved == record_of(self.record),
            "the record changed\n{}",
            self.input()
        );
        self.cases
    }

    /// The input as text for a message.
    fn input(&self) -> String {
        let marks = self.record.marks.iter().rposition(|&mark| mark != 0);
        let marks = &self.record.marks[..marks.map_or(0, |last| last + 1)];
        format!(
            "states {} letters {} transitions {} marks {:?}\nlist of {} elements {:?}\nword of {} letters {:?}",
            self.record.states,
            self.record.letters,
            self.record.transitions,
            marks,
            self.list.len(),
            &self.list[..self.list.len().min(300)],
            self.word.len(),
            &self.word[..self.word.len().min(300)],
        )
    }
}

/// The machine's record and list with one rule of "The table" broken, or now and then none.
pub fn break_a_rule(rng: &mut Rng, machine: &Machine) -> (Record, Vec<u16>) {
    let (mut record, mut list) = machine.record();
    let count = record.transitions;
    match rng.below(10) {
        0 => record.states = rng.pick(&[0, 65, 256, 65_537, usize::MAX]),
        1 => record.letters = rng.pick(&[251, 256, 65_536, usize::MAX]),
        2 => record.transitions = rng.pick(&[4001, count + 1, usize::MAX / 3 + 1, usize::MAX]),
        3 => record.marks[rng.below(record.states)] = rng.pick(&[12, 13, 14, 15, 16, 32, 255]),
        4 if record.states < 64 => {
            let past = record.states + rng.below(64 - record.states);
            record.marks[past] = rng.pick(&[1, 2, 4, 8, 16]);
        }
        5 if count > 0 => list.truncate(3 * count - 1 - rng.below(3)),
        6 if count > 0 => {
            let at = 3 * rng.below(count) + rng.pick(&[0, 2]);
            list[at] = rng.pick(&[record.states as u16, 64, 256, 65_535]);
        }
        7 if count > 0 => {
            let at = 3 * rng.below(count) + 1;
            list[at] = rng.pick(&[record.letters as u16 + 1, 251, 256, 65_535]);
        }
        8 if count > 1 => {
            let at = 3 + 3 * rng.below(count - 1);
            list.copy_within(at - 3..at, at);
        }
        9 if count > 1 => {
            let at = 3 + 3 * rng.below(count - 1);
            for i in 0..3 {
                list.swap(at + i, at - 3 + i);
            }
        }
        _ => {}
    }
    (record, list)
}

/// A machine with up to the given numbers of states and letters, chosen so that copying is frequent: about half start in
/// a buffering state and end in a matching state.
pub fn random_machine(rng: &mut Rng, states: usize, letters: usize) -> Machine {
    let states = 1 + rng.below(states);
    let letters = rng.below(letters + 1);
    let mut marks = Vec::new();
    for _ in 0..states {
        let role = rng.pick(&[0, 0, 4, 8, 8]);
        marks.push(role | rng.pick(&[0, 0, 1, 2, 3]));
    }
    let last = states - 1;
    if last > 0 && rng.once_in(2) {
        marks[0] = 5;
        marks[last] = 10;
    } else {
        marks[0] |= 1;
        marks[last] |= 2;
    }
    let count = rng.below(3 * states * (letters + 1) + 1);
    let mut transitions = Vec::new();
    for _ in 0..count {
        let letter = if rng.once_in(3) {
            0
        } else {
            rng.below(letters + 1)
        };
        transitions.push((rng.below(states), letter, rng.below(states)));
    }
    Machine::new(letters, &marks, &transitions)
}

/// A word of at most `longest` letters, often with a part repeated.
pub fn random_word(rng: &mut Rng, letters: usize, longest: usize) -> Vec<u8> {
    if letters == 0 {
        return vec![];
    }
    let mut word = Vec::new();
    let target = rng.below(longest + 1);
    while word.len() < target {
        let length = 1 + rng.below(3);
        let part: Vec<u8> = (0..length).map(|_| 1 + rng.below(letters) as u8).collect();
        word.extend(&part);
        if rng.once_in(2) {
            word.extend(&part);
        }
    }
    word.truncate(target);
    word
}

/// How many cases met each refusal, 0 for none, as it is printed.
pub fn tally(counts: &[u64]) -> String {
    let each: Vec<String> = counts
        .iter()
        .enumerate()
        .filter(|(_, &count)| count > 0)
        .map(|(number, count)| format!("{number}: {count}"))
        .collect();
    each.join(", ")
}
