//! Recognition: the answer, the refusal and the whole run slice of each call are compared with the reference. Every run
//! goes through the proved checker and through the reference's own. Each word is asked for without a run too, alone and in
//! a list of all words that were compared on its machine.

use compare::calls::Words;
use compare::calls::{accept_words_record, accepts_record, check_run, recognize, recognize_record};
use compare::many_copies::{long_word, repetitive_word, zone_circle, zones};
use compare::{break_a_rule, filled, filled_bytes, in_threads, random_machine, random_word};
use compare::{record_of, Rng};
use reference::accepts::accepts;
use reference::common::next_word;
use reference::families::small_machines;
use reference::{folder, moves, published, shortest, Machine, Record};
use zagvirk::accepts::{DecidedRecord, WordsAnsweredRecord};
use zagvirk::recognize::{run_length, RecognizedRecord};

/// What was compared.
#[derive(Default)]
struct Counts {
    words: u64,
    lists: u64,
    yes: u64,
    with_copies: u64,
    longer: u64,
    not_first: u64,
    most_entries: usize,
    longest_word: usize,
}

impl Counts {
    /// Adds what was compared elsewhere.
    fn add(&mut self, other: Counts) {
        self.words += other.words;
        self.lists += other.lists;
        self.yes += other.yes;
        self.with_copies += other.with_copies;
        self.longer += other.longer;
        self.not_first += other.not_first;
        self.most_entries = self.most_entries.max(other.most_entries);
        self.longest_word = self.longest_word.max(other.longest_word);
    }

    fn report(&self, name: &str) {
        println!(
            "recognize, {name}: {} words, in {} lists, {} accepted, {} of them with copies; \
             longest accepted word {} letters, longest run {} entries; \
             runs not shortest: {}, not the first of the shortest: {}",
            self.words,
            self.lists,
            self.yes,
            self.with_copies,
            self.longest_word,
            self.most_entries,
            self.longer,
            self.not_first
        );
    }
}

/// A machine ready for many words. After the last of them comes [`Ready::finish`].
struct Ready<'a> {
    machine: &'a Machine,
    record: Record,
    list: Vec<u16>,
    proved: zagvirk::Machine,
    /// The words so far and their answers.
    words: Words,
    answers: Vec<u8>,
}

impl<'a> Ready<'a> {
    fn new(machine: &'a Machine) -> Ready<'a> {
        let (record, list) = machine.record();
        let proved = record_of(&record);
        Ready {
            machine,
            record,
            list,
            proved,
            words: Words::default(),
            answers: Vec::new(),
        }
    }

    fn input(&self, word: &[u8]) -> String {
        format!("{:?}\nword {word:?}", self.machine)
    }

    /// Compares the answer for a word that meets no refusal, with a run slice that has so many elements more than it
    /// needs, and without a run. Returns the answer.
    fn word(&mut self, word: &[u8], more: usize, c: &mut Counts) -> bool {
        let expected = shortest::find_run(self.machine, word);
        let needed = 3 * self.record.states * (word.len() + 1);
        assert_eq!(run_length(&self.proved, word.len()), needed);
        let before = filled(needed + more);
        let mut run = before.clone();
        let found = recognize_record(&self.proved, &self.list, word, &mut run);
        let answer = RecognizedRecord {
            refusal: 0,
            needed: 0,
            accepted: u8::from(expected.is_some()),
            entries: found.entries,
        };
        assert!(
            found == answer,
            "recognize differs\n{}\nreference {expected:?}\nproved {found:?}",
            self.input(word)
        );
        let found_alone = accepts_record(&self.proved, &self.list, word);
        let alone = DecidedRecord {
            refusal: 0,
            accepted: answer.accepted,
        };
        assert!(
            found_alone == alone,
            "accepts differs\n{}\nreference {alone:?}\nproved {found_alone:?}",
            self.input(word)
        );
        self.words.push(word);
        self.answers.push(answer.accepted);
        c.words += 1;
        let Some(first) = expected else {
            assert!(
                found.entries == 0 && run == before,
                "no with a change\n{}",
                self.input(word)
            );
            return false;
        };
        assert!(
            found.entries <= needed,
            "{} entries\n{}",
            found.entries,
            self.input(word)
        );
        let (front, rest) = run.split_at(found.entries);
        assert!(
            moves::accepting(self.machine, word, front),
            "the run does not accept\n{}\nrun {front:?}",
            self.input(word)
        );
        let checked = check_run(&self.proved, &self.list, word, front);
        assert_eq!(checked, Ok(true), "{}\nrun {front:?}", self.input(word));
        assert!(
            *rest == before[found.entries..],
            "the slice changed past the run\n{}",
            self.input(word)
        );
        c.yes += 1;
        c.with_copies += u64::from(front.contains(&reference::BEGIN_EMPTYING));
        c.longer += u64::from(front.len() > first.len());
        c.not_first += u64::from(front.len() == first.len() && front != first);
        c.most_entries = c.most_entries.max(front.len());
        c.longest_word = c.longest_word.max(word.len());
        true
    }

    /// Compares the answers for all words so far in one call.
    fn finish(&mut self, c: &mut Counts) {
        let (words, expected) = (
            std::mem::take(&mut self.words),
            std::mem::take(&mut self.answers),
        );
        let count = expected.len();
        let mut answers = filled_bytes(count + 1);
        let found = accept_words_record(&self.proved, &self.list, &words, &mut answers);
        let answered = WordsAnsweredRecord {
            refusal: 0,
            needed: 0,
            words: count,
        };
        assert!(
            found == answered && answers[..count] == expected,
            "accept_words differs: {found:?}\n{:?}\n{words:?}\nreference {expected:?}\nproved {answers:?}",
            self.machine
        );
        c.lists += 1;
    }

    /// Compares every word of at most `longest` letters.
    fn every_word(&mut self, longest: usize, c: &mut Counts) {
        for length in 0..=longest {
            if length > 0 && self.machine.letters == 0 {
                return;
            }
            let mut word = vec![1; length];
            loop {
                self.word(&word, length % 3, c);
                if !next_word(&mut word, self.machine.letters as u8) {
                    break;
                }
            }
        }
    }
}

impl Drop for Ready<'_> {
    fn drop(&mut self) {
        let finished = self.answers.is_empty();
        assert!(finished || std::thread::panicking(), "not finished");
    }
}

/// A machine and its words, each with the number of elements that its run slice has more than it needs.
type Input = (Machine, Vec<(Vec<u8>, usize)>);

/// Compares the answers for each machine and its words.
fn compare_all(inputs: &[Input]) -> Counts {
    let each = in_threads(inputs, |(machine, words)| {
        let mut counts = Counts::default();
        let mut ready = Ready::new(machine);
        for (word, more) in words {
            ready.word(word, *more, &mut counts);
        }
        ready.finish(&mut counts);
        counts
    });
    let mut counts = Counts::default();
    each.into_iter().for_each(|other| counts.add(other));
    counts
}

/// Compares a call that is refused. Returns the refusal and the length needed.
fn refused(record: &Record, list: &[u16], word: &[u8], length: usize) -> (u8, usize) {
    let mut untouched = filled(length);
    let refusal = published::recognize(record, list, word, &mut untouched).unwrap_err();
    let expected = RecognizedRecord {
        refusal: refusal.number,
        needed: refusal.needed,
        accepted: 0,
        entries: 0,
    };
    let mut run = filled(length);
    let proved = record_of(record);
    let found = recognize_record(&proved, list, word, &mut run);
    assert!(
        found == expected && run == filled(length),
        "recognize differs, run slice of {length} elements, the same after the call: {}\n{record:?}\n\
         list {list:?}\nword {word:?}\nreference {expected:?}\nproved {found:?}",
        run == filled(length)
    );
    let typed = recognize(&proved, list, word, &mut run).unwrap_err();
    assert_eq!(
        (typed.number(), typed.needed()),
        (refusal.number, refusal.needed)
    );
    without_run(record, list, word, refusal.number);
    (refusal.number, refusal.needed)
}

/// Compares the answer without a run, alone and in a list of one word, of a word that recognition refuses: it has the same
/// refusal, unless only the run slice is too short. In a list 9 and 8 are answers.
fn without_run(record: &Record, list: &[u16], word: &[u8], refusal: u8) {
    let (refusal, accepted) = match accepts(record, list, word) {
        Ok(accepted) => {
            assert_eq!(refusal, 17);
            (0, u8::from(accepted))
        }
        Err(other) => {
            assert_eq!(refusal, other.number);
            (refusal, 0)
        }
    };
    let proved = record_of(record);
    let input = || format!("{record:?}\nlist {list:?}\nword {word:?}");
    let found = accepts_record(&proved, list, word);
    assert_eq!(found, DecidedRecord { refusal, accepted }, "{}", input());
    let mut answers = filled_bytes(2);
    let mut expected = answers.clone();
    let broken = refusal == 16;
    if !broken {
        expected[0] = refusal + accepted;
    }
    let answered = WordsAnsweredRecord {
        refusal: if broken { 16 } else { 0 },
        needed: 0,
        words: usize::from(!broken),
    };
    let found = accept_words_record(&proved, list, &Words::of(&[word]), &mut answers);
    assert_eq!((found, answers), (answered, expected), "{}", input());
}

#[test]
fn one_and_two_states() {
    for states in [1, 2] {
        let mut counts = Counts::default();
        let machines = small_machines(states, 0..1 << (2 * states * states));
        for machine in &machines {
            let mut ready = Ready::new(machine);
            ready.every_word(4, &mut counts);
            ready.finish(&mut counts);
        }
        let machines = machines.len();
        counts.report(&format!(
            "all {machines} machines of {states} states over 1 letter, all words to 4 letters"
        ));
    }
}

#[test]
fn random_machines_every_word() {
    let mut rng = Rng::new(20_240_012);
    let mut counts = Counts::default();
    let machines = 24_000;
    for number in 0..machines {
        let letters = if number % 12 == 0 { 3 } else { 2 };
        let machine = random_machine(&mut rng, 5, letters);
        let mut ready = Ready::new(&machine);
        ready.every_word(6, &mut counts);
        // The definition itself on some words.
        for _ in 0..3 {
            let word = random_word(&mut rng, machine.letters, 6);
            let brute = published::find_run(&machine, &word).is_some();
            assert_eq!(ready.word(&word, 0, &mut counts), brute);
        }
        ready.finish(&mut counts);
    }
    counts.report(&format!(
        "{machines} random machines, all words to 6 letters"
    ));
    assert!(counts.with_copies > 10_000);
}

#[test]
fn folders() {
    let mut counts = Counts::default();
    let mut machines = 0;
    for folder in folder::all() {
        let mut ready = Ready::new(&folder.machine);
        for (word, expected) in &folder.words {
            let answer = ready.word(word, 2, &mut counts);
            assert_eq!(answer, *expected, "{} {word:?}", folder.name);
        }
        ready.finish(&mut counts);
        machines += 1;
    }
    counts.report(&format!("{machines} machines of data/machines"));
}

/// A circle of states: one letter leads from the last state to the first, epsilon from each state to the next. So a run
/// has far more entries than the word has letters.
fn circle(states: usize) -> Machine {
    let mut marks = vec![0; states];
    marks[0] |= reference::INITIAL;
    marks[states - 1] |= reference::FINAL;
    let mut transitions = vec![(states - 1, 1, 0)];
    transitions.extend((1..states).map(|state| (state - 1, 0, state)));
    Machine::new(1, &marks, &transitions)
}

/// Two copy zones in turn over one letter, the first of one letter and the second of two. Copies of every length begin
/// at many places and most lead nowhere, so a search that tries them one by one takes long.
fn zones_in_turn() -> Machine {
    let marks = [5, 0, 8, 10, 4, 0, 8, 8, 10];
    let first = [(0, 0, 1), (1, 1, 1), (1, 0, 2), (2, 1, 3), (3, 0, 4)];
    let second = [
        (4, 0, 5),
        (5, 1, 5),
        (5, 0, 6),
        (6, 1, 7),
        (7, 1, 8),
        (8, 0, 0),
    ];
    Machine::new(1, &marks, &[&first[..], &second[..]].concat())
}

#[test]
fn many_copies_tried() {
    let mut counts = Counts::default();
    let machine = zones_in_turn();
    let mut ready = Ready::new(&machine);
    for length in 0..=255 {
        // Six letters for both zones, and two more where the first stands alone at the end.
        let expected = length > 0 && (length % 6 == 0 || length % 6 == 2);
        assert_eq!(
            ready.word(&vec![1; length], length % 3, &mut counts),
            expected
        );
    }
    ready.finish(&mut counts);
    counts.report("two copy zones in turn, one letter");
}

#[test]
fn zone_circles() {
    let mut rng = Rng::new(20_240_019);
    let machines = 2_000;
    let mut inputs = Vec::new();
    for _ in 0..machines {
        let letters = rng.pick(&[1, 2, 3, 20, 40]);
        let machine = zone_circle(&mut rng, letters);
        let lengths = [rng.below(40), rng.below(130), 240 + rng.below(16)];
        let words = lengths.map(|length| {
            let word = repetitive_word(&mut rng, letters, length);
            (word, rng.below(3))
        });
        inputs.push((machine, words.to_vec()));
    }
    let counts = compare_all(&inputs);
    counts.report(&format!(
        "{machines} circles of copy zones, words with many squares to 255 letters"
    ));
    assert!(counts.with_copies > 400 && counts.longest_word > 240);
}

#[test]
fn long_runs() {
    let mut counts = Counts::default();
    for states in [2, 17, 64] {
        let machine = circle(states);
        let mut ready = Ready::new(&machine);
        for length in [0, 1, 15, 16, 63, 64, 255] {
            assert!(ready.word(&vec![1; length], length % 3, &mut counts));
        }
        ready.finish(&mut counts);
    }
    counts.report("circles of 2, 17 and 64 states, one letter");
    assert_eq!(counts.most_entries, 64 * 256);
}

#[test]
fn long_words() {
    let mut rng = Rng::new(20_240_013);
    let machines = 36;
    let mut inputs = Vec::new();
    for number in 0..machines {
        let states = [4, 7, 12, 30, 63, 64][number % 6];
        let letters = 1 + rng.below(4);
        let machine = zones(&mut rng, states, letters);
        let lengths = [rng.below(256), rng.below(120), 254, 255];
        let words = lengths.map(|length| {
            let word = long_word(&mut rng, letters, length);
            (word, rng.below(3))
        });
        inputs.push((machine, words.to_vec()));
    }
    let counts = compare_all(&inputs);
    counts.report(&format!(
        "{machines} machines of zones to 64 states, words to 255 letters"
    ));
    assert!(counts.with_copies > 50 && counts.longest_word == 255);
}

#[test]
fn long_words_random_machines() {
    let mut rng = Rng::new(20_240_014);
    let mut counts = Counts::default();
    let machines = 80;
    for _ in 0..machines {
        let states = 1 + rng.below(64);
        let letters = rng.pick(&[1, 2, 3, 20, 250]);
        let marks: Vec<u8> = (0..states)
            .map(|_| rng.pick(&[0, 0, 4, 8, 8]) | rng.pick(&[0, 0, 1, 2]))
            .collect();
        let mut transitions = Vec::new();
        for _ in 0..rng.pick(&[1, 2, 5]) * states * letters.min(12) {
            let letter = if rng.once_in(6) {
                0
            } else {
                rng.below(letters + 1)
            };
            transitions.push((rng.below(states), letter, rng.below(states)));
        }
        transitions.truncate(4000);
        let machine = Machine::new(letters, &marks, &transitions);
        let mut ready = Ready::new(&machine);
        for longest in [12, 40, 100] {
            let length = rng.below(longest);
            let word = long_word(&mut rng, letters, length);
            ready.word(&word, 1, &mut counts);
        }
        ready.finish(&mut counts);
    }
    counts.report(&format!("{machines} random machines to 64 states"));
}

/// One letter, 64 states, 4,000 transitions, and doubled words repeated: the largest searches.
#[test]
fn largest() {
    let mut counts = Counts::default();
    let mut transitions = Vec::new();
    for number in 0..4000 {
        transitions.push((number % 64, usize::from(number >= 1000), number / 64));
    }
    for marks in [[5, 0, 10, 8], [1, 4, 8, 10], [5, 0, 8, 0]] {
        let all: Vec<u8> = (0..64).map(|state| marks[state % 4]).collect();
        let machine = Machine::new(1, &all, &transitions);
        assert_eq!(machine.transitions.len(), 4000);
        let mut ready = Ready::new(&machine);
        for length in [0, 1, 30, 60] {
            ready.word(&vec![1; length], 0, &mut counts);
        }
        ready.finish(&mut counts);
    }
    // No epsilon moves and no way out: the search goes to the end.
    let mut chain: Vec<(usize, usize, usize)> =
        (0..63).map(|state| (state, 1, state + 1)).collect();
    chain.push((63, 1, 0));
    let marks: Vec<u8> = (0..64).map(|state| [5, 0, 8, 8][state % 4]).collect();
    let machine = Machine::new(1, &marks, &chain);
    let mut ready = Ready::new(&machine);
    ready.word(&[1; 255], 0, &mut counts);
    ready.finish(&mut counts);
    // Words of 255 letters that pass, and the counts of letters at their limit.
    let machine = Machine::new(250, &[3], &[(0, 250, 0)]);
    let mut ready = Ready::new(&machine);
    assert!(ready.word(&[250; 255], 0, &mut counts));
    ready.finish(&mut counts);
    let mut repeated = vec![(0, 0, 1), (1, 0, 2), (2, 0, 0)];
    for letter in 1..3 {
        repeated.extend([(1, letter, 1), (2, letter, 2)]);
    }
    let machine = Machine::new(2, &[5, 0, 10], &repeated);
    let mut ready = Ready::new(&machine);
    for length in [253, 254, 255] {
        assert_eq!(
            ready.word(&vec![1; length], 0, &mut counts),
            length % 2 == 0
        );
        let alternate: Vec<u8> = (0..length).map(|i| 1 + (i % 2) as u8).collect();
        ready.word(&alternate, 0, &mut counts);
        let mut near = [alternate[..127].to_vec(), alternate[..127].to_vec()].concat();
        near.truncate(length);
        ready.word(&near, 0, &mut counts);
        near[200] ^= 3;
        ready.word(&near, 0, &mut counts);
    }
    ready.finish(&mut counts);
    counts.report("the largest machines and words");
}

#[test]
fn refusals() {
    let mut cases = 0;
    let mut gives = |record: &Record, list: &[u16], word: &[u8], length, refusal| {
        assert_eq!(refused(record, list, word, length), refusal);
        cases += 1;
    };
    // Every slice too short, whatever the answer would be.
    for folder in folder::all() {
        let (record, list) = folder.machine.record();
        for (word, _) in folder.words.iter().take(12).chain(folder.words.last()) {
            let needed = 3 * record.states * (word.len() + 1);
            for length in 0..needed {
                gives(&record, &list, word, length, (17, needed));
            }
        }
    }
    let (record, list) = folder::load("table-t").machine.record();
    for word in [&[1, 2, 1, 2], &[1, 2, 2, 1]] {
        for length in 0..45 {
            gives(&record, &list, word, length, (17, 45));
        }
    }
    let (large, large_list) = Machine::new(1, &[3; 64], &[]).record();
    for length in [0, 1, 49_151] {
        gives(&large, &large_list, &[1; 255], length, (17, 49_152));
    }
    // 16, 9, 8, 17.
    let mut broken = record.clone();
    broken.marks[1] = 12;
    for length in [0, 60_000] {
        for word in [&[1; 256][..], &[0; 256], &[3; 1000], &[1; 1_048_577]] {
            gives(&record, &list, word, length, (9, 0));
            gives(&broken, &list, word, length, (16, 0));
            gives(&record, &list[..17], word, length, (16, 0));
        }
        for bad in [0, 3, 255] {
            for at in [0, 100, 254] {
                let mut word = [1; 255];
                word[at] = bad;
                gives(&record, &list, &word, length, (8, 0));
                gives(&broken, &list, &word, length, (16, 0));
            }
            gives(&record, &list, &[bad], length, (8, 0));
        }
    }
    // No letters: every word but the empty one is refused.
    let (none, none_list) = Machine::new(0, &[3], &[]).record();
    for letter in 0..=255 {
        gives(&none, &none_list, &[letter], 100, (8, 0));
    }
    gives(&none, &none_list, &[], 2, (17, 3));
    // Machines that break a rule.
    let mut rng = Rng::new(20_240_015);
    let mut rules = 0;
    for _ in 0..40_000 {
        let machine = random_machine(&mut rng, 6, 3);
        let (record, list) = break_a_rule(&mut rng, &machine);
        let word = random_word(&mut rng, 4, 5);
        if record.machine(&list).is_err() {
            let length = rng.below(200);
            gives(&record, &list, &word, length, (16, 0));
            rules += 1;
        }
    }
    println!("recognize, refusals: {cases} cases, {rules} of them machines that break a rule");
}

/// Rubbish in the list past the count is not looked at.
#[test]
fn rubbish_past_the_count() {
    let mut counts = Counts::default();
    for folder in folder::all() {
        let mut ready = Ready::new(&folder.machine);
        ready.list.extend([0, 0, 0, 65_535, 1, 1]);
        for (word, expected) in folder.words.iter().take(20) {
            assert_eq!(ready.word(word, 1, &mut counts), *expected);
        }
        ready.finish(&mut counts);
    }
    counts.report("rubbish past the count");
}

/// The machine with its states renumbered: state q becomes state `to[q]`.
fn renumbered(machine: &Machine, to: &[usize]) -> Machine {
    let mut marks = vec![0; machine.states()];
    for (state, &mark) in machine.marks.iter().enumerate() {
        marks[to[state]] = mark;
    }
    let transitions: Vec<_> = machine
        .transitions
        .iter()
        .map(|t| (to[t.from], t.letter, to[t.to]))
        .collect();
    Machine::new(machine.letters, &marks, &transitions)
}

/// The traps of document 01, "Where writers slip", each with the answers said here.
#[test]
fn where_writers_slip() {
    let mut counts = Counts::default();
    let mut answers = |machine: &Machine, answers: &[(&[u8], bool)]| {
        let states = machine.states();
        let turned: Vec<usize> = (0..states).rev().collect();
        let shifted: Vec<usize> = (0..states).map(|state| (state + 1) % states).collect();
        for to in [(0..states).collect(), turned, shifted] {
            let other = renumbered(machine, &to);
            let mut ready = Ready::new(&other);
            for (word, expected) in answers {
                let answer = ready.word(word, 1, &mut counts);
                assert_eq!(answer, *expected, "{other:?} {word:?}");
            }
            ready.finish(&mut counts);
        }
    };
    // A normal run does not use a transition between two matching states.
    let machine = Machine::new(1, &[1, 8, 10], &[(0, 1, 1), (1, 1, 2)]);
    answers(
        &machine,
        &[
            (&[], false),
            (&[1], false),
            (&[1, 1], false),
            (&[1, 1, 1], false),
        ],
    );
    let machine = Machine::new(2, &[1, 8, 0, 10], &[(0, 1, 1), (1, 2, 2), (2, 2, 3)]);
    answers(
        &machine,
        &[(&[1, 2, 2], true), (&[1, 2], false), (&[1, 2, 1], false)],
    );
    let machine = Machine::new(1, &[9, 10], &[(0, 0, 1), (0, 1, 1), (1, 1, 1)]);
    answers(&machine, &[(&[], false), (&[1], false), (&[1, 1], false)]);
    // It does not leave a buffering state, and buffering mode does not enter one.
    let machine = Machine::new(1, &[5, 2], &[(0, 0, 1), (0, 1, 1)]);
    answers(&machine, &[(&[], false), (&[1], false)]);
    let machine = Machine::new(1, &[1, 4, 2], &[(0, 1, 1), (1, 1, 2), (1, 0, 2)]);
    answers(&machine, &[(&[1], false), (&[1, 1], false)]);
    let machine = Machine::new(1, &[5, 4, 10], &[(0, 1, 1), (1, 0, 2), (2, 1, 2)]);
    answers(&machine, &[(&[1, 1], false), (&[], false)]);
    let machine = Machine::new(1, &[5, 10], &[(0, 1, 1), (0, 1, 0), (1, 1, 1)]);
    answers(&machine, &[(&[1, 1], true), (&[1, 1, 1, 1], false)]);
    // A buffering state can be entered in normal mode, and a final one ends a run there.
    let machine = Machine::new(1, &[7], &[(0, 1, 0)]);
    answers(&machine, &[(&[], true), (&[1], false)]);
    let machine = Machine::new(1, &[1, 6], &[(0, 1, 1), (1, 1, 1)]);
    answers(&machine, &[(&[1], true), (&[1, 1], false), (&[], false)]);
    // The halves are equal, but the matching path must read them too.
    let machine = Machine::new(2, &[5, 10], &[(0, 1, 1), (0, 2, 1)]);
    answers(&machine, &[(&[1, 1], false), (&[2, 2], false)]);
    let machine = Machine::new(2, &[5, 10], &[(0, 1, 1), (0, 2, 1), (1, 2, 1)]);
    answers(
        &machine,
        &[(&[1, 1], false), (&[2, 2], true), (&[1, 2], false)],
    );
    let machine = Machine::new(
        2,
        &[5, 0, 8, 8, 10],
        &[(0, 1, 1), (1, 2, 2), (2, 1, 3), (3, 1, 4), (3, 2, 4)],
    );
    answers(
        &machine,
        &[
            (&[1, 2, 1, 2], true),
            (&[1, 2, 1, 1], false),
            (&[1, 2], false),
        ],
    );
    // The matching path may have epsilon moves before, between and after the letters.
    let machine = Machine::new(
        2,
        &[5, 8, 8, 8, 10],
        &[(0, 1, 1), (1, 0, 2), (2, 1, 3), (3, 0, 4), (4, 0, 1)],
    );
    answers(
        &machine,
        &[(&[1, 1], true), (&[1], false), (&[1, 1, 1], false)],
    );
    // Buffering mode passes through matching states before it begins to empty.
    let machine = Machine::new(
        2,
        &[5, 8, 0, 10],
        &[(0, 1, 1), (1, 2, 2), (2, 1, 3), (3, 1, 3), (3, 2, 3)],
    );
    answers(
        &machine,
        &[
            (&[1, 2, 1, 1, 2, 1], true),
            (&[1, 2, 1], false),
            (&[1, 1], false),
        ],
    );
    // Several rounds of empty copies at one position.
    for rounds in 1..=32 {
        let marks: Vec<u8> = (0..2 * rounds)
            .map(|state| {
                let role = if state % 2 == 0 { 4 } else { 8 };
                role | u8::from(state == 0) | if state == 2 * rounds - 1 { 2 } else { 0 }
            })
            .collect();
        let path: Vec<_> = (1..2 * rounds).map(|state| (state - 1, 0, state)).collect();
        let machine = Machine::new(1, &marks, &path);
        answers(&machine, &[(&[], true), (&[1], false)]);
        // The same behind a letter, and behind a copy that has letters.
        let mut behind = path.clone();
        behind.push((0, 1, 1));
        behind.push((1, 1, 1));
        let machine = Machine::new(1, &marks, &behind);
        answers(&machine, &[(&[], true), (&[1, 1], true), (&[1], false)]);
    }
    // Empty copies and epsilon moves in turn, with a way that is no way out.
    let machine = Machine::new(
        1,
        &[1, 4, 8, 0, 4, 8, 0, 2],
        &[
            (0, 1, 1),
            (1, 0, 2),
            (2, 0, 3),
            (3, 0, 4),
            (4, 0, 5),
            (5, 0, 6),
            (6, 1, 7),
            (6, 0, 1),
        ],
    );
    answers(
        &machine,
        &[(&[1, 1], true), (&[1], false), (&[1, 1, 1], false)],
    );
    // The buffer is read from its first letter.
    let table_t = folder::load("table-t").machine;
    answers(
        &table_t,
        &[
            (&[], true),
            (&[1, 2, 1, 2], true),
            (&[1, 2, 2, 1], false),
            (&[1, 1, 2, 1, 1, 2], true),
            (&[1, 1, 2, 2, 1, 1], false),
            (&[1], false),
            (&[1, 2, 2], false),
        ],
    );
    // An epsilon cycle in each mode.
    let machine = Machine::new(
        1,
        &[1, 0, 4, 0, 0, 8, 8, 2],
        &[
            (0, 0, 1),
            (1, 0, 0),
            (1, 0, 2),
            (2, 0, 3),
            (3, 0, 4),
            (4, 0, 3),
            (3, 1, 4),
            (4, 0, 5),
            (5, 0, 6),
            (6, 0, 5),
            (5, 1, 6),
            (6, 0, 7),
        ],
    );
    answers(
        &machine,
        &[
            (&[], true),
            (&[1, 1], true),
            (&[1, 1, 1, 1], true),
            (&[1], false),
            (&[1, 1, 1], false),
        ],
    );
    counts.report("where writers slip");
}

#[test]
fn c_program() {
    let printed = compare::c::program("recognize", env!("CARGO_TARGET_TMPDIR"));
    assert_eq!(printed, "words are recognized right from C\n");
    print!("{printed}");
}
