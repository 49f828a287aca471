//! The states that runs reach: the whole result and the whole slice of each call are compared with the reference, which
//! finds all configurations that can be reached. The ground that the wrapper gives for a word that is not accepted is
//! tested claim by claim on these configurations and on the transitions.

use compare::calls::{accepts, reach, reach_into, reach_record};
use compare::many_copies::{long_word, repetitive_word, zone_circle, zones};
use compare::{break_a_rule, filled_numbers, in_threads, random_machine, random_word, record_of};
use compare::{tally, Rng};
use reference::common::next_word;
use reference::families::{few_transitions, small_machines};
use reference::moves::{self, BUFFERING_MODE, EMPTYING_MODE, NORMAL_MODE};
use reference::reach as by_reference;
use reference::{folder, Config, Machine, Record, FINAL, INITIAL};
use std::collections::HashSet;
use zagvirk::reach::{sets_needed, Barred, Ground, Reach, ReachRecord, Stuck, Unfinished};
use zagvirk::{Mode, Refusal};

const MODES: [Mode; 3] = [Mode::Normal, Mode::Buffering, Mode::Emptying];

/// What was compared.
#[derive(Default)]
struct Counts {
    words: u64,
    configurations: u64,
    accepted: u64,
    /// Words of which no run reads all letters.
    cut_short: u64,
    no_start: u64,
    /// How often each list of states of a ground is not empty: normal, buffering and emptying without and forbidden, the
    /// two of other stored letters; then the three at the word's end.
    claims: [u64; 11],
    longest: usize,
}

impl Counts {
    /// Adds what was compared elsewhere.
    fn add(&mut self, other: Counts) {
        self.words += other.words;
        self.configurations += other.configurations;
        self.accepted += other.accepted;
        self.cut_short += other.cut_short;
        self.no_start += other.no_start;
        for (sum, more) in self.claims.iter_mut().zip(other.claims) {
            *sum += more;
        }
        self.longest = self.longest.max(other.longest);
    }

    fn report(&self, name: &str) {
        println!(
            "reach, {name}: {} words of up to {} letters, {} configurations; {} accepted, {} of which no run reads all, \
             {} without a start; claims of grounds {:?}",
            self.words,
            self.longest,
            self.configurations,
            self.accepted,
            self.cut_short,
            self.no_start,
            self.claims
        );
    }
}

/// Compares one word, in a slice with so many elements more than are needed: the calls, the theorems on the sets, and the
/// view with its ground.
fn compare_word(
    (record, list): (&Record, &[u16]),
    machine: &Machine,
    word: &[u8],
    more: usize,
    counts: &mut Counts,
) {
    let reached = by_reference::configurations(machine, word);
    let sets = by_reference::sets(word, &reached);
    let needed = 3 * (word.len() + 1);
    let mut expected = filled_numbers(needed + more);
    expected[..needed].copy_from_slice(&sets);
    let proved = record_of(record);
    let mut found = filled_numbers(needed + more);
    let result = reach_record(&proved, list, word, &mut found);
    let success = ReachRecord {
        refusal: 0,
        needed: 0,
        sets: needed,
    };
    let different = (0..needed + more).find(|&i| found[i] != expected[i]);
    assert!(
        result == success && different.is_none(),
        "reach differs from element {different:?} on\n{machine:?}\nword {word:?}\nreference {expected:?}\n\
         proved {result:?} {found:?}"
    );
    let mut typed = filled_numbers(needed + more);
    assert_eq!(reach_into(&proved, list, word, &mut typed), Ok(needed));
    assert!(typed == expected);

    // The machine accepts exactly if the last set of normal mode has a final state.
    let last = found[needed - 3];
    let ends = (0..machine.states()).any(|q| last >> q & 1 == 1 && machine.has(q, FINAL));
    let answer = accepts(&proved, list, word);
    assert_eq!(answer, Ok(ends), "{machine:?}\nword {word:?}");
    // Empty sets stay empty.
    let empty = |position: usize| found[3 * position..3 * position + 3] == [0; 3];
    let first_empty = (0..=word.len()).find(|&position| empty(position));
    let first_empty = first_empty.unwrap_or(word.len() + 1);
    assert!((first_empty..=word.len()).all(empty));

    let view = reach(&proved, list, word).expect("no refusal");
    same_view(&view, &found, machine, word.len());
    assert_eq!(view.is_accepted(), ends);
    assert_eq!(view.last_position(), first_empty.checked_sub(1));
    let ground = view.ground();
    assert_eq!(ground.is_none(), ends);
    counts.words += 1;
    counts.configurations += reached.len() as u64;
    counts.accepted += u64::from(ends);
    counts.cut_short += u64::from(first_empty <= word.len());
    counts.longest = counts.longest.max(word.len());
    if let Some(ground) = ground {
        if let Err(wrong) = check_ground(&ground, machine, word, &reached, counts) {
            panic!("{wrong} is wrong in {ground:?}\n{machine:?}\nword {word:?}\nsets {found:?}");
        }
    }
}

/// Compares the view with the sets.
fn same_view(view: &Reach, sets: &[u64], machine: &Machine, letters: usize) {
    assert_eq!(view.letters(), letters);
    assert!(view.positions().eq(0..=letters));
    for position in 0..=letters {
        for mode in MODES {
            let set = sets[3 * position + mode as usize];
            let states = (0..machine.states()).filter(|state| set >> state & 1 == 1);
            assert!(view.states(position, mode).eq(states));
        }
        let empty = sets[3 * position..3 * position + 3] == [0; 3];
        assert_eq!(view.is_empty_at(position), empty);
    }
}

/// The states of the configurations, rising.
fn states<'a>(configs: impl Iterator<Item = &'a Config>) -> Vec<usize> {
    let mut states: Vec<usize> = configs.map(|config| config.state).collect();
    states.sort();
    states.dedup();
    states
}

/// The lists as one, rising.
fn joined(lists: &[&[usize]]) -> Vec<usize> {
    let mut states = lists.concat();
    states.sort();
    states
}

/// That it holds, or the name of the claim that does not.
fn claim(holds: bool, name: &'static str) -> Result<(), &'static str> {
    holds.then_some(()).ok_or(name)
}

/// The lists of states of a ground short of the word's end.
fn lists_of(stuck: &Stuck) -> [&[usize]; 8] {
    [
        &stuck.normal.without,
        &stuck.normal.forbidden,
        &stuck.buffering.without,
        &stuck.buffering.forbidden,
        &stuck.emptying.without,
        &stuck.emptying.forbidden,
        &stuck.other,
        &stuck.other_or_none,
    ]
}

/// Tests each claim of the ground on the configurations that are reached, and that the sentence has each claim. Counts
/// the claims.
fn check_ground(
    ground: &Ground,
    machine: &Machine,
    word: &[u8],
    reached: &HashSet<Config>,
    counts: &mut Counts,
) -> Result<(), &'static str> {
    let last = reached.iter().map(|config| config.position).max();
    let (first, lists) = match ground {
        Ground::NoStart => {
            counts.no_start += 1;
            let initial = (0..machine.states()).any(|state| machine.has(state, INITIAL));
            return claim(!initial && last.is_none(), "no start");
        }
        Ground::Stuck(stuck) => {
            claim(last == Some(stuck.read), "the last position")?;
            claim(
                word.get(stuck.read) == Some(&stuck.letter),
                "the next letter",
            )?;
            check_stuck(stuck, machine, word, reached)?;
            (0, lists_of(stuck).to_vec())
        }
        Ground::Unfinished(unfinished) => {
            claim(last == Some(word.len()), "the word's end")?;
            check_unfinished(unfinished, machine, word, reached)?;
            let Unfinished {
                normal,
                buffering,
                emptying,
                ..
            } = unfinished;
            (8, vec![&normal[..], buffering, emptying])
        }
        _ => return Err("a ground that the tests do not know"),
    };
    for (count, list) in counts.claims[first..].iter_mut().zip(&lists) {
        *count += u64::from(!list.is_empty());
    }
    let sentence = ground.to_string();
    let (_, said) = sentence.split_once(": ").ok_or("the sentence")?;
    let mut parts = said.split("; ");
    for list in lists.iter().filter(|list| !list.is_empty()) {
        let numbers: Vec<String> = list.iter().map(usize::to_string).collect();
        let states = match list.len() {
            1 => format!("state {}", numbers[0]),
            _ => format!("states {}", numbers.join(", ")),
        };
        let part = parts.next().ok_or("the length of the sentence")?;
        claim(part.contains(&states), "the states of the sentence")?;
    }
    claim(parts.next().is_none(), "the end of the sentence")
}

/// The claims of a ground short of the word's end.
fn check_stuck(
    stuck: &Stuck,
    machine: &Machine,
    word: &[u8],
    reached: &HashSet<Config>,
) -> Result<(), &'static str> {
    let at = |mode: u8| {
        reached
            .iter()
            .filter(move |config| config.position == stuck.read && config.mode == mode)
    };
    // The transitions by the letter that leave a state.
    let leaving = |state: usize| {
        let numbers = 0..machine.transitions.len();
        numbers.filter(move |&number| {
            let transition = machine.transitions[number];
            transition.from == state && transition.letter == usize::from(stuck.letter)
        })
    };
    let barred = |barred: &Barred, mode: u8| {
        claim(
            barred.without.iter().all(|&q| leaving(q).next().is_none()),
            "no transition",
        )?;
        for &state in &barred.forbidden {
            claim(leaving(state).next().is_some(), "a transition")?;
            // The letter is next in the word and, in emptying mode, in the buffer: all but the mode allows to read it.
            let ready = Config {
                position: 1,
                state,
                mode,
                start: usize::from(mode != EMPTYING_MODE),
                end: 1,
            };
            let step = |number| moves::step(machine, &[stuck.letter; 2], ready, number as u16);
            claim(
                leaving(state).all(|number| step(number).is_none()),
                "transitions that the mode forbids",
            )?;
        }
        Ok(())
    };
    barred(&stuck.normal, NORMAL_MODE)?;
    barred(&stuck.buffering, BUFFERING_MODE)?;
    barred(&stuck.emptying, EMPTYING_MODE)?;
    let both = |barred: &Barred| joined(&[&barred.without, &barred.forbidden]);
    claim(
        both(&stuck.normal) == states(at(NORMAL_MODE)),
        "the states in normal mode",
    )?;
    claim(
        both(&stuck.buffering) == states(at(BUFFERING_MODE)),
        "the states in buffering mode",
    )?;
    let emptying = [
        &both(&stuck.emptying)[..],
        &stuck.other,
        &stuck.other_or_none,
    ];
    claim(
        joined(&emptying) == states(at(EMPTYING_MODE)),
        "the states in emptying mode",
    )?;
    // Where another letter is stored, that alone is in the way: a transition by the letter is there.
    for &state in stuck.other.iter().chain(&stuck.other_or_none) {
        let matched = leaving(state).any(|number| {
            let transition = machine.transitions[number];
            machine.between_matching(transition)
        });
        claim(matched, "a transition that matches")?;
    }
    for config in at(EMPTYING_MODE) {
        let next = word[config.start..config.end].first();
        if stuck.other.contains(&config.state) {
            claim(
                next.is_some_and(|&next| next != stuck.letter),
                "another letter",
            )?;
        }
        if stuck.other_or_none.contains(&config.state) {
            claim(next != Some(&stuck.letter), "another letter or none")?;
        }
    }
    claim(
        lists_of(stuck).iter().all(|list| list.is_sorted()),
        "the order",
    )
}

/// The claims of a ground at the word's end.
fn check_unfinished(
    unfinished: &Unfinished,
    machine: &Machine,
    word: &[u8],
    reached: &HashSet<Config>,
) -> Result<(), &'static str> {
    let at = |mode: u8| {
        reached
            .iter()
            .filter(move |config| config.position == word.len() && config.mode == mode)
    };
    let Unfinished {
        normal,
        buffering,
        emptying,
        ..
    } = unfinished;
    claim(
        *normal == states(at(NORMAL_MODE)) && normal.iter().all(|&q| !machine.has(q, FINAL)),
        "the ends that are not final",
    )?;
    claim(
        *buffering == states(at(BUFFERING_MODE)),
        "the states of storing",
    )?;
    let left = at(EMPTYING_MODE).filter(|config| !normal.contains(&config.state));
    claim(*emptying == states(left), "the states of matching")?;
    let all_left = at(EMPTYING_MODE)
        .filter(|config| emptying.contains(&config.state))
        .all(|config| config.start < config.end);
    claim(all_left, "letters that are left")
}

/// Compares all words up to a length on the machine.
fn every_word(machine: &Machine, longest: usize) -> Counts {
    let (record, list) = machine.record();
    let mut counts = Counts::default();
    for length in 0..=longest {
        let mut word = vec![1; length];
        loop {
            compare_word((&record, &list), machine, &word, length % 3, &mut counts);
            if !next_word(&mut word, machine.letters as u8) {
                break;
            }
        }
    }
    counts
}

#[test]
fn small() {
    for (name, machines, longest) in [
        ("one state, one letter", small_machines(1, 0..4), 8),
        ("two states, one letter", small_machines(2, 0..256), 4),
        ("one state, two letters", few_transitions(1, 2, 3), 5),
        (
            "two states, two letters, at most 3 transitions",
            few_transitions(2, 2, 3),
            3,
        ),
    ] {
        let mut counts = Counts::default();
        for more in in_threads(&machines, |machine| every_word(machine, longest)) {
            counts.add(more);
        }
        counts.report(&format!("{name}, all {} machines", machines.len()));
    }
}

#[test]
fn random() {
    let numbers: Vec<u64> = (0..40).collect();
    let found = in_threads(&numbers, |number| {
        let mut rng = Rng::new(20_240_071 + 1000 * number);
        let mut counts = Counts::default();
        for _ in 0..5_500 {
            let letters = rng.pick(&[1, 2, 2, 3]);
            let machine = random_machine(&mut rng, 5, letters);
            let (record, mut list) = machine.record();
            list.resize(list.len() + rng.below(3), 65_535);
            let longest = rng.pick(&[3, 6, 12]);
            let word = random_word(&mut rng, machine.letters, longest);
            let more = rng.below(4);
            compare_word((&record, &list), &machine, &word, more, &mut counts);
        }
        counts
    });
    let mut counts = Counts::default();
    found.into_iter().for_each(|more| counts.add(more));
    counts.report("random machines, one word each");
    assert!(counts.words >= 200_000);
    assert!(counts.accepted > 10_000 && counts.cut_short > 10_000);
    for (number, &count) in counts.claims.iter().enumerate() {
        assert!(count > 500, "list {number} of a ground is rare: {count}");
    }
}

/// No state is initial, or all are.
#[test]
fn starts() {
    let mut rng = Rng::new(20_240_072);
    let mut counts = Counts::default();
    for _ in 0..2_000 {
        let mut machine = random_machine(&mut rng, 4, 2);
        let all = rng.once_in(2);
        for mark in &mut machine.marks {
            *mark = *mark & !INITIAL | u8::from(all);
        }
        let (record, list) = machine.record();
        let word = random_word(&mut rng, machine.letters, 6);
        compare_word((&record, &list), &machine, &word, 1, &mut counts);
    }
    counts.report("all states initial or none");
    assert!(counts.no_start > 500);
}

/// Many states and letters.
#[test]
fn large_machines() {
    let mut rng = Rng::new(20_240_073);
    let mut counts = Counts::default();
    for _ in 0..400 {
        let states = 33 + rng.below(32);
        let letters = rng.pick(&[1, 2, 250]);
        let marks: Vec<u8> = (0..states)
            .map(|_| rng.pick(&[0, 0, 4, 8, 8]) | rng.pick(&[0, 0, 0, 1, 2]))
            .collect();
        let transitions: Vec<_> = (0..rng.pick(&[100, 300, 1000]))
            .map(|_| (rng.below(states), rng.below(letters + 1), rng.below(states)))
            .collect();
        let machine = Machine::new(letters, &marks, &transitions);
        let (record, list) = machine.record();
        let word = random_word(&mut rng, letters.min(2), 8);
        compare_word((&record, &list), &machine, &word, 2, &mut counts);
    }
    // The most states, letters and transitions.
    let marks: Vec<u8> = (0..64).map(|state| [5, 0, 10, 8][state % 4]).collect();
    let transitions: Vec<_> = (0..4000)
        .map(|number| {
            (
                number / 63,
                4 * (number % 63),
                (number / 63 + number % 63) % 64,
            )
        })
        .collect();
    let machine = Machine::new(250, &marks, &transitions);
    let (record, list) = machine.record();
    for word in [&[][..], &[4, 8, 4, 8], &[248, 4, 248, 4, 12], &[250]] {
        compare_word((&record, &list), &machine, word, 2, &mut counts);
    }
    // A chain through all 64 states.
    let chain: Vec<_> = (0..63).map(|state| (state, 1, state + 1)).collect();
    let mut marks = vec![0; 64];
    marks[0] = 1;
    let machine = Machine::new(1, &marks, &chain);
    let (record, list) = machine.record();
    for length in [0, 1, 31, 32, 33, 62, 63, 64, 255] {
        compare_word((&record, &list), &machine, &vec![1; length], 1, &mut counts);
    }
    counts.report("large machines");
}

/// Doubled words over letters 1 and 2.
fn table_t() -> Machine {
    folder::load("table-t").machine
}

/// Words of up to 255 letters.
#[test]
fn long_words() {
    let mut rng = Rng::new(20_240_074);
    let mut cases: Vec<(Machine, Vec<u8>)> = Vec::new();
    for length in [100, 253, 254, 255] {
        let half: Vec<u8> = (0..length / 2).map(|_| 1 + rng.below(2) as u8).collect();
        let mut square = [half.clone(), half].concat();
        square.resize(length, 1);
        cases.push((table_t(), square));
        cases.push((table_t(), vec![1; length]));
        for letters in [1, 2] {
            for _ in 0..6 {
                cases.push((table_t(), long_word(&mut rng, letters, length)));
            }
        }
    }
    for _ in 0..150 {
        let letters = rng.pick(&[1, 2, 3]);
        let states = rng.pick(&[5, 9, 14]);
        let machine = zones(&mut rng, states, letters);
        let length = rng.pick(&[30, 60, 120]);
        cases.push((machine, long_word(&mut rng, letters, length)));
    }
    for _ in 0..150 {
        let letters = rng.pick(&[1, 2, 3, 20]);
        let machine = zone_circle(&mut rng, letters);
        let length = rng.pick(&[20, 60, 100]);
        cases.push((machine, repetitive_word(&mut rng, letters, length)));
    }
    // Many letters: copies are rare, so that long words have few configurations.
    for _ in 0..40 {
        let machine = zone_circle(&mut rng, 20);
        let length = rng.pick(&[200, 254, 255]);
        cases.push((machine, random_word(&mut rng, 20, length)));
    }
    let found = in_threads(&cases, |(machine, word)| {
        let (record, list) = machine.record();
        let mut counts = Counts::default();
        compare_word((&record, &list), machine, word, 3, &mut counts);
        counts
    });
    let mut counts = Counts::default();
    found.into_iter().for_each(|more| counts.add(more));
    counts.report("long words");
    assert_eq!(counts.longest, 255);
}

/// The machines of the papers with their words.
#[test]
fn machines_of_the_papers() {
    let mut counts = Counts::default();
    for folder in folder::all() {
        let (record, list) = folder.machine.record();
        for (word, expected) in &folder.words {
            compare_word((&record, &list), &folder.machine, word, 1, &mut counts);
            let view = by_reference::configurations(&folder.machine, word);
            let end = |config: &Config| {
                config.position == word.len()
                    && config.mode == NORMAL_MODE
                    && folder.machine.has(config.state, FINAL)
            };
            assert_eq!(view.iter().any(end), *expected, "{} {word:?}", folder.name);
        }
    }
    counts.report("data/machines");
}

/// The three sets of a position as lists of states.
type At<'a> = [&'a [usize]; 3];

/// Asserts what is reached at each position, found by hand, and compares the word. Returns the ground as a sentence, or
/// nothing if the word is accepted.
fn by_hand(machine: &Machine, word: &[u8], positions: &[At]) -> Option<String> {
    let (record, list) = machine.record();
    compare_word((&record, &list), machine, word, 2, &mut Counts::default());
    let proved = record_of(&record);
    let view = reach(&proved, &list, word).expect("no refusal");
    assert_eq!(positions.len(), word.len() + 1);
    for (position, at) in positions.iter().enumerate() {
        for (mode, expected) in MODES.into_iter().zip(at) {
            let states: Vec<usize> = view.states(position, mode).collect();
            assert_eq!(states, *expected, "position {position}, {mode:?}");
        }
    }
    view.ground().map(|ground| ground.to_string())
}

/// A normal run may not take a transition between two matching states.
#[test]
fn trap_normal_between_matching_states() {
    let machine = Machine::new(2, &[1, 8, 10], &[(0, 1, 1), (1, 1, 2)]);
    let none: At = [&[], &[], &[]];
    let ground = by_hand(
        &machine,
        &[1, 1],
        &[[&[0], &[], &[]], [&[1], &[], &[]], none],
    );
    assert_eq!(
        ground.as_deref(),
        Some(
            "no run reads past letter 1 of the word, and the next one is 1: \
             in normal mode no transition by 1 out of state 1 may be taken"
        )
    );
    // The same by epsilon, and while storing.
    let machine = Machine::new(1, &[1, 8, 10], &[(0, 1, 1), (1, 0, 2)]);
    let ground = by_hand(&machine, &[1], &[[&[0], &[], &[]], [&[1], &[], &[]]]);
    assert_eq!(
        ground.as_deref(),
        Some("the whole word is read, but no run accepts: some end in state 1, which is not final")
    );
    let machine = Machine::new(1, &[5, 8, 8], &[(0, 1, 1), (1, 1, 2)]);
    by_hand(
        &machine,
        &[1, 1],
        &[[&[0], &[0], &[]], [&[], &[1], &[1]], [&[2], &[], &[2]]],
    );
}

/// A buffering state is not left in normal mode.
#[test]
fn trap_buffering_state_left_in_normal_mode() {
    let machine = Machine::new(1, &[5, 2], &[(0, 1, 1)]);
    let ground = by_hand(&machine, &[1], &[[&[0], &[0], &[]], [&[], &[1], &[]]]);
    assert_eq!(
        ground.as_deref(),
        Some("the whole word is read, but no run accepts: some are still storing in state 1")
    );
    // By epsilon, so that storing goes on at the same position.
    let machine = Machine::new(1, &[5, 2], &[(0, 0, 1)]);
    by_hand(&machine, &[], &[[&[0], &[0, 1], &[]]]);
    // And storing does not enter a buffering state.
    let machine = Machine::new(1, &[5, 6], &[(0, 0, 1), (0, 1, 1)]);
    let ground = by_hand(&machine, &[1], &[[&[0], &[0], &[]], [&[], &[], &[]]]);
    assert_eq!(
        ground.as_deref(),
        Some(
            "no run reads the first letter of the word, 1: in normal mode no transition by 1 out of state 0 may be taken; \
             while storing no transition by 1 out of state 0 may be taken"
        )
    );
}

/// The letters of the second half are read by transitions between matching states too: here there is none by 2.
#[test]
fn trap_matching_path_reads_the_letters() {
    let machine = Machine::new(
        2,
        &[5, 0, 10],
        &[(0, 0, 1), (1, 0, 2), (1, 1, 1), (1, 2, 1), (2, 1, 2)],
    );
    let later: At = [&[], &[1, 2], &[2]];
    let ground = by_hand(
        &machine,
        &[1, 2, 1, 2],
        &[[&[0, 2], &[0, 1, 2], &[2]], later, later, later, later],
    );
    assert_eq!(
        ground.as_deref(),
        Some(
            "the whole word is read, but no run accepts: some are still storing in states 1, 2; \
             some have letters left to match in state 2"
        )
    );
    // Storing ends after two letters, so that nothing else is reached behind them.
    let machine = Machine::new(
        2,
        &[5, 0, 8, 10],
        &[(0, 1, 1), (1, 2, 2), (2, 1, 3), (3, 1, 3)],
    );
    let ground = by_hand(
        &machine,
        &[1, 2, 1, 2],
        &[
            [&[0], &[0], &[]],
            [&[], &[1], &[]],
            [&[], &[2], &[2]],
            [&[], &[], &[3]],
            [&[], &[], &[]],
        ],
    );
    assert_eq!(
        ground.as_deref(),
        Some(
            "no run reads past letter 3 of the word, and the next one is 2: \
             while matching no transition by 2 leaves state 3"
        )
    );
}

/// Several rounds of empty copies at one position: at the start, in the middle and at the end of a word.
#[test]
fn trap_rounds_of_empty_copies() {
    let machine = Machine::new(
        1,
        &[5, 8, 4, 8, 4, 10, 0],
        &[
            (0, 0, 1),
            (1, 0, 2),
            (2, 0, 3),
            (3, 0, 4),
            (4, 0, 5),
            (5, 1, 6),
            (6, 0, 0),
        ],
    );
    let (all, matching) = (&[0, 1, 2, 3, 4, 5][..], &[1, 3, 5][..]);
    let more = &[0, 1, 2, 3, 4, 5, 6][..];
    // Storing goes on from state 5 by 1 to 6, but not from there into a buffering state.
    let storing = &[0, 1, 2, 3, 4, 5, 6][..];
    let later: At = [more, storing, matching];
    let ground = by_hand(&machine, &[1, 1], &[[all, all, matching], later, later]);
    assert_eq!(ground, None);
}

/// The buffer is read from its first letter: 1 2 is stored, then 1 is matched first.
#[test]
fn trap_buffer_from_its_first_letter() {
    let machine = Machine::new(
        2,
        &[5, 0, 8, 8, 8],
        &[
            (0, 1, 1),
            (1, 2, 2),
            (2, 1, 3),
            (2, 2, 4),
            (3, 2, 4),
            (4, 1, 3),
        ],
    );
    let begin: [At; 3] = [[&[0], &[0], &[]], [&[], &[1], &[]], [&[], &[2], &[2]]];
    let [first, second, third] = begin;
    let (one, two): (At, At) = ([&[], &[], &[3]], [&[4], &[], &[4]]);
    let ground = by_hand(&machine, &[1, 2, 1, 2], &[first, second, third, one, two]);
    assert_eq!(
        ground.as_deref(),
        Some("the whole word is read, but no run accepts: some end in state 4, which is not final")
    );
    let none: At = [&[], &[], &[]];
    let ground = by_hand(&machine, &[1, 2, 2, 1], &[first, second, third, none, none]);
    assert_eq!(
        ground.as_deref(),
        Some(
            "no run reads past letter 2 of the word, and the next one is 2: \
             while storing no transition by 2 out of state 2 may be taken; \
             while matching the next stored letter in state 2 is not 2"
        )
    );
}

/// What the grounds say that no other test here quotes.
#[test]
fn sentences() {
    // No state is initial.
    let machine = Machine::new(1, &[2], &[]);
    let ground = by_hand(&machine, &[1], &[[&[], &[], &[]], [&[], &[], &[]]]);
    assert_eq!(
        ground.as_deref(),
        Some("no run starts: no state is initial")
    );
    // Two states, and the word is empty.
    let machine = Machine::new(1, &[1, 1], &[]);
    let ground = by_hand(&machine, &[], &[[&[0, 1], &[], &[]]]);
    assert_eq!(
        ground.as_deref(),
        Some("the whole word is read, but no run accepts: some end in states 0, 1, which are not final")
    );
    // A letter without a transition.
    let machine = Machine::new(2, &[1, 3], &[(0, 1, 0)]);
    let ground = by_hand(&machine, &[2], &[[&[0, 1], &[], &[]], [&[], &[], &[]]]);
    assert_eq!(
        ground.as_deref(),
        Some("no run reads the first letter of the word, 2: in normal mode no transition by 2 leaves states 0, 1")
    );
    // All that is stored is matched, so that no letter is left; out of the state in normal mode nothing leads.
    let machine = Machine::new(1, &[5, 8], &[(0, 1, 1), (1, 1, 1)]);
    let ground = by_hand(
        &machine,
        &[1, 1, 1],
        &[
            [&[0], &[0], &[]],
            [&[], &[1], &[1]],
            [&[1], &[], &[1]],
            [&[], &[], &[]],
        ],
    );
    assert_eq!(
        ground.as_deref(),
        Some(
            "no run reads past letter 2 of the word, and the next one is 1: \
             in normal mode no transition by 1 out of state 1 may be taken; \
             while matching the next stored letter in state 1 is not 1, or none is left"
        )
    );
    // While matching a transition leads to a state that is not matching.
    let machine = Machine::new(1, &[5, 8, 0], &[(0, 1, 1), (1, 1, 2)]);
    let ground = by_hand(
        &machine,
        &[1, 1, 1],
        &[
            [&[0], &[0], &[]],
            [&[], &[1], &[1]],
            [&[], &[2], &[]],
            [&[], &[], &[]],
        ],
    );
    assert_eq!(
        ground.as_deref(),
        Some(
            "no run reads past letter 2 of the word, and the next one is 1: \
             while storing no transition by 1 leaves state 2"
        )
    );
    let machine = Machine::new(2, &[5, 8, 4], &[(0, 1, 1), (1, 2, 2)]);
    let ground = by_hand(
        &machine,
        &[1, 2],
        &[[&[0], &[0], &[]], [&[], &[1], &[1]], [&[], &[], &[]]],
    );
    assert_eq!(
        ground.as_deref(),
        Some(
            "no run reads past letter 1 of the word, and the next one is 2: \
             while storing no transition by 2 out of state 1 may be taken; \
             while matching no transition by 2 out of state 1 may be taken"
        )
    );
}

/// Table T and 1 2 2 1, as the README shows it.
#[test]
fn table_t_on_1_2_2_1() {
    let later: At = [&[], &[1, 2], &[2]];
    let ground = by_hand(
        &table_t(),
        &[1, 2, 2, 1],
        &[[&[0, 2], &[0, 1, 2], &[2]], later, later, later, later],
    );
    let ground = ground.expect("not accepted");
    let readme = compare::c::repository().join("README.md");
    let readme = std::fs::read_to_string(readme).expect("README.md");
    let printed = format!("`no: {ground}`");
    assert!(readme.contains(&printed), "README.md has {printed}");
    println!("reach, table T on 1 2 2 1: {ground}");
}

/// Compares a call that may be refused, in a slice of the length. Returns the refusal or 0, and the length needed.
fn refused(record: &Record, list: &[u16], word: &[u8], length: usize) -> (u8, usize) {
    let mut expected_sets = filled_numbers(length);
    let judged = by_reference::reach(record, list, word, &mut expected_sets);
    let expected = match judged {
        Ok(sets) => ReachRecord {
            refusal: 0,
            needed: 0,
            sets,
        },
        Err(refusal) => ReachRecord {
            refusal: refusal.number,
            needed: refusal.needed,
            sets: 0,
        },
    };
    let proved = record_of(record);
    let mut found_sets = filled_numbers(length);
    let found = reach_record(&proved, list, word, &mut found_sets);
    assert!(
        found == expected && found_sets == expected_sets,
        "reach differs, slice of {length}\n{record:?}\nlist {list:?}\nword {word:?}\nreference {expected:?}\n\
         proved {found:?}"
    );
    let mut typed_sets = filled_numbers(length);
    let typed = reach_into(&proved, list, word, &mut typed_sets);
    assert_eq!(
        typed.map_err(|refusal| (refusal.number(), refusal.needed())),
        judged.map_err(|refusal| (refusal.number, refusal.needed))
    );
    assert!(typed_sets == expected_sets);
    // The call that allocates has the same refusals but for the slice's.
    let viewed = reach(&proved, list, word).map_err(|refusal| refusal.number());
    match expected.refusal {
        0 | 36 => assert!(viewed.is_ok()),
        number => assert_eq!(viewed.err(), Some(number)),
    }
    (expected.refusal, expected.needed)
}

/// Every slice that is too short, and longer ones whose rest is kept.
#[test]
fn lengths_of_slices() {
    let (record, list) = table_t().record();
    let mut cases = 0;
    for letters in [0, 1, 2, 5, 12, 40, 255] {
        let word: Vec<u8> = (0..letters)
            .map(|place| 1 + (place % 3 / 2) as u8)
            .collect();
        let needed = 3 * (letters + 1);
        assert_eq!(sets_needed(letters), needed);
        for length in (0..needed).chain([needed, needed + 1, needed + 100]) {
            let expected = match length < needed {
                true => (36, needed),
                false => (0, 0),
            };
            assert_eq!(refused(&record, &list, &word, length), expected);
            cases += 1;
        }
    }
    println!("reach, slices of every length: {cases} cases");
}

/// The refusals in their order: every fault with every other.
#[test]
fn order_of_refusals() {
    let (record, list) = table_t().record();
    let mut cases = 0;
    for broken in [true, false] {
        for length in [0_usize, 1, 4, 254, 255, 256, 257, 1000] {
            for bad in [None, Some(0), Some(3), Some(255)] {
                for at in [0, length / 2, length.saturating_sub(1)] {
                    let mut word = vec![1; length];
                    let has_bad = match (bad, word.get_mut(at)) {
                        (Some(bad), Some(letter)) => {
                            *letter = bad;
                            true
                        }
                        _ => false,
                    };
                    let needed = 3 * (length + 1);
                    for slice in [0, needed / 2, needed - 1, needed, needed + 2] {
                        let expected = match (broken, length, has_bad) {
                            (true, ..) => (16, 0),
                            (_, 256.., _) => (9, 0),
                            (_, _, true) => (8, 0),
                            _ if slice < needed => (36, needed),
                            _ => (0, 0),
                        };
                        let list = if broken { &list[..17] } else { &list };
                        assert_eq!(refused(&record, list, &word, slice), expected);
                        cases += 1;
                    }
                }
            }
        }
    }
    println!("reach, refusals in their order: {cases} cases");
}

#[test]
fn random_refusals() {
    let mut rng = Rng::new(20_240_075);
    let mut refusals = [0; 37];
    for _ in 0..20_000 {
        let machine = random_machine(&mut rng, 5, 3);
        let (record, list) = match rng.below(3) {
            0 => break_a_rule(&mut rng, &machine),
            _ => machine.record(),
        };
        let mut word = random_word(&mut rng, machine.letters, 6);
        if rng.once_in(5) {
            let bad = rng.pick(&[0, machine.letters as u8 + 1, 255]);
            word.insert(rng.below(word.len() + 1), bad);
        }
        if rng.once_in(20) {
            word.resize(rng.pick(&[256, 257, 700]), rng.pick(&[0, 1]));
        }
        let needed = sets_needed(word.len());
        let length = match rng.below(3) {
            0 => rng.below(needed),
            _ => needed + rng.below(3),
        };
        let (refusal, _) = refused(&record, &list, &word, length);
        refusals[usize::from(refusal)] += 1;
    }
    println!("reach, random faults: by refusal {}", tally(&refusals));
    for refusal in [0, 8, 9, 16, 36] {
        assert!(refusals[refusal] > 300, "{refusal} is rare");
    }
}

#[test]
fn refusal_as_text() {
    let (record, list) = table_t().record();
    let refusal = reach_into(&record_of(&record), &list, &[1, 2], &mut [0; 8]).unwrap_err();
    assert_eq!(refusal, Refusal::SetsTooShort { needed: 9 });
    assert_eq!(
        refusal.to_string(),
        "refusal 36: the slice for sets of states is too short, it needs 9 elements"
    );
}

#[test]
fn c_program() {
    let printed = compare::c::program("reach", env!("CARGO_TARGET_TMPDIR"));
    assert_eq!(printed, "the states that runs reach are right from C\n");
    print!("{printed}");
}
