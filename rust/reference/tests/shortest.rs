//! The two recognizers agree: `published`, by the definition, and `shortest`, over numbered configurations.

use reference::common::next_word;
use reference::families::small_machines;
use reference::moves::{self, accepting};
use reference::{folder, published, shortest, Config, Machine};

/// Asserts that both give the same answer and runs of the same number of entries. Returns whether the word is accepted.
fn agree(machine: &Machine, word: &[u8]) -> bool {
    let brute = published::find_run(machine, word);
    let run = shortest::find_run(machine, word);
    assert_eq!(
        brute.as_ref().map(Vec::len),
        run.as_ref().map(Vec::len),
        "{machine:?} {word:?}"
    );
    if let Some(run) = &run {
        assert!(accepting(machine, word, run), "{machine:?} {word:?}");
        assert!(*run <= brute.unwrap(), "{machine:?} {word:?}");
    }
    run.is_some()
}

#[test]
fn two_states() {
    let (mut cases, mut yes) = (0, 0);
    for machine in small_machines(2, 0..256) {
        for length in 0..3 {
            yes += u64::from(agree(&machine, &vec![1; length]));
            cases += 1;
        }
    }
    println!("two states, one letter: {cases} words, {yes} accepted");
}

#[test]
fn folders() {
    let mut cases = 0;
    for folder in folder::all() {
        for (word, expected) in &folder.words {
            assert_eq!(agree(&folder.machine, word), *expected);
            cases += 1;
        }
    }
    println!("data/machines: {cases} words");
}

/// Doubled words one after another, and the same with a second way through that has the same number of entries.
#[test]
fn repeated_copies() {
    let marks = [5, 0, 10, 0];
    let mut transitions = vec![(0, 0, 1), (2, 0, 0), (1, 0, 2), (0, 0, 3), (3, 0, 2)];
    for letter in 1..3 {
        transitions.extend([(1, letter, 1), (2, letter, 2), (3, letter, 3)]);
    }
    let machine = Machine::new(2, &marks, &transitions);
    let mut cases = 0;
    for length in 0..=8 {
        let mut word = vec![1; length];
        loop {
            agree(&machine, &word);
            cases += 1;
            if !next_word(&mut word, 2) {
                break;
            }
        }
    }
    println!("doubled words one after another: {cases} words");
}

/// The first of all accepting runs in order of their length, then of their entries, by trying every run.
fn first_run(machine: &Machine, word: &[u8], longest: usize) -> Option<Vec<u16>> {
    let mut runs: Vec<(Vec<u16>, Config)> = (0..machine.states())
        .filter(|&state| machine.has(state, reference::INITIAL))
        .map(|state| (vec![state as u16], Config::initial(state)))
        .collect();
    for _ in 0..longest {
        // Runs of one length stand in rising order.
        if let Some((run, _)) = runs.iter().find(|(run, _)| accepting(machine, word, run)) {
            return Some(run.clone());
        }
        let mut longer = Vec::new();
        for (run, config) in &runs {
            let entries = (0..machine.transitions.len() as u16).chain(65_533..=65_535);
            for entry in entries {
                if let Some(next) = moves::step(machine, word, *config, entry) {
                    longer.push(([run.as_slice(), &[entry]].concat(), next));
                }
            }
        }
        runs = longer;
    }
    None
}

#[test]
fn first_in_order() {
    let marks = [5, 1, 8, 10];
    let mut transitions = Vec::new();
    for from in 0..4 {
        for to in 0..4 {
            if from != to {
                transitions.push((from, 0, to));
            }
            transitions.push((from, 1, to));
        }
    }
    let mut cases = 0;
    for left_out in 0..transitions.len() {
        let mut some = transitions.clone();
        some.remove(left_out);
        let machine = Machine::new(1, &marks, &some);
        for length in 0..4 {
            let word = vec![1; length];
            let expected = first_run(&machine, &word, 7);
            assert!(expected.is_some());
            assert_eq!(shortest::find_run(&machine, &word), expected);
            cases += 1;
        }
    }
    println!("first of the shortest runs: {cases} words");
}
