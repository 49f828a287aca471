//! Recognition of words with many copies: many random machines and words, and a search for words that take long.

use crate::measure::least_within;
use crate::plain_recognize;
use crate::recognize::zones as sixty_states;
use compare::many_copies::{long_word, repetitive_word, zone_circle, zones};
use compare::{random_machine, record_of, Rng};
use zagvirk::recognize::{recognize, run_length};
use zagvirk::{check_run, Machine, Table};

/// The words of a kind, and the calls for each of which the least time counts.
const WORDS: usize = 1_000;
const CALLS: usize = 9;
/// The climbs of a kind, the words of which a climb begins with the best, the changes that it tries, and the calls for
/// each of them.
const CLIMBS: usize = 8;
const STARTS: usize = 25;
const CHANGES: usize = 150;
const TRIES: usize = 5;
/// The most time in seconds for the calls on one word.
const BUDGET: f64 = 0.1;
/// What is added to the time of plain Rust where ratios are compared, in seconds: short words are not looked for.
const SHORT: f64 = 2e-6;

/// A machine and a word.
#[derive(Clone)]
struct Input {
    machine: Machine,
    list: Vec<u16>,
    letters: usize,
    word: Vec<u8>,
}

/// The times of both calls on one input, and the answer.
#[derive(Clone, Copy)]
struct Times {
    proved: f64,
    plain: f64,
    yes: bool,
}

impl Times {
    fn ratio(&self) -> f64 {
        self.proved / self.plain
    }
}

/// What a climb makes larger.
type Score = fn(&Times) -> f64;

/// An input of the kind with a word of this length.
fn input(rng: &mut Rng, kind: &str, length: usize) -> Input {
    let letters = rng.pick(&[1, 1, 2, 3, 20]);
    if kind == "60 states" {
        let table = sixty_states();
        let word = repetitive_word(rng, table.letters, length);
        return Input {
            machine: table.machine,
            list: table.list,
            letters: table.letters,
            word,
        };
    }
    let machine = match kind {
        "circles" => zone_circle(rng, letters),
        "zones" => {
            let states = rng.pick(&[7, 12, 30, 64]);
            zones(rng, states, letters)
        }
        _ => loop {
            let machine = random_machine(rng, 64, letters);
            if machine.letters > 0 {
                break machine;
            }
        },
    };
    let word = match kind {
        "zones" => long_word(rng, machine.letters, length),
        _ => repetitive_word(rng, machine.letters, length),
    };
    let (record, list) = machine.record();
    Input {
        machine: record_of(&record),
        list,
        letters: machine.letters,
        word,
    }
}

/// The least times of so many calls. The answers are the same, and the run of a yes accepts.
fn times(input: &Input, calls: usize) -> Times {
    let Input {
        machine,
        list,
        word,
        ..
    } = input;
    let table = Table::new(machine, list);
    let mut run = vec![0; run_length(machine, word.len())];
    let (mut found, mut plain_found) = (Ok(None), Ok(None));
    let plain = least_within(calls, BUDGET, || {
        plain_found = plain_recognize::recognize(machine, list, word, &mut run);
    });
    let proved = least_within(calls, BUDGET, || {
        found = recognize(table, word, &mut run);
    });
    let found = found.expect("no refusal");
    assert_eq!(found.is_some(), plain_found.expect("no refusal").is_some());
    if let Some(entries) = found {
        assert_eq!(check_run(table, word, &run[..entries]), Ok(true));
    }
    Times {
        proved,
        plain,
        yes: found.is_some(),
    }
}

/// Changes the word: a letter, a letter that goes elsewhere, a stretch of one letter, or a stretch that repeats.
fn change(rng: &mut Rng, input: &mut Input) {
    let (letters, word) = (input.letters, &mut input.word);
    let at = rng.below(word.len());
    let letter = 1 + rng.below(letters) as u8;
    match rng.below(4) {
        0 => word[at] = letter,
        1 => {
            let moved = word.remove(at);
            word.insert(rng.below(word.len() + 1), moved);
        }
        2 => {
            let end = word.len().min(at + 1 + rng.below(40));
            word[at..end].fill(letter);
        }
        _ => {
            let distance = 1 + rng.below(20);
            let end = word.len().min(at + rng.below(60));
            for place in at.max(distance)..end {
                word[place] = word[place - distance];
            }
        }
    }
}

/// The times of the word that a climb ends at: from the best of some words, changes are kept that make the score larger,
/// twice measured.
fn climb(rng: &mut Rng, kind: &str, score: Score) -> Times {
    let starts = (0..STARTS).map(|_| {
        let length = 254 + rng.below(2);
        let start = input(rng, kind, length);
        (score(&times(&start, TRIES)), start)
    });
    let start = starts.max_by(|a, b| a.0.total_cmp(&b.0));
    let (mut reached, mut best) = start.expect("a word to begin with");
    for _ in 0..CHANGES {
        let mut next = best.clone();
        change(rng, &mut next);
        if score(&times(&next, TRIES)) > reached {
            let again = score(&times(&next, 3 * TRIES));
            if again > reached {
                (best, reached) = (next, again);
            }
        }
    }
    times(&best, 8 * TRIES)
}

/// The input with the largest score.
fn largest(all: &[Times], score: Score) -> Times {
    let largest = all.iter().max_by(|a, b| score(a).total_cmp(&score(b)));
    *largest.expect("an input")
}

/// Both times in microseconds, and their ratio.
fn shown(times: Times) -> String {
    format!(
        "{:8.1} {:8.1} {:6.2} {:>4}",
        1e6 * times.proved,
        1e6 * times.plain,
        times.ratio(),
        if times.yes { "yes" } else { "no" }
    )
}

/// Prints the times of words with many copies.
pub fn section() {
    let scores: [(&str, Score); 2] = [
        ("longest time", |times| times.proved),
        ("largest ratio", |times| {
            times.proved / (times.plain + SHORT)
        }),
    ];
    println!("Words with many copies, {WORDS} of each kind, of 8 to 255 letters. Ratio: time of the proved call / time of plain");
    println!("Rust for all words together; slower, twice: how many words took longer than in plain Rust, and more than twice as long.");
    println!();
    println!(
        "{:10} {:>6} {:>6} {:>8} {:>6} {:>6}",
        "kind", "words", "yes", "ratio", "slower", "twice"
    );
    let kinds = ["circles", "zones", "random", "60 states"];
    let mut surveyed = Vec::new();
    for kind in kinds {
        let mut rng = Rng::new(20_240_020);
        let mut all = Vec::new();
        for _ in 0..WORDS {
            let length = rng.pick(&[8, 32, 60, 120, 254, 255]);
            all.push(times(&input(&mut rng, kind, length), CALLS));
        }
        let (mut proved, mut plain) = (0.0, 0.0);
        for times in &all {
            proved += times.proved;
            plain += times.plain;
        }
        let count = |test: &dyn Fn(&Times) -> bool| all.iter().filter(|times| test(times)).count();
        println!(
            "{kind:10} {WORDS:6} {:6} {:8.2} {:6} {:6}",
            count(&|times| times.yes),
            proved / plain,
            count(&|times| times.ratio() > 1.0),
            count(&|times| times.ratio() > 2.0)
        );
        surveyed.push((kind, all));
    }
    println!();
    println!("The words of longest time and of largest ratio, of these and of those that {CLIMBS} climbs of {CHANGES} changes each end at, for");
    println!("words of 254 and 255 letters. Microseconds, the best of up to {CALLS} calls, in climbs of {}. For the largest ratio 2 µs", 8 * TRIES);
    println!("are added to the time of plain Rust.");
    println!();
    println!(
        "{:10} {:14} {:>8} {:>8} {:>6} {:>4}   {:>8} {:>8} {:>6} {:>4}",
        "kind", "looked for", "proved", "plain", "ratio", "", "climbed", "plain", "ratio", ""
    );
    for (kind, all) in &surveyed {
        for (name, score) in scores {
            let mut rng = Rng::new(20_240_021);
            let climbed: Vec<Times> = (0..CLIMBS).map(|_| climb(&mut rng, kind, score)).collect();
            println!(
                "{kind:10} {name:14} {}   {}",
                shown(largest(all, score)),
                shown(largest(&climbed, score))
            );
        }
    }
    println!();
    println!("circles: copy zones in a circle that store and match numbers of letters of their own; zones: copy zones and plain parts one");
    println!("after another; random: up to 64 states and any transitions; 60 states: the table of that name in the section recognize.");
}
