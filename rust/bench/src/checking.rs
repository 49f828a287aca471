//! The run checker on long runs.

use crate::measure::{best_of_both, REPETITIONS};
use crate::plain;
use zagvirk::{Machine, Table, BACK_TO_NORMAL, BEGIN_BUFFERING, BEGIN_EMPTYING, LONGEST_WORD};

/// An input of the run checker.
struct Input {
    name: &'static str,
    machine: Machine,
    list: Vec<u16>,
    word: Vec<u8>,
    run: Vec<u16>,
}

/// Bits that look random, the same in every run of the program.
struct Bits(u64);

impl Bits {
    /// Letter 1 or 2.
    fn letter(&mut self) -> u8 {
        self.0 ^= self.0 << 13;
        self.0 ^= self.0 >> 7;
        self.0 ^= self.0 << 17;
        1 + (self.0 >> 40 & 1) as u8
    }
}

/// A plain machine, an odd number of letter 1: one entry a letter.
fn letters_only() -> Input {
    let list = vec![0, 1, 1, 0, 2, 0, 1, 1, 0, 1, 2, 1];
    let mut bits = Bits(88_172_645_463_325_252);
    let mut word: Vec<u8> = (0..LONGEST_WORD).map(|_| bits.letter()).collect();
    if word.iter().filter(|&&letter| letter == 1).count() % 2 == 0 {
        word[0] = 3 - word[0];
    }
    let mut state = 0;
    let mut run = vec![0];
    for &letter in &word {
        run.push(2 * state + u16::from(letter) - 1);
        if letter == 1 {
            state = 1 - state;
        }
    }
    Input {
        name: "letters only",
        machine: Machine::new(2, 4, &[1, 2]),
        list,
        word,
        run,
    }
}

/// Doubled words one after another: each of 8 letters and its copy, 65,536 copies.
fn copies() -> Input {
    // T with an epsilon transition from its last state back to its first.
    let list = vec![
        0, 0, 1, 1, 0, 2, 1, 1, 1, 1, 2, 1, 2, 0, 0, 2, 1, 2, 2, 2, 2,
    ];
    let mut bits = Bits(1_234_567_890_123);
    let (mut word, mut run) = (Vec::new(), vec![0]);
    while word.len() < LONGEST_WORD {
        if !word.is_empty() {
            run.push(4);
        }
        let part: Vec<u8> = (0..8).map(|_| bits.letter()).collect();
        run.extend([BEGIN_BUFFERING, 0]);
        run.extend(part.iter().map(|&letter| 1 + u16::from(letter)));
        run.extend([1, BEGIN_EMPTYING]);
        run.extend(part.iter().map(|&letter| 4 + u16::from(letter)));
        run.push(BACK_TO_NORMAL);
        word.extend(&part);
        word.extend(&part);
    }
    Input {
        name: "many copies",
        machine: Machine::new(2, 7, &[5, 0, 10]),
        list,
        word,
        run,
    }
}

/// Seven epsilon moves before each letter.
fn epsilon() -> Input {
    let mut list = Vec::new();
    for state in 0..7 {
        list.extend([state, 0, state + 1]);
    }
    list.extend([7, 1, 0, 7, 2, 0]);
    let mut bits = Bits(9_876_543_210);
    let word: Vec<u8> = (0..LONGEST_WORD).map(|_| bits.letter()).collect();
    let mut run = vec![0];
    for &letter in &word {
        run.extend(0..7);
        run.push(6 + u16::from(letter));
    }
    Input {
        name: "epsilon moves",
        machine: Machine::new(2, 9, &[3, 0, 0, 0, 0, 0, 0, 0]),
        list,
        word,
        run,
    }
}

/// Prints the times of the run checker.
pub fn section() {
    println!("Run checker, accepting runs of words of {LONGEST_WORD} letters.");
    println!("Millions of entries per second, best of {REPETITIONS} calls after a first one; a call checks the");
    println!("machine, the word and the run. Ratio: time of the proved call / time of the plain Rust checker.");
    println!();
    println!(
        "{:14} {:>9} {:>8} {:>8} {:>6}",
        "run", "entries", "proved", "plain", "ratio"
    );
    for input in [letters_only(), copies(), epsilon()] {
        let Input {
            name,
            machine,
            list,
            word,
            run,
        } = &input;
        let table = Table::new(machine, list);
        assert_eq!(word.len(), LONGEST_WORD);
        assert_eq!(zagvirk::check_run(table, word, run), Ok(true));
        assert_eq!(plain::check_run(machine, list, word, run), Ok(true));
        let cut = &run[..run.len() - 1];
        assert_eq!(zagvirk::check_run(table, word, cut), Ok(false));
        assert_eq!(plain::check_run(machine, list, word, cut), Ok(false));
        let (proved, plain) = best_of_both(
            || zagvirk::check_run(table, word, run),
            || plain::check_run(machine, list, word, run),
        );
        let entries = run.len() as f64;
        println!(
            "{name:14} {:9} {:8.1} {:8.1} {:6.2}",
            run.len(),
            entries / proved / 1e6,
            entries / plain / 1e6,
            proved / plain
        );
    }
}
