//! The copy list of an accepting run.

use crate::measure::{best_of_both_by_processor, REPETITIONS};
use crate::plain_copies;
use compare::doubled_words::{repeated, repeated_run};
use compare::record_of;
use zagvirk::copies::list_copies;
use zagvirk::{Machine, Table, BACK_TO_NORMAL, BEGIN_BUFFERING, BEGIN_EMPTYING};

/// A measurement has as many calls as have this many entries together, at least one.
const ENTRIES: usize = 500_000;

/// An input of the copy list or of a page.
pub struct Input {
    pub name: &'static str,
    pub machine: Machine,
    pub list: Vec<u16>,
    pub word: Vec<u8>,
    pub run: Vec<u16>,
}

impl Input {
    /// The input of a machine of the tests.
    pub fn new(
        name: &'static str,
        machine: &reference::Machine,
        word: Vec<u8>,
        run: Vec<u16>,
    ) -> Input {
        let (record, list) = machine.record();
        Input {
            name,
            machine: record_of(&record),
            list,
            word,
            run,
        }
    }

    /// The machine's record for the reference.
    #[cfg(test)]
    pub fn record(&self) -> reference::Record {
        let machine = &self.machine;
        reference::Record {
            states: machine.states,
            letters: machine.letters,
            transitions: machine.transitions,
            marks: machine.marks,
        }
    }

    /// Measures the two calls on the input, which both succeed, and prints the row, with the number that they wrote.
    pub fn print_row(
        &self,
        written: usize,
        mut proved: impl FnMut() -> bool,
        mut plain: impl FnMut() -> bool,
    ) {
        let calls = (ENTRIES / self.run.len()).max(1);
        let (proved_time, plain_time) = best_of_both_by_processor(
            || (0..calls).all(|_| proved()),
            || (0..calls).all(|_| plain()),
        );
        let micros = |time: f64| 1e6 * time / calls as f64;
        println!(
            "| {} | {} | {} | {written} | {:.3} | {:.3} | {:.2} |",
            self.name,
            self.word.len(),
            self.run.len(),
            micros(proved_time),
            micros(plain_time),
            proved_time / plain_time
        );
    }
}

/// Table T and abab.
pub fn short() -> Input {
    let run = vec![
        0,
        BEGIN_BUFFERING,
        0,
        2,
        3,
        1,
        BEGIN_EMPTYING,
        4,
        5,
        BACK_TO_NORMAL,
    ];
    Input {
        name: "table T, abab",
        machine: Machine::new(2, 6, &[5, 0, 10]),
        list: vec![0, 0, 1, 1, 0, 2, 1, 1, 1, 1, 2, 1, 2, 1, 2, 2, 2, 2],
        word: vec![1, 2, 1, 2],
        run,
    }
}

/// Doubled words one after another, each of the given number of letters 1 twice.
fn doubled(name: &'static str, halves: &[usize]) -> Input {
    let (word, run) = repeated_run(halves);
    Input::new(name, &repeated(), word, run)
}

/// What is measured. The longest words of copies alone have 254 letters.
pub fn inputs() -> Vec<Input> {
    // 7 x 7 + 13 x 6 letters in 20 copies, and 50 empty ones behind each.
    let mut among = Vec::new();
    for number in 0..20 {
        among.push(if number < 7 { 7 } else { 6 });
        among.extend([0; 50]);
    }
    vec![
        short(),
        doubled("127 copies", &[1; 127]),
        doubled("one copy", &[127]),
        doubled("20 copies, 1,000 empty ones", &among),
        doubled("100,000 empty ones", &[0; 100_000]),
    ]
}

/// Prints the times of the copy list.
pub fn section() {
    println!(
        "The copy list of an accepting run: each call checks the machine, the word and the run, and lists the copies"
    );
    println!(
        "that have letters. Microseconds for a call, by the time of the processor, best of {REPETITIONS} after a first one."
    );
    println!("Ratio: time of the proved call / time of plain Rust.");
    println!();
    println!("| run | letters | entries | copies listed | proved, µs | plain Rust, µs | ratio |");
    println!("|---|---|---|---|---|---|---|");
    for input in &inputs() {
        row(input);
    }
}

/// Prints the row of an input.
fn row(input: &Input) {
    let Input {
        machine,
        list,
        word,
        run,
        ..
    } = input;
    let table = Table::new(machine, list);
    let (mut proved_copies, mut plain_copies) = (vec![0; word.len()], vec![0; word.len()]);
    let proved = list_copies(table, word, run, &mut proved_copies).expect("no refusal");
    let plain = plain_copies::list_copies(machine, list, word, run, &mut plain_copies);
    assert_eq!(plain, Ok((proved.count, proved.total)));
    assert_eq!(proved_copies, plain_copies);
    input.print_row(
        proved.count,
        || list_copies(table, word, run, &mut proved_copies).is_ok(),
        || plain_copies::list_copies(machine, list, word, run, &mut plain_copies).is_ok(),
    );
}
