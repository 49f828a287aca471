//! The states that runs reach, one call a word.

use crate::measure::least_within;
use crate::plain_reach;
use crate::recognize::{in_turn, kinds, words, Table};
use crate::words::tables;
use zagvirk::reach::{reach_into, sets_needed};

/// The lengths of the words.
const LENGTHS: [usize; 2] = [8, 255];
/// The most calls to find the time of a word, and the time in seconds that is enough for it.
const CALLS: usize = 25;
const ENOUGH: f64 = 0.05;
/// With so many seconds of proved calls in a row no further word of it is measured.
const BUDGET: f64 = 3.0;

/// The times of a word in seconds.
struct Single {
    table: &'static str,
    length: usize,
    kind: &'static str,
    proved: f64,
    plain: f64,
}

/// Prints the times of the sets of states.
pub fn section() {
    println!(
        "The states that runs reach at each position of a word in each mode, one call a word: each call checks the machine and"
    );
    println!(
        "the word and prepares the machine anew. The tables and words are those of section recognize. Microseconds for a word,"
    );
    println!(
        "the mean over the words of the row of the best of up to {CALLS} calls. Slowest: the word of the row that takes the proved"
    );
    println!("call longest. Ratio: time of the proved call / time of plain Rust.");
    println!();
    println!("| table | letters | words | proved, µs | plain Rust, µs | ratio | slowest, µs |");
    println!("|---|---|---|---|---|---|---|");
    let mut all = Vec::new();
    for table in tables()
        .into_iter()
        .chain([in_turn("zones in turn, 63 states", 7)])
    {
        for length in LENGTHS {
            for kind in kinds(table.letters) {
                all.extend(row(&table, length, kind));
            }
        }
    }
    println!();
    for length in LENGTHS {
        let singles = all.iter().filter(|single| single.length == length);
        let slowest = singles.max_by(|a, b| a.proved.total_cmp(&b.proved));
        let slowest = slowest.expect("a word");
        println!(
            "The slowest word of {length} letters for the proved call: {}, {}: {:.3} ms, plain Rust {:.3} ms.",
            slowest.table,
            slowest.kind,
            1e3 * slowest.proved,
            1e3 * slowest.plain
        );
    }
}

/// Prints the row of a table and words of a length and a kind. Returns the times of its words.
fn row(table: &Table, length: usize, kind: &'static str) -> Vec<Single> {
    let Table {
        name,
        machine,
        list,
        letters,
    } = table;
    let lent = zagvirk::Table::new(machine, list);
    let needed = sets_needed(length);
    let (mut proved_sets, mut plain_sets) = (vec![0; needed], vec![0; needed]);
    let mut singles: Vec<Single> = Vec::new();
    for word in &words(kind, *letters, length) {
        let spent: f64 = singles.iter().map(|single| single.proved).sum();
        if spent > BUDGET {
            break;
        }
        let proved = least_within(CALLS, ENOUGH, || {
            reach_into(lent, word, &mut proved_sets).expect("no refusal")
        });
        let plain = least_within(CALLS, ENOUGH, || {
            plain_reach::reach(machine, list, word, &mut plain_sets).expect("no refusal")
        });
        assert!(proved_sets == plain_sets, "{name} {word:?}");
        singles.push(Single {
            table: name,
            length,
            kind,
            proved,
            plain,
        });
    }
    let count = singles.len() as f64;
    let proved: f64 = singles.iter().map(|single| single.proved).sum();
    let plain: f64 = singles.iter().map(|single| single.plain).sum();
    let slowest = singles
        .iter()
        .fold(0.0_f64, |most, single| most.max(single.proved));
    println!(
        "| {name} | {length} | {kind} | {:.1} | {:.1} | {:.2} | {:.1} |",
        1e6 * proved / count,
        1e6 * plain / count,
        proved / plain,
        1e6 * slowest
    );
    singles
}
