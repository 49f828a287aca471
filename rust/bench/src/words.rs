//! Yes or no for a list of words in one call.

use crate::measure::{best_of_both_by_processor, processor_time, REPETITIONS};
use crate::plain_words;
use crate::recognize::{dense, in_turn, kinds, rate, repeated, table_t, words, zones, Table};
use compare::calls::Words;
use zagvirk::accepts::accept_words;

/// The most words of a list.
const MOST_WORDS: usize = 100_000;
/// The time in seconds that a call takes at most, unless the words of a row alone take more.
const ENOUGH: f64 = 0.1;
/// The time in seconds of a first try, by which it is known how many words are enough.
const TRIED: f64 = 0.01;

/// The tables of the sections for yes or no.
pub fn tables() -> [Table; 5] {
    [
        table_t(),
        repeated(),
        zones(),
        dense(),
        in_turn("zones in turn, 9 states", 1),
    ]
}

/// The lengths and the kinds of the words of a table.
pub fn rows(table: &Table) -> impl Iterator<Item = (usize, &'static str)> {
    let kinds = kinds(table.letters);
    let lengths = [8, 32, 255].into_iter();
    lengths.flat_map(move |length| kinds.iter().map(move |&kind| (length, kind)))
}

/// A list of words, ready for both calls.
struct Lists<'a> {
    table: &'a Table,
    words: Words,
    proved: Vec<u8>,
    plain: Vec<u8>,
}

impl<'a> Lists<'a> {
    /// So many words one after another, from the first on again after the last.
    fn new(table: &'a Table, words: &[Vec<u8>], count: usize) -> Lists<'a> {
        let mut all = Words::default();
        for word in words.iter().cycle().take(count) {
            all.push(word);
        }
        Lists {
            table,
            words: all,
            proved: vec![0; count],
            plain: vec![0; count],
        }
    }

    /// The least times in seconds of the proved call and of plain Rust.
    fn times(&mut self) -> (f64, f64) {
        let Table { machine, list, .. } = self.table;
        let Words { letters, ends } = &self.words;
        let table = zagvirk::Table::new(machine, list);
        let (proved, plain) = (&mut self.proved, &mut self.plain);
        best_of_both_by_processor(
            || accept_words(table, letters, ends, proved).expect("no refusal"),
            || plain_words::accept_words(machine, list, letters, ends, plain).expect("no refusal"),
        )
    }

    /// The time in seconds of one call of each, the longer one.
    fn longer_time(&mut self) -> f64 {
        let Table { machine, list, .. } = self.table;
        let Words { letters, ends } = &self.words;
        let start = processor_time();
        accept_words(
            zagvirk::Table::new(machine, list),
            letters,
            ends,
            &mut self.proved,
        )
        .expect("no refusal");
        let between = processor_time();
        plain_words::accept_words(machine, list, letters, ends, &mut self.plain)
            .expect("no refusal");
        (between - start).max(processor_time() - between)
    }
}

/// The number of words for a measurement.
fn enough(table: &Table, words: &[Vec<u8>]) -> usize {
    let mut count = words.len();
    loop {
        let time = Lists::new(table, words, count).longer_time();
        if time > TRIED || count >= MOST_WORDS {
            let enough = count as f64 * ENOUGH / time;
            return (enough as usize).clamp(words.len(), MOST_WORDS);
        }
        count *= 2;
    }
}

/// Prints the times of lists of words.
pub fn section() {
    println!(
        "Yes or no for each word of a list in one call, which tests and prepares the table once for all words. The tables"
    );
    println!(
        "and words are those of section recognize. Words per second, by the time of the processor, best of {REPETITIONS} after a first"
    );
    println!(
        "call. Plain Rust has the same letters, ends and refusals, prepares its table once too, and writes the same bytes."
    );
    println!(
        "Yes: of the words of the row, which come over and over. Ratio: time of the proved call / time of plain Rust."
    );
    println!();
    println!("| table | letters | words | yes | words in the list | proved | plain Rust | ratio |");
    println!("|---|---|---|---|---|---|---|---|");
    for table in &tables() {
        for (length, kind) in rows(table) {
            row(table, length, kind);
        }
    }
}

/// Prints the row of a table and words of a length and a kind.
fn row(table: &Table, length: usize, kind: &str) {
    let words = words(kind, table.letters, length);
    let count = enough(table, &words);
    let mut lists = Lists::new(table, &words, count);
    let times = lists.times();
    assert!(lists.proved == lists.plain, "the answers are not the same");
    let answers = &lists.proved[..words.len()];
    let yes = answers.iter().filter(|&&answer| answer == 1).count();
    let share = format!("{yes}/{}", words.len());
    print_row(table, length, kind, &share, count, times);
}

/// Prints a row of the sections for yes or no: the table, the length and the kind of the words, how many of them are accepted, how many
/// words were answered, the words a second of the proved call and of plain Rust by their times, and the ratio of these.
pub fn print_row(
    table: &Table,
    length: usize,
    kind: &str,
    share: &str,
    count: usize,
    (proved, plain): (f64, f64),
) {
    println!(
        "| {} | {length} | {kind} | {share} | {count} | {} | {} | {:.2} |",
        table.name,
        rate(count as f64 / proved),
        rate(count as f64 / plain),
        proved / plain
    );
}

#[cfg(test)]
mod tests {
    use super::{rows, tables, Lists};
    use crate::recognize::words;

    /// The proved call and plain Rust have the same answers on the words that are measured.
    #[test]
    fn same_answers() {
        let mut counts = [0; 2];
        for table in &tables() {
            for (length, kind) in rows(table) {
                let words = words(kind, table.letters, length);
                let mut lists = Lists::new(table, &words, 2 * words.len());
                lists.longer_time();
                assert!(
                    lists.proved == lists.plain,
                    "{} {length} {kind}",
                    table.name
                );
                for answer in lists.proved {
                    counts[usize::from(answer)] += 1;
                }
            }
        }
        println!("words of the benchmark: no and yes {counts:?}");
        assert!(counts.iter().all(|&count| count > 100));
    }
}
