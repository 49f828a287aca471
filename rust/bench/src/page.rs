//! The page of an accepting run.

use crate::copies::{short, Input};
use crate::measure::REPETITIONS;
use crate::plain_page;
use compare::doubled_words::{plain_and_doubled, run_of_parts, Part};
use compare::longest_runs::{circle_run, empty_copies, empty_copies_run, epsilon_circle};
use zagvirk::page::{page_length, write_page, MOST_ENTRIES};
use zagvirk::Table;

/// What is measured. The longest words have 255 letters, the longest runs 99,999 entries.
pub fn inputs() -> Vec<Input> {
    let mut parts = vec![Part::Plain];
    parts.extend([Part::Doubled(1); 127]);
    let (letters, copied, _) = run_of_parts(&parts);
    vec![
        short(),
        Input::new(
            "127 copies and a plain letter",
            &plain_and_doubled(),
            vec![1; letters],
            copied,
        ),
        Input::new(
            "an epsilon circle",
            &epsilon_circle(),
            vec![],
            circle_run(0, MOST_ENTRIES),
        ),
        Input::new(
            "empty copies",
            &empty_copies(),
            vec![],
            empty_copies_run(MOST_ENTRIES),
        ),
    ]
}

/// Prints the times of the page.
pub fn section() {
    println!(
        "The page of an accepting run: each call checks the machine, the word and the run, and writes a line for each entry."
    );
    println!(
        "Microseconds for a call, by the time of the processor, best of {REPETITIONS} after a first one. Ratio: time of the"
    );
    println!("proved call / time of plain Rust.");
    println!();
    println!("| run | letters | entries | bytes | proved, µs | plain Rust, µs | ratio |");
    println!("|---|---|---|---|---|---|---|");
    for input in &inputs() {
        row(input);
    }
}

/// Prints the row of an input.
fn row(input: &Input) {
    let Input {
        name,
        machine,
        list,
        word,
        run,
    } = input;
    let table = Table::new(machine, list);
    let bytes = page_length(run.len());
    let (mut proved_page, mut plain_page) = (vec![0; bytes], vec![0; bytes]);
    let proved = write_page(table, word, run, &mut proved_page);
    let plain = plain_page::write_page(machine, list, word, run, &mut plain_page);
    assert_eq!((proved, plain), (Ok(bytes), Ok(bytes)));
    assert!(proved_page == plain_page, "{name}: the pages are the same");
    input.print_row(
        bytes,
        || write_page(table, word, run, &mut proved_page).is_ok(),
        || plain_page::write_page(machine, list, word, run, &mut plain_page).is_ok(),
    );
}
