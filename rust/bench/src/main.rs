//! Times of the proved calls beside plain Rust, on the same input in the same run.
//!
//! Each section prints its own table. With names after `--`, only the sections named run: `checking`, `sheet`,
//! `recognize` (with a run, one call a word), `words` (yes or no for a list of words in one call), `listing` (the same by
//! the listing program, as a process), `reach` (the states that runs reach, one call a word), `copies` (the copy list of a
//! run), `page` (the page of a run), `survey`, `common`, `command` (the command beside pcre2grep). A further call is
//! measured by a function like [`checking::section`] and one more line in `main`.

mod checking;
mod command;
mod common;
mod copies;
mod listing;
mod measure;
mod page;
mod plain;
mod plain_common;
mod plain_copies;
mod plain_decide;
mod plain_listing;
mod plain_moves;
mod plain_page;
mod plain_reach;
mod plain_recognize;
mod plain_sheet;
mod plain_words;
#[cfg(test)]
mod random_runs;
mod reach;
mod recognize;
mod sheet;
mod survey;
mod words;

fn main() {
    let sections: [(&str, fn()); 11] = [
        ("checking", checking::section),
        ("sheet", sheet::section),
        ("recognize", recognize::section),
        ("words", words::section),
        ("listing", listing::section),
        ("reach", reach::section),
        ("copies", copies::section),
        ("page", page::section),
        ("survey", survey::section),
        ("common", common::section),
        ("command", command::section),
    ];
    let wanted: Vec<String> = std::env::args().skip(1).collect();
    for (name, section) in sections {
        if wanted.is_empty() || wanted.iter().any(|wanted| wanted == name) {
            section();
            println!();
        }
    }
}
