//! `zagvirk run`: how a table accepts a word.

use crate::arguments::{Arguments, Syntax};
use crate::explain::{self, number_width, Walk};
use crate::input::Sheet;
use crate::output::Output;
use crate::sentences::Spelling;
use crate::status::{Failure, Status};
use crate::word::Word;
use std::fmt::Display;
use std::io::{self, Write};
use zagvirk::recognize::{recognize, run_length, LONGEST_RECOGNIZED};
use zagvirk::{Refusal, Table};

pub const HELP: &str = "\
Usage: zagvirk run [--raw] TABLE WORD

Prints a run by which the table accepts the word, a line for each entry: what
happens, the states, and the mode and the stored letters after it; then what
was copied, without copies of no letters. Or 'no' if the table does not accept
the word. Which accepting run it is, where there are more, is left open.

TABLE is the file of a sheet, '-' is standard input. The word has at most 255
letters, spelled (abab) or as numbers ('1 2 1 2').

      --raw     only the numbers of the run, on one line
  -h, --help    this text

Exit status: 0 if the word is accepted, 1 if it is not, 2 if something is
refused or cannot be done.

Example:
  $ zagvirk run table.txt aa
  0  start in state 0
  1  begin storing in state 0
  2  nothing read by transition 0: 0 → 1, storing, nothing yet
  3  read a by transition 2: 1 → 1, storing \"a\"
  4  nothing read by transition 1: 1 → 2, storing \"a\"
  5  begin matching in state 2, still to match \"a\"
  6  read a by transition 4: 2 → 2, nothing left to match
  7  back to normal in state 2
  1 copy, 1 letter:
    letter 1: \"a\"
";

const SYNTAX: Syntax = Syntax {
    flags: &["--raw"],
    values: &[],
    needed: &["TABLE", "WORD"],
    more: 0,
};

pub fn run(arguments: Arguments, out: &mut Output) -> Result<Status, Failure> {
    let arguments = arguments.parse(&SYNTAX)?;
    let sheet = Sheet::read(arguments.needed(0)?)?;
    let text = arguments.needed(1)?;
    let word = Word::read(text, sheet.machine.letters, LONGEST_RECOGNIZED)?;
    let refused = |refusal| Failure::refused(&sheet.name, refusal);
    let raw = arguments.has("--raw");
    let Some(run) = find(sheet.table(), &word.letters).map_err(refused)? else {
        if raw {
            writeln!(out, "no")?;
            return Ok(Status::No);
        }
        return not_accepted(out);
    };
    if raw {
        write_numbers(&run, out)?;
        return Ok(Status::Yes);
    }
    let spelling = Spelling::of_word(&word);
    write_run(&sheet, &word.letters, &run, spelling, out)?;
    let copies = explain::copies(sheet.table(), &word.letters, &run, spelling);
    for line in copies.map_err(refused)? {
        writeln!(out, "{line}")?;
    }
    Ok(Status::Yes)
}

/// The answer for a word that is not accepted, with what to do next.
pub fn not_accepted(out: &mut Output) -> Result<Status, Failure> {
    writeln!(out, "no")?;
    out.flush()?;
    hint("'zagvirk why' with the same arguments says why not");
    Ok(Status::No)
}

/// An accepting run of the word, if there is one.
pub fn find(table: Table, word: &[u8]) -> Result<Option<Vec<u16>>, Refusal> {
    let mut run = vec![0; run_length(table.machine, word.len())];
    let entries = recognize(table, word, &mut run)?;
    Ok(entries.map(|entries| {
        run.truncate(entries);
        run
    }))
}

/// Writes the entries of an accepting run in words, a line each.
pub fn write_run(
    sheet: &Sheet,
    word: &[u8],
    run: &[u16],
    spelling: Spelling,
    out: &mut Output,
) -> Result<(), Failure> {
    let table = sheet.table();
    let width = number_width(run.len());
    for moved in Walk::new(table, word, run) {
        let moved = moved.map_err(|refusal| Failure::refused(&sheet.name, refusal))?;
        writeln!(out, "{}", moved.line(table, word, spelling, width))?;
    }
    Ok(())
}

/// Writes numbers on one line, with blanks between them.
pub fn write_numbers<N: Display>(numbers: &[N], out: &mut Output) -> Result<(), Failure> {
    for (place, number) in numbers.iter().enumerate() {
        let between = if place == 0 { "" } else { " " };
        write!(out, "{between}{number}")?;
    }
    writeln!(out)
}

/// Writes what to do next to standard error. If that cannot be written, the answer is still the answer.
pub fn hint(text: &str) {
    let _ = writeln!(io::stderr(), "zagvirk: {text}");
}
