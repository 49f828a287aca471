//! `zagvirk why`: why a table does not accept a word.

use crate::arguments::{Arguments, Syntax};
use crate::input::Sheet;
use crate::output::Output;
use crate::status::{Failure, Status};
use crate::word::Word;
use zagvirk::reach::{reach, Reach};
use zagvirk::recognize::LONGEST_RECOGNIZED;
use zagvirk::Mode;

pub const HELP: &str = "\
Usage: zagvirk why [--table] TABLE WORD

Says why the table does not accept the word: how far runs read it, in which
states they stand there, and what they lack. Or 'yes' if it accepts the word.

TABLE is the file of a sheet, '-' is standard input. The word has at most 255
letters, spelled (abba) or as numbers ('1 2 2 1').

      --table   also the states that runs reach after each letter, for each
                mode: normal, storing, matching ('-' for none)
  -h, --help    this text

Exit status: 0 if the word is accepted, 1 if it is not, 2 if something is
refused or cannot be done.

Example:
  $ zagvirk why --table even.txt aba
  no: the whole word is read, but no run accepts: some end in state 1, which is not final
  read  letter  normal  storing  matching
     0          0       -        -
     1  a       1       -        -
     2  b       0       -        -
     3  a       1       -        -
";

const SYNTAX: Syntax = Syntax {
    flags: &["--table"],
    values: &[],
    needed: &["TABLE", "WORD"],
    more: 0,
};

pub fn run(arguments: Arguments, out: &mut Output) -> Result<Status, Failure> {
    let arguments = arguments.parse(&SYNTAX)?;
    let sheet = Sheet::read(arguments.needed(0)?)?;
    let text = arguments.needed(1)?;
    let word = Word::read(text, sheet.machine.letters, LONGEST_RECOGNIZED)?;
    let reached = reach(sheet.table(), &word.letters)
        .map_err(|refusal| Failure::refused(&sheet.name, refusal))?;
    let ground = reached.ground();
    match &ground {
        None => writeln!(out, "yes")?,
        Some(ground) => {
            let sentence = ground.sentence(|letter| word.spell_letter(letter));
            writeln!(out, "no: {sentence}")?;
        }
    }
    if arguments.has("--table") {
        for line in columns(&rows(&reached, &word)) {
            writeln!(out, "{line}")?;
        }
    }
    Ok(Status::from(ground.is_none()))
}

/// The columns of the table: the letters that are read, the last of them, the states by mode.
type Row = [String; 5];

/// The rows of the table, the first with the names of the columns.
fn rows(reached: &Reach, word: &Word) -> Vec<Row> {
    let mut rows = vec![["read", "letter", "normal", "storing", "matching"].map(String::from)];
    for position in reached.positions() {
        let last = position
            .checked_sub(1)
            .and_then(|last| word.letters.get(last));
        let states = |mode| listed(reached.states(position, mode));
        rows.push([
            position.to_string(),
            last.map_or(String::new(), |&letter| word.spell_letter(letter)),
            states(Mode::Normal),
            states(Mode::Buffering),
            states(Mode::Emptying),
        ]);
    }
    rows
}

/// States one after another, `-` for none.
fn listed(states: impl Iterator<Item = usize>) -> String {
    let numbers: Vec<String> = states.map(|state| state.to_string()).collect();
    match numbers.is_empty() {
        true => "-".to_string(),
        false => numbers.join(" "),
    }
}

/// The rows as lines, the columns one below another, the first at the right.
fn columns(rows: &[Row]) -> Vec<String> {
    let mut widths = [0; 5];
    for row in rows {
        for (width, cell) in widths.iter_mut().zip(row) {
            *width = cell.len().max(*width);
        }
    }
    let line = |row: &Row| {
        let cells = row.iter().zip(widths).enumerate();
        let cells: Vec<String> = cells
            .map(|(column, (cell, width))| match column {
                0 => format!("{cell:>width$}"),
                _ => format!("{cell:width$}"),
            })
            .collect();
        cells.join("  ").trim_end().to_string()
    };
    rows.iter().map(line).collect()
}
