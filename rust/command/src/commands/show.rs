//! `zagvirk show`: a sheet as sentences.

use crate::arguments::{Arguments, Syntax};
use crate::input::Sheet;
use crate::output::Output;
use crate::sentences::{sentences, Spelling};
use crate::status::{Failure, Status};

pub const HELP: &str = "\
Usage: zagvirk show [--letters] TABLE

Prints a sheet as sentences: its size, what each state is, and where the
letters lead from each state. Letters 1 to 28 have their signs beside them: a
to z, hyphen, apostrophe.

TABLE is the file of a sheet, '-' is standard input.

      --letters  the letters without their signs
  -h, --help     this text

Exit status: 0 if the sheet is good, else 2.

Example:
  $ zagvirk show some-two.txt
  2 states, 2 letters, 4 transitions.
  State 0 is initial (mark 1).
  State 1 is final (mark 2).
  From state 0, letter 1 (a) leads to state 0.
  From state 0, letter 2 (b) leads to state 1.
  From state 1, letters 1 (a) and 2 (b) lead to state 1.
";

const SYNTAX: Syntax = Syntax {
    flags: &["--letters"],
    values: &[],
    needed: &["TABLE"],
    more: 0,
};

pub fn run(arguments: Arguments, out: &mut Output) -> Result<Status, Failure> {
    let arguments = arguments.parse(&SYNTAX)?;
    let sheet = Sheet::read(arguments.needed(0)?)?;
    let spelling = match arguments.has("--letters") {
        true => Spelling::Numbers,
        false => Spelling::Signs,
    };
    for sentence in sentences(sheet.table(), spelling) {
        writeln!(out, "{sentence}")?;
    }
    Ok(Status::Yes)
}
