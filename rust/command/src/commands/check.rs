//! `zagvirk check`: whether sheets are good, and else where they are not.

use crate::arguments::{Arguments, Syntax};
use crate::input::{self, Sheet};
use crate::output::{self, Output};
use crate::status::{Failure, Status};
use std::ffi::{OsStr, OsString};

pub const HELP: &str = "\
Usage: zagvirk check TABLE..

Reads sheets. For a good one it prints its size; else it says on standard error
where the first fault is, what stands there, what was wanted, and the number of
the refusal. '-' is standard input.

  -h, --help    this text

Exit status: 0 if all are good, else 2.

Example:
  $ zagvirk check table.txt
  table.txt: good: 3 states, 2 letters, 6 transitions
";

const SYNTAX: Syntax = Syntax {
    flags: &[],
    values: &[],
    needed: &["TABLE"],
    more: usize::MAX,
};

pub fn run(arguments: Arguments, out: &mut Output) -> Result<Status, Failure> {
    let arguments = arguments.parse(&SYNTAX)?;
    let paths: Vec<&OsStr> = arguments
        .positional()
        .iter()
        .map(OsString::as_os_str)
        .collect();
    input::standard_input_once("check", &paths)?;
    let mut status = Status::Yes;
    for path in paths {
        match Sheet::read(path) {
            Ok(sheet) => writeln!(out, "{}", good(&sheet))?,
            Err(failure) => {
                // In the order of the files, also where both go to the same place.
                out.flush()?;
                output::report(&failure);
                status = Status::Refused;
            }
        }
    }
    Ok(status)
}

/// The line for a good sheet.
fn good(sheet: &Sheet) -> String {
    let machine = &sheet.machine;
    format!(
        "{}: good: {}, {}, {}",
        sheet.name,
        counted(machine.states, "state"),
        counted(machine.letters, "letter"),
        counted(machine.transitions, "transition")
    )
}

/// A number of things, with the ending of more than one.
fn counted(number: usize, thing: &str) -> String {
    match number {
        1 => format!("1 {thing}"),
        _ => format!("{number} {thing}s"),
    }
}
