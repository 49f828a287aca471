//! `zagvirk page`: the page of a run that accepts a word, to be held beside the sheet.

use crate::arguments::{Arguments, Syntax};
use crate::commands::run;
use crate::explain;
use crate::input::{self, Sheet};
use crate::output::Output;
use crate::sentences::Spelling;
use crate::status::{Failure, Status};
use crate::word::Word;
use crate::written_run;
use std::ffi::OsStr;
use zagvirk::page::{page_length, write_page, MOST_ENTRIES, MOST_LETTERS};
use zagvirk::{Refusal, Table};

pub const HELP: &str = "\
Usage: zagvirk page TABLE WORD [RUN]

Prints a page to be held beside the sheet: a run by which the table accepts the
word as lines of numbers in columns of six bytes. Without RUN it is a run that
the table has for the word, as 'zagvirk run' shows it, or the answer is 'no' if
the table does not accept the word.

A line for each entry has the entry's number from 0, and what there is after
it: the state, the mode (0 normal, 1 storing, 2 matching), the letters read so
far and the letters in the buffer. The last line has the letters read in normal
mode, the letters stored, and the length of the word, which is the first and
twice the second.

TABLE is the file of a sheet, '-' is standard input. The word has at most 255
letters, spelled (abab) or as numbers ('1 2 1 2'). RUN is '@FILE' for a file,
'-' for standard input, or the numbers themselves as 'zagvirk run --raw' prints
them, at most 99999; one that does not accept is refused (14).

  -h, --help    this text

Exit status: 0 if the page is printed, 1 if without RUN the word is not
accepted, 2 if something is refused or cannot be done.

Example:
  $ zagvirk page table.txt aa
       0     0     0     0     0
       1     0     1     0     0
       2     1     1     0     0
       3     1     1     1     1
       4     2     1     1     1
       5     2     2     1     1
       6     2     2     2     0
       7     2     0     2     0
       0     1     2
";

const SYNTAX: Syntax = Syntax {
    flags: &[],
    values: &[],
    needed: &["TABLE", "WORD"],
    more: 1,
};

pub fn run(arguments: Arguments, out: &mut Output) -> Result<Status, Failure> {
    let arguments = arguments.parse(&SYNTAX)?;
    let (path, given) = (arguments.needed(0)?, arguments.get(2));
    let files = [Some(path), given.and_then(written_run::file)];
    let files: Vec<&OsStr> = files.into_iter().flatten().collect();
    input::standard_input_once("page", &files)?;
    let sheet = Sheet::read(path)?;
    // Ahead of the word's letters: a run that is too long is 9, which comes before 8.
    let given = given.map(read_run).transpose()?;
    let letters = sheet.machine.letters;
    let word = Word::read(arguments.needed(1)?, letters, MOST_LETTERS)?;
    let refused = |refusal| Failure::refused(&sheet.name, refusal);
    let run = match given {
        Some(run) => run,
        None => match run::find(sheet.table(), &word.letters).map_err(refused)? {
            Some(run) => run,
            None => return run::not_accepted(out),
        },
    };
    match page(sheet.table(), &word.letters, &run) {
        Ok(page) => out.bytes(&page)?,
        Err(Refusal::NotAccepting) => return Err(not_accepting(&sheet, &word, &run)),
        Err(refusal) => return Err(refused(refusal)),
    }
    Ok(Status::Yes)
}

/// The run of an argument, of as many entries as a page takes.
fn read_run(given: &OsStr) -> Result<Vec<u16>, Failure> {
    written_run::read(given, MOST_ENTRIES, |name| Failure::Refused {
        at: name,
        what: format!("more than {MOST_ENTRIES} entries, a page takes no more"),
        refusal: Refusal::WordTooLong.number(),
    })
}

/// The page of a run.
fn page(table: Table, word: &[u8], run: &[u16]) -> Result<Vec<u8>, Refusal> {
    let mut page = vec![0; page_length(run.len())];
    let bytes = write_page(table, word, run, &mut page)?;
    page.truncate(bytes);
    Ok(page)
}

/// The failure for a run that does not accept, with the reason.
fn not_accepting(sheet: &Sheet, word: &Word, run: &[u16]) -> Failure {
    let spelling = Spelling::of_word(word);
    match explain::fault(sheet.table(), &word.letters, run) {
        Ok(Some(fault)) => Failure::not_accepting("page", &fault.sentence(sheet.table(), spelling)),
        Ok(None) => Failure::refused("run", Refusal::NotAccepting),
        Err(refusal) => Failure::refused(&sheet.name, refusal),
    }
}
