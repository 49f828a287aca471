//! `zagvirk common`: a shortest word that a table and a plain one both accept, or that there is none.

use crate::arguments::{Arguments, Syntax};
use crate::commands::join::{read_two, refused};
use crate::commands::run::{write_numbers, write_run};
use crate::output::Output;
use crate::sentences::{counted, Spelling};
use crate::status::{Failure, Status};
use zagvirk::common::{find, CommonWord};

pub const HELP: &str = "\
Usage: zagvirk common [--raw] [--letters] TABLE PLAIN

Prints a shortest word that both tables accept, and for each table a run by
which it does, a line for each entry. Or 'no common word': then no word of any
length is accepted by both. PLAIN, a list of forbidden spellings for instance,
has no marks 4 and 8 and no letter 0; both have the same letters. Which
shortest word it is, where there are more, is left open.

TABLE and PLAIN are files of sheets, one of them may be '-', standard input.

      --raw      only numbers: the word, the run of TABLE and the run of PLAIN,
                 a line each
      --letters  letters as numbers, not as the signs a to z, hyphen and
                 apostrophe; so also if a letter of the word has no sign
  -h, --help     this text

Exit status: 0 if there is a common word, 1 if there is none, 2 if something is
refused or cannot be done.

Example:
  $ zagvirk common table.txt odd-ones.txt
  no common word
";

const SYNTAX: Syntax = Syntax {
    flags: &["--raw", "--letters"],
    values: &[],
    needed: &["TABLE", "PLAIN"],
    more: 0,
};

pub fn run(arguments: Arguments, out: &mut Output) -> Result<Status, Failure> {
    let arguments = arguments.parse(&SYNTAX)?;
    let (first, second) = read_two("common", arguments.needed(0)?, arguments.needed(1)?)?;
    let found =
        find(first.table(), second.table()).map_err(|refusal| refused(&first, &second, refusal))?;
    let Some(common) = found else {
        writeln!(out, "no common word")?;
        return Ok(Status::No);
    };
    if arguments.has("--raw") {
        write_numbers(&common.word, out)?;
        write_numbers(&common.first_run, out)?;
        write_numbers(&common.second_run, out)?;
        return Ok(Status::Yes);
    }
    let spelling = match arguments.has("--letters") {
        true => Spelling::Numbers,
        false => Spelling::of_letters(common.word.iter().map(|&letter| u16::from(letter))),
    };
    writeln!(out, "{}", first_line(&common, spelling))?;
    for (sheet, run) in [(&first, &common.first_run), (&second, &common.second_run)] {
        writeln!(out, "run of {}:", sheet.name)?;
        write_run(sheet, &common.word, run, spelling, out)?;
    }
    Ok(Status::Yes)
}

/// The word and its number of letters.
fn first_line(common: &CommonWord, spelling: Spelling) -> String {
    match common.word.len() {
        0 => "common word: the empty word".to_string(),
        letters => format!(
            "common word: {} ({})",
            spelling.typed(&common.word),
            counted(letters, "letter")
        ),
    }
}
