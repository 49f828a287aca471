//! `zagvirk dot`: a table as a Graphviz graph, with the run of a word drawn on it.

use crate::arguments::{Arguments, Parsed, Syntax};
use crate::commands::run;
use crate::graph::{graph, Drawn};
use crate::input::Sheet;
use crate::output::{self, Output};
use crate::sentences::Spelling;
use crate::status::{Failure, Status};
use crate::word::Word;
use std::ffi::OsStr;
use zagvirk::recognize::LONGEST_RECOGNIZED;
use zagvirk::Refusal;

pub const HELP: &str = "\
Usage: zagvirk dot [--letters] [-o FILE] TABLE [WORD]

Writes the table as a graph for Graphviz ('dot -Tsvg' makes a picture of it).
An arrow from a point leads to each initial state; final states have a double
border, states where storing begins are diamonds, those where stored letters
are matched are squares, and the arrows between these are dashed. With a word
the graph also has a run by which the table accepts it: what it takes in red,
with the numbers of the run's entries. If the table does not accept the word,
nothing is written but a message.

TABLE is the file of a sheet, '-' is standard input. The word has at most 255
letters, spelled (abab) or as numbers ('1 2 1 2').

  -o, --output FILE  write to the file, which is replaced when all is written
      --letters      letters as numbers, not as the signs a to z, hyphen and
                     apostrophe; so also if the word has numbers, or without a
                     word if the table has letters without a sign
  -h, --help         this text

Exit status: 0 if the graph is written, 1 if the word is not accepted, 2 if
something is refused or cannot be done.

Example:
  $ zagvirk dot table.txt abab | dot -Tsvg > abab.svg
";

const SYNTAX: Syntax = Syntax {
    flags: &["--letters"],
    values: &["-o", "--output"],
    needed: &["TABLE"],
    more: 1,
};

pub fn run(arguments: Arguments, out: &mut Output) -> Result<Status, Failure> {
    let arguments = arguments.parse(&SYNTAX)?;
    let sheet = Sheet::read(arguments.needed(0)?)?;
    let letters = sheet.machine.letters;
    let word = arguments
        .get(1)
        .map(|text| Word::read(text, letters, LONGEST_RECOGNIZED))
        .transpose()?;
    let spelling = spelling(&arguments, &sheet, word.as_ref());
    let Some(text) = drawn(&sheet, spelling, word.as_ref())
        .map_err(|refusal| Failure::refused(&sheet.name, refusal))?
    else {
        let name = &sheet.name;
        run::hint(&format!(
            "{name} does not accept the word, so there is no run to draw; 'zagvirk why' says why not"
        ));
        return Ok(Status::No);
    };
    let path = arguments.value("-o").or(arguments.value("--output"));
    output::write_file(path.unwrap_or(OsStr::new("-")), text.as_bytes(), out)?;
    Ok(Status::Yes)
}

/// The graph, with a run of the word if there is a word; nothing if the table does not accept it.
fn drawn(
    sheet: &Sheet,
    spelling: Spelling,
    word: Option<&Word>,
) -> Result<Option<String>, Refusal> {
    let Some(word) = word else {
        return graph(sheet.table(), spelling, None).map(Some);
    };
    let Some(run) = run::find(sheet.table(), &word.letters)? else {
        return Ok(None);
    };
    let drawn = Drawn {
        word: &word.letters,
        run: &run,
    };
    graph(sheet.table(), spelling, Some(drawn)).map(Some)
}

/// How the letters of the graph are shown.
fn spelling(arguments: &Parsed, sheet: &Sheet, word: Option<&Word>) -> Spelling {
    match (arguments.has("--letters"), word) {
        (true, _) => Spelling::Numbers,
        (false, Some(word)) => Spelling::of_word(word),
        (false, None) => Spelling::of_machine(&sheet.machine),
    }
}
