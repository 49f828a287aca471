//! `zagvirk check-run`: whether a run accepts a word, and else the first entry that is not allowed and why.

use crate::arguments::{Arguments, Syntax};
use crate::explain;
use crate::input::{self, Sheet};
use crate::output::Output;
use crate::sentences::Spelling;
use crate::status::{Failure, Status};
use crate::word::Word;
use crate::written_run;
use zagvirk::recognize::LONGEST_RECOGNIZED;
use zagvirk::LONGEST_WORD;

pub const HELP: &str = "\
Usage: zagvirk check-run [--copies] TABLE WORD RUN

Prints 'yes' if the run accepts the word; else 'no' with the first entry that
is not allowed and why, or with what the run lacks at its end.

TABLE is the file of a sheet. The word is spelled (abab) or has the numbers of
its letters ('1 2 1 2'), at most 1048576. RUN is '@FILE' for a file, '-' for
standard input, or the numbers themselves with blanks between them: the start
state, then an entry a move, which is the number of a transition, counted from
0, or 65533 (begin storing), 65534 (begin matching), 65535 (back to normal).
'zagvirk run --raw' prints a run so.

      --copies  print what an accepting run copies, without copies of no
                letters; one that does not accept is refused (14), and words
                have at most 255 letters
  -h, --help    this text

Exit status: 0 if the run accepts, 1 if it does not, 2 if something is refused
or cannot be done.

Example:
  $ zagvirk check-run table.txt abab '0 65533 0 2 3 1 65534 65535'
  no: entry 7, back to normal, is not allowed: 2 letters are left to match
";

const SYNTAX: Syntax = Syntax {
    flags: &["--copies"],
    values: &[],
    needed: &["TABLE", "WORD", "RUN"],
    more: 0,
};

/// The most entries of a run that is read, so that no file takes more memory than this.
const MOST_ENTRIES: usize = 1 << 26;

pub fn run(arguments: Arguments, out: &mut Output) -> Result<Status, Failure> {
    let arguments = arguments.parse(&SYNTAX)?;
    let copies = arguments.has("--copies");
    let (path, given) = (arguments.needed(0)?, arguments.needed(2)?);
    input::standard_input_once(
        "check-run",
        &[path, written_run::file(given).unwrap_or(given)],
    )?;
    let sheet = Sheet::read(path)?;
    let longest = match copies {
        true => LONGEST_RECOGNIZED,
        false => LONGEST_WORD,
    };
    let word = Word::read(arguments.needed(1)?, sheet.machine.letters, longest)?;
    let run = written_run::read(given, MOST_ENTRIES, |name| {
        Failure::Cannot(format!(
            "{name}: the run has more than {MOST_ENTRIES} entries"
        ))
    })?;
    let spelling = Spelling::of_word(&word);
    let refused = |refusal| Failure::refused(&sheet.name, refusal);
    let fault = explain::fault(sheet.table(), &word.letters, &run).map_err(refused)?;
    if let Some(fault) = fault {
        return not_accepting(&fault.sentence(sheet.table(), spelling), copies, out);
    }
    writeln!(out, "yes")?;
    if copies {
        let copies = explain::copies(sheet.table(), &word.letters, &run, spelling);
        for line in copies.map_err(refused)? {
            writeln!(out, "{line}")?;
        }
    }
    Ok(Status::Yes)
}

/// The answer for a run that does not accept: no, or if its copies are wanted that they are refused.
fn not_accepting(sentence: &str, copies: bool, out: &mut Output) -> Result<Status, Failure> {
    if copies {
        return Err(Failure::not_accepting("copy list", sentence));
    }
    writeln!(out, "no: {sentence}")?;
    Ok(Status::No)
}
