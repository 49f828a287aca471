//! `zagvirk words`: yes or no for each word of a list.

use crate::answers::{answer_all, Counts, Question, Refused, Wanted, NAMED};
use crate::arguments::{Arguments, Parsed, Syntax};
use crate::input::{self, Sheet, Source};
use crate::list::List;
use crate::output::{self, Output};
use crate::progress::{self, Progress};
use crate::status::{Failure, Status};
use crate::word::Form;
use std::io::{self, IsTerminal};

pub const HELP: &str = "\
Usage: zagvirk words [--letters] [--yes | --no] [--count] TABLE [WORDS]

Answers for each word of a list whether the table accepts it. The list is the
file WORDS, or standard input if it is missing or '-'. It has one word a line,
spelled (abab); an empty line is the empty word, and a last line without a line
end counts unless it is empty.

For each word it prints a line: the answer, a tab, the word as it was written.
The answer is 'yes' or 'no', or 'refused 8: ' and why for a word with a letter
that the table does not have, 'refused 9: ' and why for one of more than 255
letters (of which only the beginning is printed).

      --letters  words are numbers with blanks between them (1 2 1 2); a line
                 of 131,072 bytes or more is refused as too long
      --yes      print only the words that are accepted, without the answer
      --no       print only the words that are not accepted, without the answer
      --count    print the numbers of words instead: a line each for yes, no
                 and refused, or with --yes or --no that one number
  -h, --help     this text

With --yes, --no and --count the first ten words that are refused are named on
standard error.

Exit status: 0 if every word is accepted, 1 if some word is not, 2 if some word
is refused or the list cannot be read.

Example:
  $ printf 'abab\\nabba\\n' | zagvirk words table.txt
  yes\tabab
  no\tabba
";

const SYNTAX: Syntax = Syntax {
    flags: &["--letters", "--yes", "--no", "--count"],
    values: &[],
    needed: &["TABLE"],
    more: 1,
};

pub fn run(arguments: Arguments, out: &mut Output) -> Result<Status, Failure> {
    let arguments = arguments.parse(&SYNTAX)?;
    let only = only(&arguments)?;
    let table = arguments.needed(0)?;
    let words = input::or_standard_input(arguments.get(1));
    input::standard_input_once("words", &[table, &words])?;
    let sheet = Sheet::read(table)?;
    let source = Source::open(&words)?;
    let count = arguments.has("--count");
    // Somebody who types words, or who looks at the answers, need not wait for a whole part.
    let seen = io::stdin().is_terminal() || (io::stdout().is_terminal() && !count);
    let list = List::new(source, words == "-" && seen);
    let question = Question {
        sheet: &sheet,
        form: match arguments.has("--letters") {
            true => Form::Numbers,
            false => Form::Spelled,
        },
        wanted: match (count, only) {
            (true, _) => Wanted::Counts,
            (false, Some(yes)) => Wanted::Only(yes),
            (false, None) => Wanted::Answers,
        },
    };
    let counts = answer(&question, list, out)?;
    if count {
        print_counts(counts, only, out)?;
    }
    Ok(status(counts))
}

/// The answer that the words must have to be printed or counted, if not all are.
fn only(arguments: &Parsed) -> Result<Option<bool>, Failure> {
    match (arguments.has("--yes"), arguments.has("--no")) {
        (true, true) => Err(arguments.usage("give --yes or --no, not both")),
        (true, false) => Ok(Some(true)),
        (false, true) => Ok(Some(false)),
        (false, false) => Ok(None),
    }
}

/// Prints what is wanted of all words, names those that are refused where answers are not printed, and counts them.
fn answer(question: &Question, list: List, out: &mut Output) -> Result<Counts, Failure> {
    let name = list.name().to_string();
    let terminal = io::stdout().is_terminal();
    let mut progress = Progress::new();
    let mut counts = Counts::default();
    answer_all(question, list, |batch, list| {
        let printed = &batch.printed;
        if terminal || !printed.refused.is_empty() {
            progress.clear();
        }
        let still = NAMED.saturating_sub(counts.refused);
        for (refused, _) in printed.refused.iter().zip(0..still) {
            report_refused(&name, counts.words() + refused.line, refused);
        }
        counts.add(printed.counts);
        out.bytes(&printed.text)?;
        if terminal {
            out.flush()?;
        }
        let (read, size) = list.bytes();
        progress.show(|| progress::line(counts.words(), read, size));
        Ok(())
    })?;
    progress.clear();
    if question.wanted != Wanted::Answers && counts.refused > NAMED {
        let more = counts.refused - NAMED;
        output::hint(&format!("zagvirk: {name}: {more} more words are refused"));
    }
    Ok(counts)
}

/// Names a word that is refused on standard error.
fn report_refused(name: &str, line: u64, refused: &Refused) {
    output::report(&Failure::Refused {
        at: format!("{name}:{line}: word '{}'", refused.word),
        what: refused.why.clone(),
        refusal: refused.refusal,
    });
}

/// Prints the numbers of words with each answer, or with one.
fn print_counts(counts: Counts, only: Option<bool>, out: &mut Output) -> Result<(), Failure> {
    let Counts { yes, no, refused } = counts;
    match only {
        None => write!(out, "yes\t{yes}\nno\t{no}\nrefused\t{refused}\n"),
        Some(true) => writeln!(out, "{yes}"),
        Some(false) => writeln!(out, "{no}"),
    }
}

fn status(counts: Counts) -> Status {
    match (counts.refused, counts.no) {
        (0, 0) => Status::Yes,
        (0, _) => Status::No,
        _ => Status::Refused,
    }
}
