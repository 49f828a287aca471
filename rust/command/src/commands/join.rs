//! `zagvirk join`: the sheet of the words that a table and a plain one both accept. What two tables are refused for is here
//! for `zagvirk common` too.

use crate::arguments::{Arguments, Syntax};
use crate::input::{self, Sheet, MOST_SHEET_BYTES};
use crate::output::{self, Output};
use crate::sentences::{counted, transitions};
use crate::status::{Failure, Status};
use std::ffi::OsStr;
use zagvirk::{product, sheet, Refusal, Table, BUFFERING, MATCHING};

pub const HELP: &str = "\
Usage: zagvirk join [-o FILE] TABLE PLAIN

Writes the sheet of the joined table, which accepts the words that both tables
accept. PLAIN has no marks 4 and 8 and no letter 0; both have the same letters.
State i of TABLE with state j of PLAIN is i x (states of PLAIN) + j.

TABLE and PLAIN are files of sheets, one of them may be '-', standard input.

  -o, --output FILE  write to the file, which is replaced when all is written
  -h, --help         this text

Exit status: 0 if it is written, 2 if the tables are refused or it cannot be.

Example:
  $ zagvirk join table.txt some-two.txt -o joined.txt
";

const SYNTAX: Syntax = Syntax {
    flags: &[],
    values: &["-o", "--output"],
    needed: &["TABLE", "PLAIN"],
    more: 0,
};

/// The most transitions of a table.
const MOST_TRANSITIONS: usize = 4_000;
/// The most states of a table.
const MOST_STATES: usize = 64;

pub fn run(arguments: Arguments, out: &mut Output) -> Result<Status, Failure> {
    let arguments = arguments.parse(&SYNTAX)?;
    let (first, second) = read_two("join", arguments.needed(0)?, arguments.needed(1)?)?;
    let bytes = joined(first.table(), second.table())
        .map_err(|refusal| refused(&first, &second, refusal))?;
    let path = arguments.value("-o").or(arguments.value("--output"));
    output::write_file(path.unwrap_or(OsStr::new("-")), &bytes, out)?;
    Ok(Status::Yes)
}

/// The two sheets of a command.
pub fn read_two(
    command: &'static str,
    first: &OsStr,
    second: &OsStr,
) -> Result<(Sheet, Sheet), Failure> {
    input::standard_input_once(command, &[first, second])?;
    Ok((Sheet::read(first)?, Sheet::read(second)?))
}

/// The sheet of the joined table.
fn joined(first: Table, second: Table) -> Result<Vec<u8>, Refusal> {
    let mut list = vec![0; 3 * MOST_TRANSITIONS];
    let machine = product::join(first, second, &mut list)?;
    let mut bytes = vec![0; MOST_SHEET_BYTES];
    let length = sheet::write(Table::new(&machine, &list), &mut bytes)?;
    bytes.truncate(length);
    Ok(bytes)
}

/// The failure for two tables that are refused: what is wrong with them and where.
pub fn refused(first: &Sheet, second: &Sheet, refusal: Refusal) -> Failure {
    let found = match refusal {
        Refusal::NotPlain => not_plain(first, second),
        Refusal::LettersDiffer => Some(letters_differ(first, second)),
        Refusal::TooManyStates => Some(too_many_states(first, second)),
        Refusal::TooManyTransitions => Some(too_many_transitions(first, second)),
        _ => None,
    };
    let both = format!("{}, {}", first.name, second.name);
    match found {
        Some((at, what)) => Failure::Refused {
            at,
            what,
            refusal: refusal.number(),
        },
        None => Failure::refused(both, refusal),
    }
}

/// The first mark of the second table that a plain one does not have, or else the first transition that reads nothing:
/// where it stands and what it is.
fn not_plain(first: &Sheet, second: &Sheet) -> Option<(String, String)> {
    let (line, what) = fault_of_plain(second)?;
    let order = match fault_of_plain(first) {
        Some(_) => String::new(),
        None => format!(
            "; {} is plain, so give the two in the other order",
            first.name
        ),
    };
    let at = format!("{}:{line}: column 2", second.name);
    Some((
        at,
        format!("{what}, and the second table must be plain{order}"),
    ))
}

/// The line of what keeps a table from being plain, and what stands there.
fn fault_of_plain(sheet: &Sheet) -> Option<(usize, String)> {
    let machine = &sheet.machine;
    let marks = machine.marks.iter().take(machine.states).enumerate();
    for (state, mark) in marks {
        let role = match mark & (BUFFERING | MATCHING) {
            0 => continue,
            BUFFERING => "4, buffering",
            _ => "8, matching",
        };
        return Some((state + 2, format!("state {state} has mark {mark} ({role})")));
    }
    let mut numbered = transitions(sheet.table()).enumerate();
    let (number, (from, _, to)) = numbered.find(|(_, (_, letter, _))| *letter == 0)?;
    let line = machine.states + number + 2;
    Some((
        line,
        format!("transition {number} ({from} → {to}) reads nothing"),
    ))
}

fn letters_differ(first: &Sheet, second: &Sheet) -> (String, String) {
    let at = format!("{}:1: column 2", second.name);
    let what = format!(
        "{}, and {} has {}; both tables must have the same letters",
        counted(second.machine.letters, "letter"),
        first.name,
        first.machine.letters
    );
    (at, what)
}

fn too_many_states(first: &Sheet, second: &Sheet) -> (String, String) {
    let at = format!("{}, {}", first.name, second.name);
    let (of_first, of_second) = (first.machine.states, second.machine.states);
    let what = format!(
        "{of_first} x {of_second} = {} joined states, at most {MOST_STATES} are allowed; use smaller tables",
        of_first * of_second
    );
    (at, what)
}

fn too_many_transitions(first: &Sheet, second: &Sheet) -> (String, String) {
    let at = format!("{}, {}", first.name, second.name);
    let what = format!(
        "{} joined transitions, at most {MOST_TRANSITIONS} are allowed; use smaller tables",
        joined_transitions(first.table(), second.table())
    );
    (at, what)
}

/// The number of transitions of the joined table: those of the first that read nothing, for each state of the second, and
/// for each letter those of the first times those of the second.
fn joined_transitions(first: Table, second: Table) -> usize {
    let (of_first, of_second) = (by_letter(first), by_letter(second));
    let letters = of_first.iter().zip(&of_second).skip(1);
    let reading: usize = letters.map(|(first, second)| first * second).sum();
    of_first[0] * second.machine.states + reading
}

/// How many transitions the table has by each letter.
fn by_letter(table: Table) -> [usize; 256] {
    let mut counts = [0; 256];
    for (_, letter, _) in transitions(table) {
        if let Some(count) = counts.get_mut(usize::from(letter)) {
            *count += 1;
        }
    }
    counts
}

#[cfg(test)]
mod tests {
    use super::*;
    use zagvirk::Machine;

    /// The number of joined transitions is that of the library, also of those that read nothing.
    #[test]
    fn joined_transitions_are_counted() {
        let t = Machine::new(2, 6, &[5, 0, 10]);
        let t = Table::new(&t, &[0, 0, 1, 1, 0, 2, 1, 1, 1, 1, 2, 1, 2, 1, 2, 2, 2, 2]);
        let odd = Machine::new(2, 4, &[1, 2]);
        let two = Machine::new(2, 3, &[1, 0, 2]);
        for second in [
            Table::new(&odd, &[0, 1, 1, 0, 2, 0, 1, 1, 0, 1, 2, 1]),
            Table::new(&two, &[0, 1, 1, 0, 1, 2, 1, 2, 2]),
        ] {
            let mut list = vec![0; 300];
            let joined = product::join(t, second, &mut list).unwrap();
            assert_eq!(joined_transitions(t, second), joined.transitions);
        }
    }
}
