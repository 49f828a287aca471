//! The command `zagvirk`: spelling tables on the terminal, over the proved calls of the crate `zagvirk`.
//!
//! - [`main`]: finds the command by its name and runs it.
//! - [`commands`]: the commands, a module each.
//! - [`arguments`], [`input`], [`list`], [`output`], [`progress`], [`word`], [`written_run`]: what they take and write.
//! - [`status`]: how they end: 0 yes or good, 1 no, 2 refused or cannot.
//! - [`answers`]: the answers for the words of a list.
//! - [`locate`]: where the first fault of a sheet is.

pub mod answers;
pub mod arguments;
pub mod commands;
pub mod explain;
pub mod graph;
pub mod input;
pub mod list;
pub mod locate;
pub mod output;
pub mod progress;
pub mod sentences;
pub mod status;
pub mod word;
pub mod written_run;

use arguments::Arguments;
use output::Output;
use status::{Failure, Status};
use std::ffi::{OsStr, OsString};
use std::process::ExitCode;
use word::printable;

/// A command: its name, its help text and what it does.
#[derive(Clone, Copy)]
pub struct Command {
    pub name: &'static str,
    pub help: &'static str,
    run: fn(Arguments, &mut Output) -> Result<Status, Failure>,
}

/// All commands but `help`, in the order in which they are listed.
pub const COMMANDS: [Command; 10] = [
    Command {
        name: "check",
        help: commands::check::HELP,
        run: commands::check::run,
    },
    Command {
        name: "words",
        help: commands::words::HELP,
        run: commands::words::run,
    },
    Command {
        name: "run",
        help: commands::run::HELP,
        run: commands::run::run,
    },
    Command {
        name: "check-run",
        help: commands::check_run::HELP,
        run: commands::check_run::run,
    },
    Command {
        name: "page",
        help: commands::page::HELP,
        run: commands::page::run,
    },
    Command {
        name: "why",
        help: commands::why::HELP,
        run: commands::why::run,
    },
    Command {
        name: "common",
        help: commands::common::HELP,
        run: commands::common::run,
    },
    Command {
        name: "join",
        help: commands::join::HELP,
        run: commands::join::run,
    },
    Command {
        name: "show",
        help: commands::show::HELP,
        run: commands::show::run,
    },
    Command {
        name: "dot",
        help: commands::dot::HELP,
        run: commands::dot::run,
    },
];

/// The help text of the whole.
pub const HELP: &str = "\
Usage: zagvirk COMMAND ARGUMENT..

Checks spelling tables for languages that double words, and asks them.

  check TABLE..             are these sheets good, and else where not
  words TABLE [WORDS]       yes or no for each word of a list
  run TABLE WORD            how the table accepts a word
  check-run TABLE WORD RUN  whether a run accepts a word
  page TABLE WORD [RUN]     a run as columns of numbers, beside the sheet
  why TABLE WORD            why the table does not accept a word
  common TABLE PLAIN        a shortest word that two tables accept, or none
  join TABLE PLAIN          the sheet of the words that both accept
  show TABLE                a sheet as sentences
  dot TABLE [WORD]          a table as a Graphviz graph
  help [COMMAND]            this text, or that of a command

  -h, --help                the same; behind a command, its text
  -V, --version             the version

TABLE is the file of a sheet, '-' is standard input. A word is spelled (abab:
a to z are letters 1 to 26, hyphen 27, apostrophe 28) or has the numbers of its
letters ('1 2 1 2'). One that begins with a hyphen stands behind '--'.

Exit status: 0 yes or good, 1 no, 2 refused or cannot; 141, without a message,
if the output is closed before all is written.

Example:
  zagvirk words table.txt words.txt
";

/// Runs the command that the arguments name, writes its messages, and gives its exit status.
pub fn main(arguments: impl IntoIterator<Item = OsString>) -> ExitCode {
    let mut out = Output::standard();
    let result = dispatch(arguments.into_iter().collect(), &mut out);
    // What was written before a failure is good, so it goes out ahead of the message.
    let result = match (out.flush(), result) {
        (Ok(()), result) => result,
        (Err(_), Err(failure)) => Err(failure),
        (Err(failure), Ok(_)) => Err(failure),
    };
    if let Err(failure) = &result {
        output::report(failure);
    }
    status::exit(&result)
}

/// Runs the command that the first argument names.
fn dispatch(mut arguments: Vec<OsString>, out: &mut Output) -> Result<Status, Failure> {
    if arguments.is_empty() {
        return Err(Failure::Usage {
            command: None,
            what: "a command is missing".to_string(),
        });
    }
    let rest = arguments.split_off(1);
    let name = arguments
        .first()
        .map_or(OsStr::new(""), OsString::as_os_str);
    if name == "help" {
        return help(&rest, out);
    }
    if name == "--help" || name == "-h" {
        return print(HELP, out);
    }
    if name == "--version" || name == "-V" {
        return print(concat!("zagvirk ", env!("CARGO_PKG_VERSION"), "\n"), out);
    }
    let command = find(name)?;
    let arguments = Arguments::new(command.name, rest);
    if arguments.ask_for_help() {
        return print(command.help, out);
    }
    (command.run)(arguments, out)
}

/// The command of this name.
fn find(name: &OsStr) -> Result<&'static Command, Failure> {
    let found = COMMANDS.iter().find(|command| name == command.name);
    found.ok_or_else(|| Failure::Usage {
        command: None,
        what: match printable(&name.to_string_lossy()) {
            name if name.starts_with('-') => format!("there is no option {name}"),
            name => format!("there is no command '{name}'"),
        },
    })
}

/// `help` and `help COMMAND`.
fn help(rest: &[OsString], out: &mut Output) -> Result<Status, Failure> {
    match rest {
        [] => print(HELP, out),
        [name] if name == "help" || name == "--help" || name == "-h" => print(HELP, out),
        [name] => print(find(name)?.help, out),
        [_, extra, ..] => Err(Failure::Usage {
            command: None,
            what: format!(
                "help: '{}' is one argument too many",
                printable(&extra.to_string_lossy())
            ),
        }),
    }
}

fn print(text: &str, out: &mut Output) -> Result<Status, Failure> {
    out.bytes(text.as_bytes())?;
    Ok(Status::Yes)
}
