//! How a command ends: with an answer ([`Status`]) or without one ([`Failure`]).

use std::fmt::{self, Display, Formatter};
use std::process::ExitCode;
use zagvirk::Refusal;

/// The answer of a command as its exit status.
#[derive(Clone, Copy, PartialEq, Eq, Debug)]
pub enum Status {
    /// 0: yes, good.
    Yes,
    /// 1: no.
    No,
    /// 2: a part of the input was turned down, and the command has said which and why.
    Refused,
}

impl Status {
    /// The exit status.
    pub fn code(self) -> u8 {
        match self {
            Status::Yes => 0,
            Status::No => 1,
            Status::Refused => 2,
        }
    }
}

impl From<bool> for Status {
    fn from(yes: bool) -> Status {
        if yes {
            Status::Yes
        } else {
            Status::No
        }
    }
}

/// Why a command ends without an answer.
#[derive(Clone, PartialEq, Eq, Debug)]
pub enum Failure {
    /// The command line is not as the help text says.
    Usage {
        /// The command whose help text says how, if it is known.
        command: Option<&'static str>,
        /// What is wrong.
        what: String,
    },
    /// The input is turned down.
    Refused {
        /// Where: the file and line, or the word.
        at: String,
        /// What stands there and what was wanted.
        what: String,
        /// The number of the refusal.
        refusal: u8,
    },
    /// Something else cannot be done: a file is not there, a disk is full.
    Cannot(String),
    /// Whoever read the output has closed it.
    Closed,
}

impl Failure {
    /// A refusal of the library, at the place.
    pub fn refused(at: impl Into<String>, refusal: Refusal) -> Failure {
        let text = refusal.to_string();
        let named = format!("refusal {}: ", refusal.number());
        Failure::Refused {
            at: at.into(),
            what: text.strip_prefix(&named).unwrap_or(&text).to_string(),
            refusal: refusal.number(),
        }
    }

    /// A run that does not accept, as the sentence says, where something is wanted that only an accepting one has.
    pub fn not_accepting(wanted: &str, sentence: &str) -> Failure {
        Failure::Refused {
            at: "run".to_string(),
            what: format!("it has no {wanted}, for it does not accept: {sentence}"),
            refusal: Refusal::NotAccepting.number(),
        }
    }

    /// The exit status: 2, and for a closed output 141, which a shell gives for a filter that ends at a closed pipe. It is
    /// not 0, which would say yes for input that was not looked at.
    pub fn code(&self) -> u8 {
        match self {
            Failure::Closed => 141,
            _ => 2,
        }
    }

    /// The message for standard error, with the line end; nothing for a closed output.
    pub fn message(&self) -> Option<String> {
        match self {
            Failure::Closed => None,
            // As compilers write it, so that editors find the place.
            Failure::Refused { .. } => Some(format!("{self}\n")),
            Failure::Usage { .. } | Failure::Cannot(_) => Some(format!("zagvirk: {self}\n")),
        }
    }
}

impl Display for Failure {
    fn fmt(&self, f: &mut Formatter<'_>) -> fmt::Result {
        match self {
            Failure::Usage {
                command: Some(command),
                what,
            } => write!(
                f,
                "{command}: {what}\nTry 'zagvirk help {command}' for how it is used."
            ),
            Failure::Usage {
                command: None,
                what,
            } => write!(f, "{what}\nTry 'zagvirk help' for the commands."),
            Failure::Refused { at, what, refusal } => write!(f, "{at}: {what} (refusal {refusal})"),
            Failure::Cannot(what) => f.write_str(what),
            Failure::Closed => f.write_str("the output is closed"),
        }
    }
}

impl std::error::Error for Failure {}

/// The exit status of a command.
pub fn exit(result: &Result<Status, Failure>) -> ExitCode {
    ExitCode::from(match result {
        Ok(status) => status.code(),
        Err(failure) => failure.code(),
    })
}
