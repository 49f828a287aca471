//! The arguments of a command: positional ones and options.
//!
//! - `--name` is an option, `--name=value` or `--name value` one with a value; `-n` likewise, with `-n value`.
//! - `-` alone is positional: standard input in the place of a file.
//! - After `--` all arguments are positional, also those that begin with a hyphen.

use crate::status::Failure;
use crate::word::printable;
use std::ffi::{OsStr, OsString};
use std::os::unix::ffi::{OsStrExt, OsStringExt};

/// What a command takes.
#[derive(Clone, Copy, Debug)]
pub struct Syntax {
    /// The options without a value. An option has one entry for each of its names: `["-q", "--quiet"]` are two options.
    pub flags: &'static [&'static str],
    /// The options with a value.
    pub values: &'static [&'static str],
    /// The positional arguments that must be there, by the names of the help text.
    pub needed: &'static [&'static str],
    /// How many more there may be.
    pub more: usize,
}

/// The arguments of a command as they were given, without the command's name.
#[derive(Clone, Debug)]
pub struct Arguments {
    command: &'static str,
    given: Vec<OsString>,
}

impl Arguments {
    /// The arguments behind the name of the command.
    pub fn new(command: &'static str, given: Vec<OsString>) -> Arguments {
        Arguments { command, given }
    }

    /// Whether the help text is asked for.
    pub fn ask_for_help(&self) -> bool {
        self.given
            .iter()
            .take_while(|argument| *argument != "--")
            .any(|argument| argument == "--help" || argument == "-h")
    }

    /// The arguments by their kinds. Fails with an option that the syntax does not have, a value that is missing or not
    /// wanted, and a positional argument that is missing or too many.
    pub fn parse(self, syntax: &Syntax) -> Result<Parsed, Failure> {
        let mut parsed = Parsed {
            command: self.command,
            needed: syntax.needed,
            flags: Vec::new(),
            values: Vec::new(),
            positional: Vec::new(),
        };
        let mut given = self.given.into_iter();
        while let Some(argument) = given.next() {
            if argument == "--" {
                parsed.positional.extend(given);
                break;
            }
            if argument == "-" || !argument.as_bytes().starts_with(b"-") {
                parsed.positional.push(argument);
                continue;
            }
            let (name, value) = split(&argument);
            if let Some(&flag) = syntax.flags.iter().find(|&&flag| name == flag) {
                if value.is_some() {
                    return Err(parsed.usage(format!("option {flag} takes no value")));
                }
                parsed.flags.push(flag);
            } else if let Some(&option) = syntax.values.iter().find(|&&option| name == option) {
                let Some(value) = value.or_else(|| given.next()) else {
                    return Err(parsed.usage(format!("option {option} needs a value")));
                };
                parsed.values.push((option, value));
            } else {
                return Err(parsed.usage(format!(
                    "there is no option {} (behind -- an argument may begin with a hyphen)",
                    printable(&name.to_string_lossy())
                )));
            }
        }
        parsed.counted(syntax.more)
    }
}

/// The name of an option, and the value behind an equals sign.
fn split(argument: &OsStr) -> (&OsStr, Option<OsString>) {
    let bytes = argument.as_bytes();
    let mut parts = bytes.splitn(2, |&byte| byte == b'=');
    let name = parts.next().unwrap_or(bytes);
    let value = parts.next().map(|value| OsString::from_vec(value.to_vec()));
    (OsStr::from_bytes(name), value)
}

/// The arguments of a command by their kinds.
#[derive(Clone, Debug)]
pub struct Parsed {
    command: &'static str,
    needed: &'static [&'static str],
    flags: Vec<&'static str>,
    values: Vec<(&'static str, OsString)>,
    positional: Vec<OsString>,
}

impl Parsed {
    /// Fails unless as many positional arguments are there as the syntax says.
    fn counted(self, more: usize) -> Result<Parsed, Failure> {
        if let Some(missing) = self.needed.get(self.positional.len()) {
            return Err(self.usage(format!("{missing} is missing")));
        }
        let most = self.needed.len().saturating_add(more);
        match self.positional.get(most) {
            Some(extra) => Err(self.usage(format!(
                "'{}' is one argument too many",
                printable(&extra.to_string_lossy())
            ))),
            None => Ok(self),
        }
    }

    /// Whether the option is there.
    pub fn has(&self, flag: &str) -> bool {
        self.flags.contains(&flag)
    }

    /// The value of the option, the last if it is there more than once.
    pub fn value(&self, option: &str) -> Option<&OsStr> {
        let mut all = self.values.iter().rev();
        all.find(|(name, _)| *name == option)
            .map(|(_, value)| value.as_os_str())
    }

    /// All positional arguments.
    pub fn positional(&self) -> &[OsString] {
        &self.positional
    }

    /// A positional argument that may be missing, counted from 0.
    pub fn get(&self, index: usize) -> Option<&OsStr> {
        self.positional.get(index).map(OsString::as_os_str)
    }

    /// A positional argument that must be there, counted from 0.
    pub fn needed(&self, index: usize) -> Result<&OsStr, Failure> {
        self.get(index).ok_or_else(|| {
            let name = self.needed.get(index).copied().unwrap_or("an argument");
            self.usage(format!("{name} is missing"))
        })
    }

    /// The failure of this command for arguments that are not as its help text says.
    pub fn usage(&self, what: impl Into<String>) -> Failure {
        Failure::Usage {
            command: Some(self.command),
            what: what.into(),
        }
    }
}

#[cfg(test)]
mod tests {
    use super::*;

    const SYNTAX: Syntax = Syntax {
        flags: &["--count"],
        values: &["-o"],
        needed: &["TABLE"],
        more: 1,
    };

    fn parse(given: &[&str]) -> Result<Parsed, String> {
        let given = given.iter().map(OsString::from).collect();
        Arguments::new("words", given)
            .parse(&SYNTAX)
            .map_err(|failure| failure.to_string())
    }

    #[test]
    fn kinds() {
        let parsed = parse(&["--count", "-", "-o", "file", "--", "--count"]).unwrap();
        assert!(parsed.has("--count"));
        assert_eq!(parsed.value("-o"), Some(OsStr::new("file")));
        assert_eq!(parsed.positional(), ["-", "--count"]);
        let parsed = parse(&["-o=a=b", "table", "-o="]).unwrap();
        assert_eq!(parsed.value("-o"), Some(OsStr::new("")));
        assert!(!parsed.has("--count"));
        assert_eq!(parsed.get(1), None);
    }

    #[test]
    fn failures() {
        for (given, what) in [
            (&[][..], "words: TABLE is missing"),
            (&["a", "b", "c"], "words: 'c' is one argument too many"),
            (&["--count=1", "a"], "words: option --count takes no value"),
            (&["a", "-o"], "words: option -o needs a value"),
            (&["a", "--c"], "words: there is no option --c "),
            (&["a", "-count"], "words: there is no option -count "),
        ] {
            let failure = parse(given).unwrap_err();
            assert!(failure.starts_with(what), "{failure}");
        }
    }
}
