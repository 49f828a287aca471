//! A run as an argument: `@FILE` for a file, `-` for standard input, or the numbers themselves.
//!
//! - [`file`]: the file that the argument names.
//! - [`read`]: its entries.

use crate::input::{self, Source};
use crate::status::Failure;
use crate::word::shown;
use std::ffi::OsStr;
use std::os::unix::ffi::OsStrExt;

/// How many bytes of a file are read at once.
const PART: usize = 1 << 16;
/// A number in a run has at most so many digits that are kept; the longest that may stand there has five.
const MOST_DIGITS: usize = 64;

/// The file that an argument names for the run; none if it is the run itself.
pub fn file(given: &OsStr) -> Option<&OsStr> {
    match given.as_bytes() {
        b"-" => Some(given),
        [b'@', path @ ..] => Some(OsStr::from_bytes(path)),
        _ => None,
    }
}

/// The name of the run for messages.
fn name(given: &OsStr) -> String {
    file(given).map_or("run".to_string(), input::name)
}

/// The run of an argument. Of more than `most` entries it is not read further; the failure is then made of its name.
pub fn read(
    given: &OsStr,
    most: usize,
    too_many: impl FnOnce(String) -> Failure,
) -> Result<Vec<u16>, Failure> {
    let run = read_at_most(given, most + 1)?;
    match run.len() > most {
        true => Err(too_many(name(given))),
        false => Ok(run),
    }
}

/// The run of an argument; of more than `most` entries the first `most`.
fn read_at_most(given: &OsStr, most: usize) -> Result<Vec<u16>, Failure> {
    let mut reader = Reader::new(name(given), most);
    let Some(path) = file(given) else {
        reader.take(given.as_bytes())?;
        return reader.finish();
    };
    let mut source = Source::open(path)?;
    let mut part = vec![0; PART];
    while !reader.is_full() {
        let read = source.read(&mut part)?;
        if read == 0 {
            break;
        }
        reader.take(part.get(..read).unwrap_or_default())?;
    }
    reader.finish()
}

/// Reads the numbers of a run, a part of the text at a time.
struct Reader {
    /// The name of the run for messages.
    name: String,
    most: usize,
    run: Vec<u16>,
    /// The number that is begun.
    begun: Vec<u8>,
}

impl Reader {
    fn new(name: String, most: usize) -> Reader {
        Reader {
            name,
            most,
            run: Vec::new(),
            begun: Vec::new(),
        }
    }

    /// Whether as many entries are read as are wanted.
    fn is_full(&self) -> bool {
        self.run.len() >= self.most
    }

    /// Takes the next part of the text, as far as entries are wanted.
    fn take(&mut self, text: &[u8]) -> Result<(), Failure> {
        for &byte in text {
            if self.is_full() {
                break;
            }
            if !byte.is_ascii_whitespace() {
                self.begun.push(byte);
                // Longer than any number, so what is kept of it is enough for the message.
                if self.begun.len() > MOST_DIGITS {
                    self.end_number()?;
                }
            } else if !self.begun.is_empty() {
                self.end_number()?;
            }
        }
        Ok(())
    }

    /// Ends the number that is begun.
    fn end_number(&mut self) -> Result<(), Failure> {
        let digits = self.begun.iter().all(u8::is_ascii_digit);
        let text = String::from_utf8_lossy(&self.begun);
        // `parse` takes a sign ahead of the digits, which a run does not have.
        let number = match digits {
            true => text.parse::<u16>().ok(),
            false => None,
        };
        let Some(number) = number else {
            return Err(Failure::Cannot(format!(
                "{}: entry {}: '{}' is not a number from 0 to 65535 (a run has such numbers with blanks between \
                 them; '@FILE' reads it from a file)",
                self.name,
                self.run.len(),
                shown(&self.begun)
            )));
        };
        self.run.push(number);
        self.begun.clear();
        Ok(())
    }

    /// The run, at the end of the text.
    fn finish(mut self) -> Result<Vec<u16>, Failure> {
        if !self.begun.is_empty() {
            self.end_number()?;
        }
        Ok(self.run)
    }
}

#[cfg(test)]
mod tests {
    use super::*;

    /// More entries than any run of the tests has.
    const MANY: usize = 1_000;

    #[test]
    fn runs_are_read_in_parts() {
        let text = b" 0 65533\n0\t2 \r\n 65535";
        for size in 1..=text.len() {
            for most in 0..=7 {
                let mut reader = Reader::new("run".to_string(), most);
                for part in text.chunks(size) {
                    reader.take(part).unwrap();
                }
                let run = [0, 65_533, 0, 2, 65_535];
                assert_eq!(reader.finish().unwrap(), run[..most.min(5)]);
            }
        }
        let read = |text: &str| read_at_most(OsStr::new(text), MANY);
        assert_eq!(read(""), Ok(vec![]));
        assert_eq!(read("  "), Ok(vec![]));
        assert_eq!(read("007"), Ok(vec![7]));
        // What stands behind the entries that are wanted is not looked at.
        assert_eq!(read_at_most(OsStr::new("7 8 x"), 2), Ok(vec![7, 8]));
    }

    #[test]
    fn what_is_no_run() {
        let long = "1".repeat(1000);
        for text in ["65536", "0 x", "0,1", "+1", "-1", "0 1.5", "0x1", &long] {
            let failure = read_at_most(OsStr::new(text), MANY)
                .unwrap_err()
                .to_string();
            assert!(
                failure.contains("is not a number from 0 to 65535"),
                "{failure}"
            );
            assert!(failure.len() < 250, "{failure}");
        }
    }

    #[test]
    fn names() {
        for (given, name_of_it) in [("0 1", "run"), ("@a/b", "a/b"), ("-", "(standard input)")] {
            assert_eq!(name(OsStr::new(given)), name_of_it);
        }
    }
}
