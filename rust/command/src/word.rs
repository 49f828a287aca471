//! Words: spelled (`abab`) or as numbers (`1 2 1 2`), and why one is turned down.
//!
//! - [`Form`]: how a word is written.
//! - [`Word`]: the letters of an argument.
//! - [`Fault`]: the first fault of a word, with the number that the library refuses it by.
//! - [`spell`]: letters as text.

use crate::status::Failure;
use std::ffi::OsStr;
use std::fmt::{self, Display, Formatter};
use std::os::unix::ffi::OsStrExt;
use std::sync::OnceLock;
use zagvirk::spelling;

/// A word is shown by so many of its bytes in a message.
const SHOWN: usize = 40;

/// The letters of all bytes, and the signs of all letters.
struct Signs {
    /// For each byte its letter, or 0. No word may have letter 0, so the library refuses a word with such a byte as it
    /// would refuse the byte.
    letters: [u8; 256],
    /// For each letter its sign, if it has one.
    signs: [Option<char>; 256],
}

/// The signs as the library translates them, found once.
fn signs() -> &'static Signs {
    static SIGNS: OnceLock<Signs> = OnceLock::new();
    SIGNS.get_or_init(|| {
        let mut found = Signs {
            letters: [0; 256],
            signs: [None; 256],
        };
        for byte in 0..=u8::MAX {
            let mut word = [0];
            if spelling::translate(&[byte], &mut word).is_ok() {
                found.letters[usize::from(byte)] = word[0];
                found.signs[usize::from(word[0])] = Some(char::from(byte));
            }
        }
        found
    })
}

/// The sign that a letter is spelled by, if there is one.
pub fn sign(letter: u8) -> Option<char> {
    signs().signs[usize::from(letter)]
}

/// Letters as text: as signs if the word was spelled and each letter has one, else as numbers with blanks between them.
pub fn spell(letters: &[u8], spelled: bool) -> String {
    let signs: Option<String> = letters.iter().map(|&letter| sign(letter)).collect();
    match signs {
        Some(signs) if spelled => signs,
        _ => {
            let numbers: Vec<String> = letters.iter().map(u8::to_string).collect();
            numbers.join(" ")
        }
    }
}

/// How a word is written.
#[derive(Clone, Copy, PartialEq, Eq, Debug)]
pub enum Form {
    /// A sign a letter: a to z, hyphen, apostrophe.
    Spelled,
    /// The letters' numbers with blanks between them.
    Numbers,
}

impl Form {
    /// The form of an argument: numbers if it has nothing but digits and blanks. The empty one is spelled.
    pub fn of(text: &[u8]) -> Form {
        let number = |byte: &u8| byte.is_ascii_digit() || is_blank(*byte);
        match !text.is_empty() && text.iter().all(number) {
            true => Form::Numbers,
            false => Form::Spelled,
        }
    }

    /// Appends the letters of the text. What has no letter is 0.
    pub fn translate(self, text: &[u8], letters: &mut Vec<u8>) {
        match self {
            Form::Spelled => {
                let of_byte = &signs().letters;
                letters.extend(text.iter().map(|&byte| of_byte[usize::from(byte)]));
            }
            Form::Numbers => letters.extend(numbers(text).map(number_of)),
        }
    }

    /// The first fault of the word for a table of so many letters, where at most `longest` may be in a word.
    pub fn fault(self, text: &[u8], letters: usize, longest: usize) -> Option<Fault> {
        let mut word = Vec::new();
        self.translate(text, &mut word);
        if word.len() > longest {
            return Some(Fault::TooLong {
                letters: word.len(),
                longest,
            });
        }
        let there = |&letter: &u8| letter != 0 && usize::from(letter) <= letters;
        let place = word.iter().position(|letter| !there(letter))?;
        let letter = word.get(place).copied().unwrap_or(0);
        Some(match self {
            Form::Spelled => Fault::Sign {
                place: place + 1,
                sign: character(text.get(place..).unwrap_or_default()),
                letter,
                letters,
            },
            Form::Numbers => Fault::Number {
                place: place + 1,
                text: shown(numbers(text).nth(place).unwrap_or_default()),
                letters,
            },
        })
    }
}

fn is_blank(byte: u8) -> bool {
    byte == b' ' || byte == b'\t'
}

/// The parts of the text between blanks.
fn numbers(text: &[u8]) -> impl Iterator<Item = &[u8]> {
    text.split(|&byte| is_blank(byte))
        .filter(|part| !part.is_empty())
}

/// The number, or 0 if it is none or above 255.
fn number_of(text: &[u8]) -> u8 {
    let mut number = 0_u8;
    for &byte in text {
        let digit = match byte {
            b'0'..=b'9' => byte - b'0',
            _ => return 0,
        };
        match number.checked_mul(10).and_then(|n| n.checked_add(digit)) {
            Some(next) => number = next,
            None => return 0,
        }
    }
    number
}

/// The first character of the text as it is shown in a message, or its byte if it is none.
fn character(text: &[u8]) -> String {
    let start = text.get(..text.len().min(4)).unwrap_or_default();
    let valid = match std::str::from_utf8(start) {
        Ok(valid) => valid,
        Err(error) => std::str::from_utf8(start.get(..error.valid_up_to()).unwrap_or_default())
            .unwrap_or_default(),
    };
    match (valid.chars().next(), text.first()) {
        (Some(sign), _) if !sign.is_control() => format!("'{sign}'"),
        (Some('\r'), _) => "a carriage return".to_string(),
        (Some('\t'), _) => "a tab".to_string(),
        (_, Some(byte)) => format!("byte {byte}"),
        (_, None) => "nothing".to_string(),
    }
}

/// The text as it is shown in a message: its beginning, without bytes that a terminal would obey.
pub fn shown(text: &[u8]) -> String {
    let start = text.get(..text.len().min(SHOWN)).unwrap_or_default();
    let printable = printable(&String::from_utf8_lossy(start));
    match text.len() > SHOWN {
        true => format!("{printable}..."),
        false => printable,
    }
}

/// The text with control characters as escapes.
pub fn printable(text: &str) -> String {
    let mut printable = String::new();
    for sign in text.chars() {
        match sign.is_control() {
            true => printable.extend(sign.escape_default()),
            false => printable.push(sign),
        }
    }
    printable
}

/// The first fault of a word.
#[derive(Clone, PartialEq, Eq, Debug)]
pub enum Fault {
    /// Refusal 9: more letters than are allowed.
    TooLong { letters: usize, longest: usize },
    /// Refusal 8: a sign that has no letter (`letter` is 0) or whose letter the table does not have. Places count from 1.
    Sign {
        place: usize,
        sign: String,
        letter: u8,
        letters: usize,
    },
    /// Refusal 8: what is no number, or is not the number of a letter of the table.
    Number {
        place: usize,
        text: String,
        letters: usize,
    },
}

impl Fault {
    /// The number of the refusal.
    pub fn refusal(&self) -> u8 {
        match self {
            Fault::TooLong { .. } => 9,
            Fault::Sign { .. } | Fault::Number { .. } => 8,
        }
    }
}

impl Display for Fault {
    fn fmt(&self, f: &mut Formatter<'_>) -> fmt::Result {
        match self {
            Fault::TooLong { letters, longest } => {
                write!(f, "{letters} letters, at most {longest} are allowed")
            }
            Fault::Sign {
                place,
                sign,
                letter: 0,
                ..
            } => write!(
                f,
                "letter {place}: {sign} is none of a to z, hyphen and apostrophe"
            ),
            Fault::Sign {
                place,
                sign,
                letter,
                letters,
            } => write!(
                f,
                "letter {place}: {sign} is letter number {letter}, the table has {}",
                letters_named(*letters)
            ),
            Fault::Number {
                place,
                text,
                letters,
            } => write!(
                f,
                "letter {place}: '{text}' is not the number of a letter, the table has {}",
                letters_named(*letters)
            ),
        }
    }
}

/// Which letters a table has.
fn letters_named(letters: usize) -> String {
    let last = u8::try_from(letters).ok().and_then(sign);
    match (letters, last) {
        (0, _) => "no letters".to_string(),
        (1, _) => "letter 1 (a) only".to_string(),
        (_, Some(last @ 'b'..='z')) => format!("1 to {letters} (a to {last})"),
        _ => format!("1 to {letters}"),
    }
}

/// A word from the command line.
#[derive(Clone, PartialEq, Eq, Debug)]
pub struct Word {
    pub letters: Vec<u8>,
    /// Whether it was spelled, so that it is shown so again.
    pub spelled: bool,
}

impl Word {
    /// The word of an argument, for a table of so many letters, where at most `longest` may be in a word. Fails with the
    /// fault that the library would refuse it for.
    pub fn read(text: &OsStr, letters: usize, longest: usize) -> Result<Word, Failure> {
        let text = text.as_bytes();
        let form = Form::of(text);
        if let Some(fault) = form.fault(text, letters, longest) {
            return Err(Failure::Refused {
                at: format!("word '{}'", shown(text)),
                what: fault.to_string(),
                refusal: fault.refusal(),
            });
        }
        let mut word = Vec::new();
        form.translate(text, &mut word);
        Ok(Word {
            letters: word,
            spelled: form == Form::Spelled,
        })
    }

    /// A letter as this word's letters are shown.
    pub fn spell_letter(&self, letter: u8) -> String {
        spell(&[letter], self.spelled)
    }

    /// Letters as this word's letters are shown.
    pub fn spell(&self, letters: &[u8]) -> String {
        spell(letters, self.spelled)
    }
}

impl Display for Word {
    fn fmt(&self, f: &mut Formatter<'_>) -> fmt::Result {
        f.write_str(&self.spell(&self.letters))
    }
}
