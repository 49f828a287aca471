//! The listing in plain Rust, written for speed: the same bytes as the proved program.

use crate::plain_decide::{Decision, Word, LONGEST};
use crate::plain_sheet;
use std::io::{Read, Result, Write};

/// The bytes of a column.
const COLUMN: usize = 5;
/// The most bytes of a word's line.
const LONGEST_LINE: usize = COLUMN * LONGEST;
/// The most words that are listed.
pub const MOST_WORDS: usize = 99_999;
/// The bytes that are read and written at once.
const PIECE: usize = 1 << 16;
/// No digit.
const BAD: u8 = 100;
/// The value of a byte as the last of a column, and as the last but one; `BAD` where it is none.
const ONES: [u8; 256] = digits(1, BAD);
const TENS: [u8; 256] = digits(10, 0);

/// The values of the digits, each so many times; that of a space.
const fn digits(times: u8, space: u8) -> [u8; 256] {
    let mut values = [BAD; 256];
    let mut digit = 0;
    while digit < 10 {
        values[(b'0' + digit) as usize] = times * digit;
        digit += 1;
    }
    // In the last column but one a digit 0 stands only behind another digit.
    if times == 10 {
        values[b'0' as usize] = BAD;
    }
    values[b' ' as usize] = space;
    values
}

/// What a line at the front of some bytes is.
enum Line {
    /// A word, and the bytes up to the line's end.
    Word(usize),
    /// No word.
    Other,
    /// Not all of it is there.
    Cut,
}

/// A line of the listing; the words are counted in it.
struct Printed([u8; 16]);

impl Printed {
    fn new() -> Printed {
        Printed(*b"    0    0    0\n")
    }

    /// The line of the next word.
    fn next(&mut self, answer: u8, refusal: u8) -> &[u8; 16] {
        for byte in self.0[..COLUMN].iter_mut().rev() {
            match *byte {
                b'9' => *byte = b'0',
                b' ' => {
                    *byte = b'1';
                    break;
                }
                _ => {
                    *byte += 1;
                    break;
                }
            }
        }
        self.0[9] = b'0' + answer;
        self.0[14] = b'0' + refusal;
        &self.0
    }
}

struct Lister {
    letters: usize,
    decision: Decision,
    word: Word,
    words: usize,
    printed: Printed,
    out: Vec<u8>,
}

impl Lister {
    /// Reads the line at the front of the bytes as a word.
    fn read_line(&mut self, bytes: &[u8]) -> Line {
        let mut at = 0;
        for place in 0..=LONGEST {
            let Some(column) = bytes.get(at..at + COLUMN) else {
                return match line_end(&bytes[at..]) {
                    Some(0) => self.word_of(place, at),
                    Some(_) => Line::Other,
                    None => Line::Cut,
                };
            };
            if column[0] == b'\n' {
                return self.word_of(place, at);
            }
            let Some(letter) = letter(column).filter(|&letter| letter - 1 < self.letters) else {
                return Line::Other;
            };
            self.word.letters[place] = letter as u8;
            at += COLUMN;
        }
        Line::Other
    }

    fn word_of(&mut self, letters: usize, bytes: usize) -> Line {
        self.word.length = letters;
        Line::Word(bytes)
    }

    fn print(&mut self, answer: u8, refusal: u8) {
        self.words += 1;
        self.out
            .extend_from_slice(self.printed.next(answer, refusal));
    }

    fn print_word(&mut self) {
        let yes = self.decision.accepts(&self.word);
        self.print(u8::from(yes), 0);
    }

    /// Prints the lines of the bytes. Returns how many of the bytes they are.
    fn take(&mut self, bytes: &[u8]) -> usize {
        let mut at = 0;
        while self.words < MOST_WORDS {
            let rest = &bytes[at..];
            let end = match self.read_line(rest) {
                Line::Word(end) => {
                    self.print_word();
                    end
                }
                Line::Other => {
                    let Some(end) = line_end(rest) else {
                        return at;
                    };
                    self.print(2, refusal(&rest[..end]));
                    end
                }
                Line::Cut => return at,
            };
            at += end + 1;
        }
        bytes.len()
    }
}

/// How many bytes stand before the first line end.
fn line_end(bytes: &[u8]) -> Option<usize> {
    bytes.iter().position(|&byte| byte == b'\n')
}

/// The letter in a column, if it is a number and not 0, which a blank column is too.
fn letter(column: &[u8]) -> Option<usize> {
    let padded = column[0] == b' ' && column[1] == b' ' && column[2] == b' ';
    let number = u32::from(TENS[usize::from(column[3])]) + u32::from(ONES[usize::from(column[4])]);
    // A blank as the last byte is no digit, so a blank column is left to the way below.
    if padded && number < u32::from(BAD) && number > 0 {
        return Some(number as usize);
    }
    let number = plain_sheet::column(column.try_into().expect("five bytes"))?;
    (number != 0).then_some(number as usize)
}

/// The refusal of a line that is not a word.
fn refusal(line: &[u8]) -> u8 {
    if line.len() > LONGEST_LINE {
        return 9;
    }
    let columns = line.chunks_exact(COLUMN);
    let whole = columns.remainder().is_empty();
    let number = |column: &[u8]| plain_sheet::column(column.try_into().expect("five bytes"));
    match whole && columns.into_iter().all(|column| number(column).is_some()) {
        true => 8,
        false => 2,
    }
}

/// Writes the listing of a sheet and the words of the input.
pub fn list(sheet: &[u8], mut input: impl Read, mut output: impl Write) -> Result<()> {
    let mut list = vec![0; 12_000];
    let machine = match plain_sheet::read(sheet, &mut list) {
        Ok(machine) => machine,
        Err((number, _)) => {
            return output.write_all(format!("SHEET REFUSED{number:5}\n").as_bytes())
        }
    };
    let mut lister = Lister {
        letters: machine.letters,
        decision: Decision::new(&machine, &list[..3 * machine.transitions]),
        word: Word::new(),
        words: 0,
        printed: Printed::new(),
        out: b"  NO.  ANS  REF\n".to_vec(),
    };
    // The bytes of a line that is not complete stand at the front; of one that is too long as many as show that it is.
    let mut bytes = vec![0; PIECE];
    let mut kept = 0;
    while lister.words < MOST_WORDS {
        let got = input.read(&mut bytes[kept..])?;
        if got == 0 {
            break;
        }
        let filled = kept + got;
        let taken = lister.take(&bytes[..filled]);
        bytes.copy_within(taken..filled, 0);
        kept = (filled - taken).min(LONGEST_LINE + 1);
        if lister.out.len() >= PIECE {
            output.write_all(&lister.out)?;
            lister.out.clear();
        }
    }
    if kept > 0 && lister.words < MOST_WORDS {
        bytes[kept] = b'\n';
        lister.take(&bytes[..=kept]);
    }
    output.write_all(&lister.out)
}

#[cfg(test)]
mod tests {
    use super::{list, LONGEST_LINE};
    use compare::columns::{blank, starts, zeros};
    use compare::{random_machine, random_word, Rng};
    use reference::{listing::listing, sheet};

    /// Gives the bytes in pieces of any length.
    struct Pieces<'a>(&'a [u8], Rng);

    impl std::io::Read for Pieces<'_> {
        fn read(&mut self, buffer: &mut [u8]) -> std::io::Result<usize> {
            let most = self.0.len().min(buffer.len());
            let count = most.min(1 + self.1.below(900));
            let (front, rest) = self.0.split_at(count);
            buffer[..count].copy_from_slice(front);
            self.0 = rest;
            Ok(count)
        }
    }

    /// A line: mostly a word, else with letters that are not there, broken, or too long.
    fn line(rng: &mut Rng, letters: usize) -> Vec<u8> {
        let longest = rng.pick(&[3, 8, 20, 30]);
        let mut numbers: Vec<usize> = random_word(rng, letters, longest)
            .into_iter()
            .map(usize::from)
            .collect();
        if rng.once_in(8) {
            let other = rng.pick(&[0, letters + 1, 10, 99, 100, 256, 99_999]);
            numbers.insert(rng.below(numbers.len() + 1), other);
        }
        let mut line: Vec<u8> = numbers
            .into_iter()
            .flat_map(|number| format!("{number:5}").into_bytes())
            .collect();
        if rng.once_in(8) && !line.is_empty() {
            let at = 5 * rng.below(line.len() / 5);
            blank(&mut line, &[at]);
        }
        if rng.once_in(8) {
            let byte = rng.pick(b" 01a\t\r");
            line.insert(rng.below(line.len() + 1), byte);
        }
        if rng.once_in(8) && !line.is_empty() {
            let at = rng.below(line.len());
            line[at] = rng.pick(b" 019a\t");
        }
        if rng.once_in(30) {
            let length = rng.pick(&[LONGEST_LINE, LONGEST_LINE + 1, LONGEST_LINE + 5, 2000]);
            let column = rng.pick(&[b"    1", b"     "]);
            line = column.iter().copied().cycle().take(length).collect();
        }
        line
    }

    /// The plain listing prints what the reference prints; half of the tables have blanks.
    #[test]
    fn same_as_the_reference() {
        let mut rng = Rng::new(20_240_047);
        let mut counts = [0; 10];
        for number in 0..600 {
            let most = rng.pick(&[3, 3, 3, 12, 250]);
            let machine = random_machine(&mut rng, 6, most);
            let (record, triples) = machine.record();
            let mut table = vec![0; 64_720];
            let bytes = sheet::write(&record, &triples, &mut table).expect("a good machine");
            table.truncate(bytes - usize::from(rng.once_in(20)));
            if rng.once_in(2) {
                // Mostly zeros alone are left out.
                let mut left_out = match rng.once_in(8) {
                    true => starts(&table),
                    false => zeros(&table),
                };
                left_out.retain(|_| rng.once_in(2));
                blank(&mut table, &left_out);
            }
            let mut input = Vec::new();
            for _ in 0..60 {
                input.extend(line(&mut rng, machine.letters));
                input.push(b'\n');
            }
            if rng.once_in(2) {
                input.pop();
            }
            let mut printed = Vec::new();
            list(&table, Pieces(&input, Rng::new(number)), &mut printed).expect("no failure");
            let expected = listing(Some(&table), &input);
            assert_eq!(
                String::from_utf8_lossy(&printed),
                String::from_utf8_lossy(&expected),
                "{machine:?}\n{:?}",
                String::from_utf8_lossy(&input)
            );
            for line in printed.chunks_exact(16).skip(1) {
                counts[usize::from(match line[9] {
                    b'2' => line[14] - b'0',
                    answer => answer - b'0',
                })] += 1;
            }
        }
        println!("plain listing: no, yes and refusals {counts:?}");
        for number in [0, 1, 2, 8, 9] {
            assert!(counts[number] > 100, "{number} is rare");
        }
    }
}
