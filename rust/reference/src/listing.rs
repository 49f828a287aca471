//! The listing program as a function.

use crate::{accepts::accepted, check_word, sheet, Machine, Refusal, LONGEST_RECOGNIZED};

/// The first line of a listing.
pub const HEADER: &str = "  NO.  ANS  REF\n";

/// The most words that are listed.
pub const MOST_WORDS: usize = 99_999;

/// The most bytes of a word's line, its line end not counted.
pub const LONGEST_LINE: usize = 1_275;

/// The output for the bytes of table.txt (nothing if the file is missing) and of standard input.
pub fn listing(table: Option<&[u8]>, input: &[u8]) -> Vec<u8> {
    let mut list = vec![0; 12_000];
    let read = sheet::read(table.unwrap_or(b""), &mut list);
    let record = match read {
        Ok(record) => record,
        Err(refusal) => return format!("SHEET REFUSED{:5}\n", refusal.number).into_bytes(),
    };
    let machine = record.machine(&list).expect("a sheet that was read");
    let mut output = HEADER.to_string();
    for (index, line) in lines(input).into_iter().take(MOST_WORDS).enumerate() {
        let (answer, refusal) = match judge(&machine, line) {
            Ok(true) => (1, 0),
            Ok(false) => (0, 0),
            Err(refusal) => (2, refusal.number),
        };
        output += &format!("{:5}{:5}{:5}\n", index + 1, answer, refusal);
    }
    output.into_bytes()
}

/// The lines of the input without their line ends. A last line without byte 10 counts unless it is empty.
pub fn lines(input: &[u8]) -> Vec<&[u8]> {
    let mut lines: Vec<&[u8]> = input.split(|&byte| byte == b'\n').collect();
    if lines.last().is_some_and(|line| line.is_empty()) {
        lines.pop();
    }
    lines
}

/// The numbers in the columns of a line: refusal 9 over 1,275 bytes, then 2.
pub fn columns(line: &[u8]) -> Result<Vec<usize>, Refusal> {
    if line.len() > LONGEST_LINE {
        return Err(Refusal::of(9));
    }
    if line.len() % 5 != 0 {
        return Err(Refusal::of(2));
    }
    let mut numbers = Vec::new();
    for bytes in line.chunks(5) {
        numbers.push(sheet::column(bytes).ok_or(Refusal::of(2))?);
    }
    Ok(numbers)
}

/// Whether the machine accepts the word on the line, or refusal 9, 2 or 8.
fn judge(machine: &Machine, line: &[u8]) -> Result<bool, Refusal> {
    let numbers = columns(line)?;
    if numbers.iter().any(|&number| number > machine.letters) {
        return Err(Refusal::of(8));
    }
    let word: Vec<u8> = numbers.iter().map(|&number| number as u8).collect();
    check_word(machine, &word, LONGEST_RECOGNIZED)?;
    Ok(accepted(machine, &word))
}
