//! Sheets: the reader and the writer, and how blanks are filled.

use crate::{Record, Refusal, BUFFERING, MATCHING};

/// The number in a column of any width, right-justified, padded on the left with spaces, without leading zeros; 0 if the
/// column is blank, that is spaces alone or no byte at all; nothing if the column is not so.
pub fn column(bytes: &[u8]) -> Option<usize> {
    let text = std::str::from_utf8(bytes).ok()?;
    let digits = text.trim_start_matches(' ');
    if digits.is_empty() {
        return Some(0);
    }
    if !digits.bytes().all(|byte| byte.is_ascii_digit()) {
        return None;
    }
    if digits.len() > 1 && digits.starts_with('0') {
        return None;
    }
    digits.parse().ok()
}

/// The numbers of the next line of `count` columns, taken off the front of `rest`: refusal 1 if fewer bytes are
/// left, 2 if a column or the line end is not as described.
fn line(rest: &mut &[u8], count: usize) -> Result<Vec<usize>, Refusal> {
    let length = 5 * count + 1;
    if rest.len() < length {
        return Err(Refusal::of(1));
    }
    let (front, behind) = rest.split_at(length);
    let mut numbers = Vec::new();
    for bytes in front[..5 * count].chunks(5) {
        numbers.push(column(bytes).ok_or(Refusal::of(2))?);
    }
    if front[5 * count] != b'\n' {
        return Err(Refusal::of(2));
    }
    *rest = behind;
    Ok(numbers)
}

/// Reads a sheet. Refusals in reading order: in each line 1, 2, then 3, 4 or 5, then 6; after all lines 7, then
/// 15 if the list has fewer than three elements a transition. On success the transitions stand at the front of
/// `list`; on a refusal `list` is unchanged.
pub fn read(sheet: &[u8], list: &mut [u16]) -> Result<Record, Refusal> {
    let mut rest = sheet;
    let counts = line(&mut rest, 3)?;
    let (states, letters, transitions) = (counts[0], counts[1], counts[2]);
    if !(1..=64).contains(&states) || letters > 250 || transitions > 4000 {
        return Err(Refusal::of(3));
    }
    let mut marks = [0u8; 64];
    for (state, kept) in marks.iter_mut().enumerate().take(states) {
        let numbers = line(&mut rest, 2)?;
        let (number, mark) = (numbers[0], numbers[1]);
        if number != state || mark > 15 {
            return Err(Refusal::of(4));
        }
        let mark = mark as u8;
        if mark & BUFFERING != 0 && mark & MATCHING != 0 {
            return Err(Refusal::of(4));
        }
        *kept = mark;
    }
    let mut read: Vec<Vec<usize>> = Vec::new();
    for _ in 0..transitions {
        let numbers = line(&mut rest, 3)?;
        if numbers[0] >= states || numbers[1] > letters || numbers[2] >= states {
            return Err(Refusal::of(5));
        }
        if let Some(before) = read.last() {
            if *before >= numbers {
                return Err(Refusal::of(6));
            }
        }
        read.push(numbers);
    }
    if !rest.is_empty() {
        return Err(Refusal::of(7));
    }
    if list.len() < 3 * transitions {
        return Err(Refusal::too_short(15, 3 * transitions));
    }
    for (element, number) in list.iter_mut().zip(read.concat()) {
        *element = number as u16;
    }
    Ok(Record {
        states,
        letters,
        transitions,
        marks,
    })
}

/// The sheet with its blanks filled: five spaces become the column of 0. Byte 10 where a column would begin is a line end
/// and stays; every other byte there begins a column. Fewer than five bytes at the end stay.
pub fn filled(sheet: &[u8]) -> Vec<u8> {
    let mut bytes = Vec::with_capacity(sheet.len());
    let mut rest = sheet;
    while let Some(&first) = rest.first() {
        let length = match first {
            b'\n' => 1,
            _ => rest.len().min(5),
        };
        let (front, behind) = rest.split_at(length);
        bytes.extend_from_slice(match front {
            b"     " => b"    0",
            _ => front,
        });
        rest = behind;
    }
    bytes
}

/// Writes the sheet of a machine to the front of `sheet` and returns its length. Refusals 16, 19; then `sheet` is
/// unchanged.
pub fn write(record: &Record, list: &[u16], sheet: &mut [u8]) -> Result<usize, Refusal> {
    let machine = record.machine(list)?;
    let mut text = format!(
        "{:5}{:5}{:5}\n",
        machine.states(),
        machine.letters,
        machine.transitions.len()
    );
    for (state, mark) in machine.marks.iter().enumerate() {
        text += &format!("{state:5}{mark:5}\n");
    }
    for t in &machine.transitions {
        text += &format!("{:5}{:5}{:5}\n", t.from, t.letter, t.to);
    }
    if sheet.len() < text.len() {
        return Err(Refusal::too_short(19, text.len()));
    }
    sheet[..text.len()].copy_from_slice(text.as_bytes());
    Ok(text.len())
}
