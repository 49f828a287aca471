//! The page of an accepting run in plain Rust, written for speed: the same page, answer and refusals as the proved call.
//!
//! The run is followed twice: first to know that it accepts, then to write, without a test. The line of an entry is kept
//! as four numbers of eight bytes, of which each entry changes those that it must; digits come from tables.

use crate::plain::{accepts, has_letters, keeps_rules};
use zagvirk::page::{page_length, ENTRY_LINE, MOST_ENTRIES, MOST_LETTERS};
use zagvirk::{Machine, BACK_TO_NORMAL, BEGIN_BUFFERING, BEGIN_EMPTYING};

/// The number of bytes written at the front of `page`; or the refusal and the length needed.
pub fn write_page(
    machine: &Machine,
    list: &[u16],
    word: &[u8],
    run: &[u16],
    page: &mut [u8],
) -> Result<usize, (u8, usize)> {
    if !keeps_rules(machine, list) {
        return Err((16, 0));
    }
    if word.len() > MOST_LETTERS || run.len() > MOST_ENTRIES {
        return Err((9, 0));
    }
    if !has_letters(machine, word) {
        return Err((8, 0));
    }
    let mut stored = 0;
    let found = accepts(machine, list, word, run, |_, letters| stored += letters);
    if found.is_none() {
        return Err((14, 0));
    }
    let needed = page_length(run.len());
    let Some(page) = page.get_mut(..needed) else {
        return Err((19, needed));
    };
    let (lines, last) = page.split_at_mut(ENTRY_LINE * run.len());
    write_entries(&list[..3 * machine.transitions], run, lines);
    // Every stored letter is matched once, and the other letters are plain.
    write_last(last, [word.len() - 2 * stored, stored, word.len()]);
    Ok(needed)
}

/// The number right-justified in three bytes, the first byte lowest, with this byte in the places of its leading zeros.
const fn digits(number: usize, padding: u8) -> u64 {
    let first = if number < 100 {
        padding
    } else {
        b'0' + (number / 100) as u8
    };
    let second = if number < 10 {
        padding
    } else {
        b'0' + (number / 10 % 10) as u8
    };
    let third = b'0' + (number % 10) as u8;
    u64::from_le_bytes([first, second, third, 0, 0, 0, 0, 0])
}

/// The last three bytes of each column.
const fn columns() -> [u64; 256] {
    let mut columns = [0; 256];
    let mut number = 0;
    while number < columns.len() {
        columns[number] = digits(number, b' ');
        number += 1;
    }
    columns
}

/// The last two bytes of each number below 100, as bytes 4 and 5.
const fn pairs(padding: u8) -> [u64; 100] {
    let mut pairs = [0; 100];
    let mut number = 0;
    while number < pairs.len() {
        pairs[number] = digits(number, padding) >> 8 << 32;
        number += 1;
    }
    pairs
}

/// The last three bytes of a column. The states, the letters read and those in the buffer need no more.
static COLUMNS: [u64; 256] = columns();
/// The last two bytes of an entry's column where they stand in the line: of the entries below 100, and of the others.
static FIRST_PAIRS: [u64; 100] = pairs(b' ');
static PAIRS: [u64; 100] = pairs(b'0');

/// The column of a number to 255.
#[inline]
fn column(number: u8) -> u64 {
    COLUMNS[usize::from(number)]
}

/// Eight spaces, but so many bytes from this one on are 0.
const fn spaces_but(at: u32, bytes: u32) -> u64 {
    0x2020_2020_2020_2020 & !(((1 << (8 * bytes)) - 1) << (8 * at))
}

/// The line of an entry, bytes 0 to 30, in four numbers whose lowest byte comes first.
struct Line {
    /// Bytes 0 to 7: the entry's column, and the front of the state's.
    entry: u64,
    /// Bytes 8 to 15: the end of the state's column in bytes 9 to 11, and the front of the mode's.
    state: u64,
    /// Bytes 16 to 23: the mode in byte 17, and the column of the letters read, which ends in bytes 21 to 23.
    mode: u64,
    /// Bytes 23 to 30: byte 23 again, the column of the buffer, which ends in bytes 27 to 29, and the line end.
    buffer: u64,
}

impl Line {
    /// The line of the start, but for the entry's column.
    fn start(state: u16) -> Line {
        let mut line = Line {
            entry: 0,
            state: 0,
            mode: 0,
            buffer: 0,
        };
        line.set_state(state);
        line.set_mode(0);
        line.set_letters(0, 0);
        line
    }

    #[inline]
    fn set_state(&mut self, state: u16) {
        self.state = spaces_but(1, 3) | column(state as u8) << 8;
    }

    #[inline]
    fn set_mode(&mut self, mode: u8) {
        self.mode = self.mode & !0xff00 | u64::from(b'0' + mode) << 8;
    }

    #[inline]
    fn set_letters(&mut self, read: u8, buffered: u8) {
        const AROUND_MODE: u64 = spaces_but(1, 1) & spaces_but(5, 3);
        const AROUND_BUFFER: u64 = spaces_but(0, 1) & spaces_but(4, 4) | (b'\n' as u64) << 56;
        let read = column(read);
        self.mode = AROUND_MODE | self.mode & 0xff00 | read << 40;
        self.buffer = AROUND_BUFFER | read >> 16 | column(buffered) << 32;
    }

    #[inline]
    fn write(&self, line: &mut [u8; ENTRY_LINE]) {
        line[..8].copy_from_slice(&self.entry.to_le_bytes());
        line[8..16].copy_from_slice(&self.state.to_le_bytes());
        line[16..24].copy_from_slice(&self.mode.to_le_bytes());
        line[23..].copy_from_slice(&self.buffer.to_le_bytes());
    }
}

/// The front of the columns of a hundred entries, and their ends. The last hundred has number 999.
fn hundred(number: usize) -> (u64, &'static [u64; 100]) {
    match number {
        0 => (spaces_but(4, 2), &FIRST_PAIRS),
        _ => (spaces_but(1, 5) | digits(number, b' ') << 8, &PAIRS),
    }
}

/// Writes the lines of the entries of an accepting run. It is not inlined so that it has all registers to itself.
#[inline(never)]
fn write_entries(list: &[u16], run: &[u16], lines: &mut [u8]) {
    let mut line = Line::start(run[0]);
    let mut entries = run[1..].iter();
    // The buffer has `growth` letters more, wrapping, for each one that is read.
    let (mut growth, mut read, mut buffered) = (0, 0_u8, 0_u8);
    let (lines, _) = lines.as_chunks_mut();
    for (number, lines) in lines.chunks_mut(100).enumerate() {
        let (front, pairs) = hundred(number);
        for (bytes, pair) in lines.iter_mut().zip(pairs) {
            line.entry = front | pair;
            line.write(bytes);
            let Some(&entry) = entries.next() else {
                return;
            };
            let at = 3 * usize::from(entry);
            if let Some(&[_, letter, to]) = list.get(at..at + 3) {
                line.set_state(to);
                if letter != 0 {
                    read = read.wrapping_add(1);
                    buffered = buffered.wrapping_add(growth);
                    line.set_letters(read, buffered);
                }
                continue;
            }
            let (mode, change) = match entry {
                BEGIN_BUFFERING => (1, 1),
                BEGIN_EMPTYING => (2, u8::MAX),
                BACK_TO_NORMAL => (0, 0),
                _ => unreachable!("a run that accepts"),
            };
            growth = change;
            line.set_mode(mode);
        }
    }
}

/// Writes the last line.
fn write_last(line: &mut [u8], numbers: [usize; 3]) {
    line.fill(b' ');
    for (bytes, number) in line.chunks_exact_mut(6).zip(numbers) {
        bytes[3..].copy_from_slice(&column(number as u8).to_le_bytes()[..3]);
    }
    line[18] = b'\n';
}

#[cfg(test)]
mod tests {
    use super::write_page;
    use crate::copies::Input;
    use crate::page::inputs;
    use crate::random_runs::{random_run, RandomRun};
    use compare::longest_runs::{circle_run, epsilon_circle};
    use compare::{filled_bytes, record_of, tally, Rng};
    use reference::{page, Record};

    /// Compares the answer and the whole slice, of the length, with the reference. Returns the refusal or 0.
    fn same(record: &Record, list: &[u16], word: &[u8], run: &[u16], length: usize) -> usize {
        let (mut plain_page, mut reference_page) = (filled_bytes(length), filled_bytes(length));
        let expected = page::write(record, list, word, run, &mut reference_page)
            .map_err(|refusal| (refusal.number, refusal.needed));
        let plain = write_page(&record_of(record), list, word, run, &mut plain_page);
        assert!(
            plain == expected && plain_page == reference_page,
            "{record:?}\nlist {list:?}\nword {word:?}\nrun {:?}\nreference {expected:?}\nplain {plain:?}\n{}",
            &run[..run.len().min(300)],
            String::from_utf8_lossy(&plain_page[..length.min(2_000)])
        );
        plain.err().map_or(0, |(number, _)| usize::from(number))
    }

    /// The plain call gives what the reference gives.
    #[test]
    fn same_as_the_reference() {
        let mut rng = Rng::new(20_240_111);
        let mut refusals = [0; 21];
        for _ in 0..30_000 {
            let Some(input) = random_run(&mut rng) else {
                continue;
            };
            let RandomRun {
                record,
                list,
                word,
                run,
            } = &input;
            let needed = 31 * run.len() + 19;
            let length = rng.pick(&[0, needed - 1, needed, needed + 5]);
            refusals[same(record, list, word, run, length)] += 1;
        }
        println!("pages by refusal: {}", tally(&refusals));
        for number in [0, 8, 9, 14, 16, 19] {
            assert!(refusals[number] > 50, "refusal {number}");
        }
    }

    /// Also on the inputs that are measured, in slices around the length needed, on 255 plain letters, and on a run that is
    /// too long.
    #[test]
    fn same_on_what_is_measured() {
        for input in inputs() {
            let record = input.record();
            let Input {
                list, word, run, ..
            } = &input;
            let needed = 31 * run.len() + 19;
            for (length, refusal) in [(0, 19), (needed - 1, 19), (needed, 0), (needed + 3, 0)] {
                assert_eq!(same(&record, list, word, run, length), refusal);
            }
            same(&record, list, word, &run[..run.len() - 1], needed);
        }
        let (record, list) = epsilon_circle().record();
        for (entries, refusal) in [(256, 0), (1_000, 0), (99_999, 0), (100_000, 9)] {
            let (word, run) = ([1; 255], circle_run(255, entries));
            let needed = 31 * entries + 19;
            assert_eq!(same(&record, &list, &word, &run, needed), refusal);
        }
    }
}
