//! The page of an accepting run (document 02, change 1).

use crate::moves::{self, BUFFERING_MODE, NORMAL_MODE};
use crate::{check_word, Config, Machine, Record, Refusal, LONGEST_RECOGNIZED};

/// The most entries of a run that a page takes.
pub const MOST_ENTRIES: usize = 99_999;

/// The numbers of an entry's line: the entry's number, and what there is after it: the state, the mode, the letters read
/// so far and the letters in the buffer.
pub fn entry_numbers(number: usize, word: &[u8], after: Config) -> [usize; 5] {
    let read = &word[..after.position];
    let buffer = &word[after.start..after.end];
    let mode = usize::from(after.mode);
    [number, after.state, mode, read.len(), buffer.len()]
}

/// The numbers of the last line: the letters read in normal mode, the letters stored, and the word's length. A letter is
/// read between two configurations if the position grows, in the mode of the first.
pub fn last_numbers(word: &[u8], visited: &[Config]) -> [usize; 3] {
    let (mut plain, mut stored) = (0, 0);
    for pair in visited.windows(2) {
        let (before, after) = (pair[0], pair[1]);
        if after.position > before.position {
            match before.mode {
                NORMAL_MODE => plain += 1,
                BUFFERING_MODE => stored += 1,
                _ => {}
            }
        }
    }
    [plain, stored, word.len()]
}

/// The page of a run, or nothing if the run does not accept the word. Columns have six bytes.
pub fn page_text(machine: &Machine, word: &[u8], run: &[u16]) -> Option<String> {
    if !moves::accepting(machine, word, run) {
        return None;
    }
    let (visited, _) = moves::follow(machine, word, run);
    let mut text = String::new();
    for (number, &after) in visited.iter().enumerate() {
        let [number, state, mode, read, buffered] = entry_numbers(number, word, after);
        text += &format!("{number:6}{state:6}{mode:6}{read:6}{buffered:6}\n");
    }
    let [plain, stored, length] = last_numbers(word, &visited);
    text += &format!("{plain:6}{stored:6}{length:6}\n");
    Some(text)
}

/// Writes the page of an accepting run to the front of `page` and returns its length. Refusals 16, 9 (over 255 letters or
/// 99,999 entries), 8, 14 (the run does not accept), 19; then `page` is unchanged.
pub fn write(
    record: &Record,
    list: &[u16],
    word: &[u8],
    run: &[u16],
    page: &mut [u8],
) -> Result<usize, Refusal> {
    let machine = record.machine(list)?;
    if word.len() > LONGEST_RECOGNIZED || run.len() > MOST_ENTRIES {
        return Err(Refusal::of(9));
    }
    check_word(&machine, word, LONGEST_RECOGNIZED)?;
    let Some(text) = page_text(&machine, word, run) else {
        return Err(Refusal::of(14));
    };
    if page.len() < text.len() {
        return Err(Refusal::too_short(19, text.len()));
    }
    page[..text.len()].copy_from_slice(text.as_bytes());
    Ok(text.len())
}
