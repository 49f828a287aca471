//! Yes or no without a run.

use crate::{check_word, published, shortest, Machine, Record, Refusal, LONGEST_RECOGNIZED};

/// Whether the machine accepts the word.
pub fn accepted(machine: &Machine, word: &[u8]) -> bool {
    // The search by the definition is too slow for long words.
    let run = match word.len() {
        0..=12 => published::find_run(machine, word),
        _ => shortest::find_run(machine, word),
    };
    run.is_some()
}

/// The public call for one word: refusals 16, 9 (over 255 letters), 8, then whether the machine accepts the word.
pub fn accepts(record: &Record, list: &[u16], word: &[u8]) -> Result<bool, Refusal> {
    let machine = record.machine(list)?;
    answer(&machine, word)
}

/// Whether the machine accepts the word, or refusal 9 or 8.
fn answer(machine: &Machine, word: &[u8]) -> Result<bool, Refusal> {
    check_word(machine, word, LONGEST_RECOGNIZED)?;
    Ok(accepted(machine, word))
}

/// The public call for a list of words. A word has the letters from the end of the one before it, or from the first
/// letter, up to its own end. Refusals 16, 34 (an end below the one before it or above the number of letters), 35 (fewer
/// answers than ends); then `answers` is unchanged. Else each word has an answer at the front of `answers`: 1 yes, 0 no,
/// or the number of its own refusal. Returns the number of words.
pub fn accept_words(
    record: &Record,
    list: &[u16],
    letters: &[u8],
    ends: &[usize],
    answers: &mut [u8],
) -> Result<usize, Refusal> {
    let machine = record.machine(list)?;
    let words = words(letters, ends)?;
    if answers.len() < words.len() {
        return Err(Refusal::too_short(35, words.len()));
    }
    for (index, word) in words.iter().enumerate() {
        answers[index] = match answer(&machine, word) {
            Ok(true) => 1,
            Ok(false) => 0,
            Err(refusal) => refusal.number,
        };
    }
    Ok(words.len())
}

/// The words of a list, or refusal 34.
pub fn words<'a>(letters: &'a [u8], ends: &[usize]) -> Result<Vec<&'a [u8]>, Refusal> {
    let mut words = Vec::new();
    let mut start = 0;
    for &end in ends {
        // Nothing is there if the word ends before it starts or past the letters.
        let word = letters.get(start..end);
        words.push(word.ok_or(Refusal::of(34))?);
        start = end;
    }
    Ok(words)
}
