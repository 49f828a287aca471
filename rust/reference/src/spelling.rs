//! Written words to letters.

use crate::{Refusal, LONGEST_RECOGNIZED};

/// The letter of a written byte: a to z are 1 to 26, hyphen 27, apostrophe 28.
pub fn letter(byte: u8) -> Option<u8> {
    let alphabet = b"abcdefghijklmnopqrstuvwxyz-'";
    let index = alphabet.iter().position(|&known| known == byte)?;
    Some(index as u8 + 1)
}

/// Writes the letters of `text` to the front of `word` and returns their number. Refusals 9 (over 255 bytes), 8 (a
/// byte with no letter), 18 (`word` too short); then `word` is unchanged.
pub fn translate(text: &[u8], word: &mut [u8]) -> Result<usize, Refusal> {
    if text.len() > LONGEST_RECOGNIZED {
        return Err(Refusal::of(9));
    }
    let mut letters = Vec::new();
    for &byte in text {
        letters.push(letter(byte).ok_or(Refusal::of(8))?);
    }
    if word.len() < letters.len() {
        return Err(Refusal::too_short(18, letters.len()));
    }
    word[..letters.len()].copy_from_slice(&letters);
    Ok(letters.len())
}
