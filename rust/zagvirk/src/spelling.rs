//! Written words: a to z are letters 1 to 26, hyphen is 27, apostrophe 28.

use crate::Refusal;

/// The result of [`translate_record`]: `refusal` is 0, 9, 8 or 18; `needed` is 0 but for refusal 18; `letters` is 0
/// after a refusal.
#[derive(Clone, Copy, PartialEq, Eq, Debug)]
#[repr(C)]
pub struct TranslatedRecord {
    pub refusal: u8,
    pub needed: usize,
    pub letters: usize,
}

extern "C" {
    fn zagvirk_translate(
        bytes: *const u8,
        bytes_len: usize,
        word: *mut u8,
        word_len: usize,
    ) -> TranslatedRecord;
}

/// Translates a written word, as [`translate`].
pub fn translate_record(bytes: &[u8], word: &mut [u8]) -> TranslatedRecord {
    // SAFETY: a slice's pointer is not null and is good for its length, also where that is 0. The call writes to `word`
    // only, which does not overlap with the bytes.
    unsafe { zagvirk_translate(bytes.as_ptr(), bytes.len(), word.as_mut_ptr(), word.len()) }
}

/// The number of letters of a written word. They are written to the front of `word`, one for each byte; the rest of
/// `word` stays as it was, and after a refusal all of it.
///
/// Refuses, in this order: [`Refusal::WordTooLong`] over 255 bytes, [`Refusal::WordLetter`] for a byte with no letter,
/// [`Refusal::WordTooShort`].
///
/// Time: two passes over the bytes, one to test them and one to write. Memory: constant.
///
/// ```
/// let mut word = [0; 9];
/// assert_eq!(zagvirk::spelling::translate(b"wiki-wiki", &mut word), Ok(9));
/// assert_eq!(word, [23, 9, 11, 9, 27, 23, 9, 11, 9]);
/// ```
pub fn translate(bytes: &[u8], word: &mut [u8]) -> Result<usize, Refusal> {
    let translated = translate_record(bytes, word);
    Refusal::check(translated.refusal, translated.needed)?;
    Ok(translated.letters)
}
