//! The common-word search: a shortest word that a machine and a plain machine both accept, with a run of each.
//!
//! - [`common_word`]: writes the word and the two runs into slices of the caller.
//! - [`needed`]: the lengths that these slices need for a word of so many letters.
//! - [`letters`]: the number of letters of a shortest common word, without the word.
//! - [`find`]: the word and the runs in vectors of their own.

use crate::{recognize, Machine, Refusal, Table};

/// A shortest common word has at most so many letters.
pub const MOST_LETTERS: usize = 515_970;

/// The result of [`common_word_record`]: `refusal` is 0, 16, 10 to 13, 18 or 17; `needed` is 0 but for refusals 18 and
/// 17; `found` is 1 or 0; `letters`, `first_entries` and `second_entries` are 0 unless `found` is 1. With refusal 0 and
/// `found` 0 there is no common word.
#[derive(Clone, Copy, PartialEq, Eq, Debug)]
#[repr(C)]
pub struct CommonRecord {
    pub refusal: u8,
    pub needed: usize,
    pub found: u8,
    pub letters: usize,
    pub first_entries: usize,
    pub second_entries: usize,
}

/// How many elements of each slice were written.
#[derive(Clone, Copy, PartialEq, Eq, Debug)]
#[non_exhaustive]
pub struct Lengths {
    /// The number of letters of the word.
    pub letters: usize,
    /// The number of entries of the first machine's run.
    pub first_entries: usize,
    /// The number of entries of the second machine's run: one more than the letters.
    pub second_entries: usize,
}

extern "C" {
    fn zagvirk_common_word(
        first: Machine,
        first_list: *const u16,
        first_len: usize,
        second: Machine,
        second_list: *const u16,
        second_len: usize,
        word: *mut u8,
        word_len: usize,
        first_run: *mut u16,
        first_run_len: usize,
        second_run: *mut u16,
        second_run_len: usize,
    ) -> CommonRecord;
}

/// Searches for a shortest common word, as [`common_word`].
pub fn common_word_record(
    first: Table,
    second: Table,
    word: &mut [u8],
    first_run: &mut [u16],
    second_run: &mut [u16],
) -> CommonRecord {
    // SAFETY: a slice's pointer is not null and is good for its length, also where that is 0. The call writes to `word`,
    // `first_run` and `second_run` only, which overlap neither with one another nor with the lists.
    unsafe {
        zagvirk_common_word(
            *first.machine,
            first.list.as_ptr(),
            first.list.len(),
            *second.machine,
            second.list.as_ptr(),
            second.list.len(),
            word.as_mut_ptr(),
            word.len(),
            first_run.as_mut_ptr(),
            first_run.len(),
            second_run.as_mut_ptr(),
            second_run.len(),
        )
    }
}

/// The lengths that the slices of [`common_word`] need, each in its own elements.
#[derive(Clone, Copy, PartialEq, Eq, Debug)]
#[non_exhaustive]
pub struct Needed {
    pub word: usize,
    pub first_run: usize,
    pub second_run: usize,
}

/// The lengths that the slices need for a shortest common word of `letters` letters: as many for the word,
/// 3 x states of the first x (`letters` + 1) for its run, and `letters` + 1 for the second's.
pub fn needed(first: &Machine, letters: usize) -> Needed {
    Needed {
        word: letters,
        first_run: recognize::run_length(first, letters),
        second_run: letters + 1,
    }
}

/// A shortest word, of whatever length, that a machine and a plain machine both accept; `None` if there is no common
/// word. It is written to the front of `word`, an accepting run of each machine to the front of `first_run` and of
/// `second_run`; the rest of each slice stays as it was, and after `None` or a refusal all of it. Which shortest word
/// it is, and which accepting run of the word each machine has, is left open.
///
/// Refuses, in this order: [`Refusal::MachineBroken`] (first, then second), [`Refusal::NotPlain`] if the second has a
/// buffering or matching state or an epsilon transition, [`Refusal::LettersDiffer`], [`Refusal::TooManyStates`],
/// [`Refusal::TooManyTransitions`] of the product; then, only if there is a common word, [`Refusal::WordTooShort`],
/// [`Refusal::RunTooShort`] for `first_run`, [`Refusal::RunTooShort`] for `second_run`. The slices need the lengths
/// that [`needed`] gives for the letters of a shortest common word, also where the runs found would fit into less.
///
/// ```
/// // Doubled words over letters 1 and 2, and the words that have a 2.
/// use zagvirk::common::{common_word, needed};
/// use zagvirk::{Machine, Refusal, Table};
/// let doubled = Machine::new(2, 6, &[5, 0, 10]);
/// let doubled_list = [0, 0, 1, 1, 0, 2, 1, 1, 1, 1, 2, 1, 2, 1, 2, 2, 2, 2];
/// let some_two = Machine::new(2, 4, &[1, 2]);
/// let some_two_list = [0, 1, 0, 0, 2, 1, 1, 1, 1, 1, 2, 1];
/// let lengths = needed(&doubled, 2);
/// assert_eq!((lengths.word, lengths.first_run, lengths.second_run), (2, 27, 3));
///
/// let (mut word, mut first_run, mut second_run) = ([0; 2], [0; 27], [0; 3]);
/// let mut search = |word: &mut [u8]| {
///     let first = Table::new(&doubled, &doubled_list);
///     let second = Table::new(&some_two, &some_two_list);
///     common_word(first, second, word, &mut first_run, &mut second_run)
/// };
/// assert_eq!(search(&mut word[..1]), Err(Refusal::WordTooShort { needed: 2 }));
/// let found = search(&mut word).unwrap().expect("a common word");
/// assert_eq!((found.letters, found.first_entries, found.second_entries), (2, 8, 3));
/// assert_eq!(word, [2, 2]);
/// assert_eq!(first_run[..8], [0, 65_533, 0, 3, 1, 65_534, 5, 65_535]);
/// assert_eq!(second_run, [0, 1, 3]);
/// ```
pub fn common_word(
    first: Table,
    second: Table,
    word: &mut [u8],
    first_run: &mut [u16],
    second_run: &mut [u16],
) -> Result<Option<Lengths>, Refusal> {
    let common = common_word_record(first, second, word, first_run, second_run);
    Refusal::check(common.refusal, common.needed)?;
    Ok((common.found == 1).then_some(Lengths {
        letters: common.letters,
        first_entries: common.first_entries,
        second_entries: common.second_entries,
    }))
}

/// The number of letters of a shortest common word, or `None` if there is no common word. Refuses as [`common_word`]
/// does, but for the lengths of slices.
///
/// ```
/// // Doubled words over letters 1 and 2, and the words with an odd number of 1.
/// use zagvirk::{common, Machine, Table};
/// let doubled = Machine::new(2, 6, &[5, 0, 10]);
/// let doubled_list = [0, 0, 1, 1, 0, 2, 1, 1, 1, 1, 2, 1, 2, 1, 2, 2, 2, 2];
/// let odd = Machine::new(2, 4, &[1, 2]);
/// let odd_list = [0, 1, 1, 0, 2, 0, 1, 1, 0, 1, 2, 1];
/// let doubled = Table::new(&doubled, &doubled_list);
/// assert_eq!(common::letters(doubled, Table::new(&odd, &odd_list)), Ok(None));
/// ```
pub fn letters(first: Table, second: Table) -> Result<Option<usize>, Refusal> {
    match common_word(first, second, &mut [], &mut [], &mut []) {
        // A run has at least one entry, so with empty slices a word is never written.
        Ok(_) => Ok(None),
        Err(Refusal::WordTooShort { needed }) => Ok(Some(needed)),
        Err(Refusal::RunTooShort { .. }) => Ok(Some(0)),
        Err(refusal) => Err(refusal),
    }
}

/// A word that both machines accept, with a run of each.
#[derive(Clone, PartialEq, Eq, Debug)]
#[non_exhaustive]
pub struct CommonWord {
    pub word: Vec<u8>,
    pub first_run: Vec<u16>,
    pub second_run: Vec<u16>,
}

/// What [`common_word`] finds, in vectors of its own. Refuses as [`letters`] does.
///
/// Time: if there is a common word, that of two searches, one for the lengths of the vectors. Memory: the vectors.
///
/// ```
/// // Doubled words over letters 1 and 2, and the words that have a 2.
/// use zagvirk::{check_run, common, Machine, Table};
/// let doubled = Machine::new(2, 6, &[5, 0, 10]);
/// let doubled_list = [0, 0, 1, 1, 0, 2, 1, 1, 1, 1, 2, 1, 2, 1, 2, 2, 2, 2];
/// let some_two = Machine::new(2, 4, &[1, 2]);
/// let some_two_list = [0, 1, 0, 0, 2, 1, 1, 1, 1, 1, 2, 1];
/// let doubled = Table::new(&doubled, &doubled_list);
/// let some_two = Table::new(&some_two, &some_two_list);
/// let found = common::find(doubled, some_two).unwrap().expect("a common word");
/// assert_eq!(found.word, [2, 2]);
/// assert_eq!(check_run(doubled, &found.word, &found.first_run), Ok(true));
/// assert_eq!(check_run(some_two, &found.word, &found.second_run), Ok(true));
/// ```
pub fn find(first: Table, second: Table) -> Result<Option<CommonWord>, Refusal> {
    let Some(letters) = letters(first, second)? else {
        return Ok(None);
    };
    let needed = needed(first.machine, letters);
    let mut word = vec![0; needed.word];
    let mut first_run = vec![0; needed.first_run];
    let mut second_run = vec![0; needed.second_run];
    let lengths = common_word(first, second, &mut word, &mut first_run, &mut second_run)?;
    Ok(lengths.map(|lengths| {
        word.truncate(lengths.letters);
        first_run.truncate(lengths.first_entries);
        second_run.truncate(lengths.second_entries);
        CommonWord {
            word,
            first_run,
            second_run,
        }
    }))
}
