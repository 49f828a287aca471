//! Yes or no without a run: whether a machine accepts a word, or each word of a list.
//!
//! - [`accepts`]: for one word.
//! - [`accept_words`]: for a list of words whose letters stand one after another; the machine is prepared once.
//! - [`answers`]: for the words of an iterator.

use crate::recognize::LONGEST_RECOGNIZED;
use crate::{Machine, Refusal, Table};
use std::iter::{Fuse, FusedIterator};

/// The most words that [`Answers`] asks for at once.
const MOST_WORDS: usize = 65_536;
/// With so many letters or more [`Answers`] takes no further word before it asks.
const MOST_LETTERS: usize = 1 << 20;

/// The result of [`accepts_record`]: `refusal` is 0, 16, 9 or 8; `accepted` is 1 or 0.
#[derive(Clone, Copy, PartialEq, Eq, Debug)]
#[repr(C)]
pub struct DecidedRecord {
    pub refusal: u8,
    pub accepted: u8,
}

/// The result of [`accept_words_record`]: `refusal` is 0, 16, 34 or 35; `needed` is 0 but for refusal 35; `words` is 0
/// after a refusal.
#[derive(Clone, Copy, PartialEq, Eq, Debug)]
#[repr(C)]
pub struct WordsAnsweredRecord {
    pub refusal: u8,
    pub needed: usize,
    pub words: usize,
}

extern "C" {
    fn zagvirk_accepts(
        machine: Machine,
        list: *const u16,
        list_len: usize,
        word: *const u8,
        word_len: usize,
    ) -> DecidedRecord;

    fn zagvirk_accept_words(
        machine: Machine,
        list: *const u16,
        list_len: usize,
        letters: *const u8,
        letters_len: usize,
        ends: *const usize,
        ends_len: usize,
        answers: *mut u8,
        answers_len: usize,
    ) -> WordsAnsweredRecord;
}

/// Answers for a word, as [`accepts`].
pub fn accepts_record(table: Table, word: &[u8]) -> DecidedRecord {
    // SAFETY: a slice's pointer is not null and is good for its length, also where that is 0. The call only reads.
    unsafe {
        zagvirk_accepts(
            *table.machine,
            table.list.as_ptr(),
            table.list.len(),
            word.as_ptr(),
            word.len(),
        )
    }
}

/// Answers for a list of words, as [`accept_words`].
pub fn accept_words_record(
    table: Table,
    letters: &[u8],
    ends: &[usize],
    answers: &mut [u8],
) -> WordsAnsweredRecord {
    // SAFETY: a slice's pointer is not null and is good for its length, also where that is 0. The call writes to
    // `answers` only, which overlaps with no other slice.
    unsafe {
        zagvirk_accept_words(
            *table.machine,
            table.list.as_ptr(),
            table.list.len(),
            letters.as_ptr(),
            letters.len(),
            ends.as_ptr(),
            ends.len(),
            answers.as_mut_ptr(),
            answers.len(),
        )
    }
}

/// Whether the machine accepts the word. [`recognize`](crate::recognize::recognize) gives the same answer, with a run,
/// wherever its run slice is long enough.
///
/// Refuses, in this order: [`Refusal::MachineBroken`], [`Refusal::WordTooLong`] over 255 letters,
/// [`Refusal::WordLetter`].
///
/// ```
/// use zagvirk::{accepts::accepts, Machine, Refusal, Table};
/// let machine = Machine::new(2, 6, &[5, 0, 10]);
/// let list = [0, 0, 1, 1, 0, 2, 1, 1, 1, 1, 2, 1, 2, 1, 2, 2, 2, 2];
/// let doubled = Table::new(&machine, &list);
/// assert_eq!(accepts(doubled, &[1, 2, 1, 2]), Ok(true));
/// assert_eq!(accepts(doubled, &[1, 2, 2, 1]), Ok(false));
/// assert_eq!(accepts(doubled, &[3]), Err(Refusal::WordLetter));
/// ```
pub fn accepts(table: Table, word: &[u8]) -> Result<bool, Refusal> {
    let decided = accepts_record(table, word);
    Refusal::check(decided.refusal, 0)?;
    Ok(decided.accepted == 1)
}

/// The number of words, after an answer for each of them is written to the front of `answers`: 1 yes, 0 no, else the
/// number of the word's own refusal, 9 over 255 letters, then 8 for a letter that is not there; [`answer`] tells them
/// apart. The rest of `answers` stays as it was, and after a refusal all of it.
///
/// The letters of all words stand one after another: a word ends at its number in `ends` and begins where the one before
/// it ends, the first at 0. A word may be empty. Letters behind the last end are not looked at.
///
/// Refuses, in this order: [`Refusal::MachineBroken`], [`Refusal::EndsBroken`] if an end is below the one before it or
/// above the number of letters, [`Refusal::AnswersTooShort`] if `answers` has fewer elements than `ends`.
///
/// Time: the machine is tested and prepared once for all words. Memory: none on the heap.
///
/// ```
/// use zagvirk::{accepts::accept_words, Machine, Table};
/// let machine = Machine::new(2, 6, &[5, 0, 10]);
/// let list = [0, 0, 1, 1, 0, 2, 1, 1, 1, 1, 2, 1, 2, 1, 2, 2, 2, 2];
/// let doubled = Table::new(&machine, &list);
/// // 1 2 1 2, the empty word, 1 2 2 and 3.
/// let letters = [1, 2, 1, 2, 1, 2, 2, 3];
/// let ends = [4, 4, 7, 8];
/// let mut answers = [7; 5];
/// assert_eq!(accept_words(doubled, &letters, &ends, &mut answers), Ok(4));
/// assert_eq!(answers, [1, 1, 0, 8, 7]);
/// ```
pub fn accept_words(
    table: Table,
    letters: &[u8],
    ends: &[usize],
    answers: &mut [u8],
) -> Result<usize, Refusal> {
    let answered = accept_words_record(table, letters, ends, answers);
    Refusal::check(answered.refusal, answered.needed)?;
    Ok(answered.words)
}

/// What an answer of [`accept_words`] says of its word: yes, no, [`Refusal::WordTooLong`] or [`Refusal::WordLetter`].
///
/// # Panics
///
/// With a byte that is no answer.
pub fn answer(byte: u8) -> Result<bool, Refusal> {
    match byte {
        0 => Ok(false),
        1 => Ok(true),
        8 => Err(Refusal::WordLetter),
        9 => Err(Refusal::WordTooLong),
        _ => panic!("{byte} is no answer"),
    }
}

/// The answers for the words one after another: whether the machine accepts the word, or [`Refusal::WordTooLong`] over
/// 255 letters, or [`Refusal::WordLetter`].
///
/// Refuses at once with [`Refusal::MachineBroken`].
///
/// Up to 65,536 words, or some 1,048,576 letters, are taken from `words` before the first of their answers is given, and
/// the machine is prepared once for them. Memory: some 3 MB at most, whatever `words` gives.
///
/// ```
/// use zagvirk::{accepts::answers, Machine, Refusal, Table};
/// let machine = Machine::new(2, 6, &[5, 0, 10]);
/// let list = [0, 0, 1, 1, 0, 2, 1, 1, 1, 1, 2, 1, 2, 1, 2, 2, 2, 2];
/// let doubled = Table::new(&machine, &list);
/// let words: [&[u8]; 4] = [&[1, 2, 1, 2], &[], &[1, 2, 2], &[3]];
/// let found: Vec<_> = answers(doubled, words).unwrap().collect();
/// assert_eq!(found, [Ok(true), Ok(true), Ok(false), Err(Refusal::WordLetter)]);
/// ```
pub fn answers<I>(table: Table<'_>, words: I) -> Result<Answers<'_, I::IntoIter>, Refusal>
where
    I: IntoIterator,
    I::Item: AsRef<[u8]>,
{
    accept_words(table, &[], &[], &mut [])?;
    Ok(Answers {
        table,
        words: words.into_iter().fuse(),
        letters: Vec::new(),
        ends: Vec::new(),
        answers: Vec::new(),
        given: 0,
    })
}

/// The answers for the words of an iterator, made by [`answers`].
#[derive(Clone, Debug)]
pub struct Answers<'a, I> {
    table: Table<'a>,
    words: Fuse<I>,
    /// The words that were asked for last, as [`accept_words`] takes them.
    letters: Vec<u8>,
    ends: Vec<usize>,
    /// Their answers, of which the first `given` were given.
    answers: Vec<u8>,
    given: usize,
}

impl<I> Answers<'_, I>
where
    I: Iterator,
    I::Item: AsRef<[u8]>,
{
    /// Takes the next words and asks for their answers.
    fn ask(&mut self) {
        self.letters.clear();
        self.ends.clear();
        self.answers.clear();
        self.given = 0;
        while self.ends.len() < MOST_WORDS && self.letters.len() < MOST_LETTERS {
            let Some(word) = self.words.next() else {
                break;
            };
            // Of a word that is too long as many letters as show that it is.
            let word = word.as_ref();
            let shown = word.len().min(LONGEST_RECOGNIZED + 1);
            self.letters.extend_from_slice(&word[..shown]);
            self.ends.push(self.letters.len());
        }
        if self.ends.is_empty() {
            return;
        }
        self.answers.resize(self.ends.len(), 0);
        accept_words(self.table, &self.letters, &self.ends, &mut self.answers)
            .expect("a machine that keeps the rules, rising ends and as many answers");
    }
}

impl<I> Iterator for Answers<'_, I>
where
    I: Iterator,
    I::Item: AsRef<[u8]>,
{
    type Item = Result<bool, Refusal>;

    fn next(&mut self) -> Option<Result<bool, Refusal>> {
        if self.given == self.answers.len() {
            self.ask();
        }
        let byte = *self.answers.get(self.given)?;
        self.given += 1;
        Some(answer(byte))
    }

    fn size_hint(&self) -> (usize, Option<usize>) {
        let ready = self.answers.len() - self.given;
        let (least, most) = self.words.size_hint();
        (
            least.saturating_add(ready),
            most.and_then(|most| most.checked_add(ready)),
        )
    }
}

impl<I> FusedIterator for Answers<'_, I>
where
    I: Iterator,
    I::Item: AsRef<[u8]>,
{
}
