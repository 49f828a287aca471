//! The proved calls as the tests make them, with the names they have in `zagvirk`. After each call every slice that it
//! was lent is compared with a copy of its contents before: a slice to read whole, a slice to write past the elements
//! that the result says are written. [`crate::Case`] does the same for many calls on one machine and word.

use crate::kept::Kept;
use std::fmt::Debug;
use zagvirk::accepts::{DecidedRecord, WordsAnsweredRecord};
use zagvirk::common::{CommonRecord, CommonWord, Lengths};
use zagvirk::copies::{Copies, CopiesRecord};
use zagvirk::page::PageRecord;
use zagvirk::product::JoinedRecord;
use zagvirk::reach::{Reach, ReachRecord};
use zagvirk::recognize::RecognizedRecord;
use zagvirk::sheet::{ReadRecord, WrittenRecord};
use zagvirk::spelling::TranslatedRecord;
use zagvirk::{Machine, Refusal, Table};

/// The elements of the list that a machine has written.
fn list_length(machine: &Machine) -> usize {
    machine.transitions.saturating_mul(3)
}

/// `zagvirk::check_run`.
pub fn check_run(
    machine: &Machine,
    list: &[u16],
    word: &[u8],
    run: &[u16],
) -> Result<bool, Refusal> {
    let kept_list = Kept::new("list", list);
    let kept_word = Kept::new("word", word);
    let kept_run = Kept::new("run", run);
    let found = zagvirk::check_run(Table::new(machine, list), word, run);
    kept_list.same("check_run", list);
    kept_word.same("check_run", word);
    kept_run.same("check_run", run);
    found
}

/// Makes a call that reads a list and a word and writes a run.
fn recognizing<R>(
    (list, word, run): (&[u16], &[u8], &mut [u16]),
    call: impl FnOnce(&mut [u16]) -> R,
    written: impl FnOnce(&R) -> usize,
) -> R {
    let kept_list = Kept::new("list", list);
    let kept_word = Kept::new("word", word);
    let kept_run = Kept::new("run slice", run);
    let found = call(run);
    kept_list.same("recognize", list);
    kept_word.same("recognize", word);
    kept_run.same_past("recognize", written(&found), run);
    found
}

/// `zagvirk::recognize::recognize_record`.
pub fn recognize_record(
    machine: &Machine,
    list: &[u16],
    word: &[u8],
    run: &mut [u16],
) -> RecognizedRecord {
    recognizing(
        (list, word, run),
        |run| zagvirk::recognize::recognize_record(Table::new(machine, list), word, run),
        |found| found.entries,
    )
}

/// `zagvirk::recognize::recognize`.
pub fn recognize(
    machine: &Machine,
    list: &[u16],
    word: &[u8],
    run: &mut [u16],
) -> Result<Option<usize>, Refusal> {
    recognizing(
        (list, word, run),
        |run| zagvirk::recognize::recognize(Table::new(machine, list), word, run),
        |found| found.ok().flatten().unwrap_or(0),
    )
}

/// Makes a call that reads a list and a word.
fn deciding<R>((list, word): (&[u16], &[u8]), call: impl FnOnce() -> R) -> R {
    let kept_list = Kept::new("list", list);
    let kept_word = Kept::new("word", word);
    let found = call();
    kept_list.same("accepts", list);
    kept_word.same("accepts", word);
    found
}

/// `zagvirk::accepts::accepts_record`.
pub fn accepts_record(machine: &Machine, list: &[u16], word: &[u8]) -> DecidedRecord {
    deciding((list, word), || {
        zagvirk::accepts::accepts_record(Table::new(machine, list), word)
    })
}

/// `zagvirk::accepts::accepts`.
pub fn accepts(machine: &Machine, list: &[u16], word: &[u8]) -> Result<bool, Refusal> {
    deciding((list, word), || {
        zagvirk::accepts::accepts(Table::new(machine, list), word)
    })
}

/// The words of a list as they are lent: the letters of all, and where each word ends.
#[derive(Clone, Default, PartialEq, Eq, Debug)]
pub struct Words {
    pub letters: Vec<u8>,
    pub ends: Vec<usize>,
}

impl Words {
    /// Adds a word.
    pub fn push(&mut self, word: &[u8]) {
        self.letters.extend_from_slice(word);
        self.ends.push(self.letters.len());
    }

    /// The list of these words.
    pub fn of<W: AsRef<[u8]>>(words: &[W]) -> Words {
        let mut list = Words::default();
        words.iter().for_each(|word| list.push(word.as_ref()));
        list
    }
}

/// Makes a call that reads a list, letters and ends and writes answers.
fn answering<R>(
    (list, words, answers): (&[u16], &Words, &mut [u8]),
    call: impl FnOnce(&mut [u8]) -> R,
    written: impl FnOnce(&R) -> usize,
) -> R {
    let kept_list = Kept::new("list", list);
    let kept_letters = Kept::new("letters", &words.letters);
    let kept_ends = Kept::new("ends", &words.ends);
    let kept_answers = Kept::new("slice for answers", answers);
    let found = call(answers);
    kept_list.same("accept_words", list);
    kept_letters.same("accept_words", &words.letters);
    kept_ends.same("accept_words", &words.ends);
    kept_answers.same_past("accept_words", written(&found), answers);
    found
}

/// `zagvirk::accepts::accept_words_record`.
pub fn accept_words_record(
    machine: &Machine,
    list: &[u16],
    words: &Words,
    answers: &mut [u8],
) -> WordsAnsweredRecord {
    let table = Table::new(machine, list);
    answering(
        (list, words, answers),
        |answers| {
            zagvirk::accepts::accept_words_record(table, &words.letters, &words.ends, answers)
        },
        |found| found.words,
    )
}

/// `zagvirk::accepts::accept_words`.
pub fn accept_words(
    machine: &Machine,
    list: &[u16],
    words: &Words,
    answers: &mut [u8],
) -> Result<usize, Refusal> {
    let table = Table::new(machine, list);
    answering(
        (list, words, answers),
        |answers| zagvirk::accepts::accept_words(table, &words.letters, &words.ends, answers),
        |found| found.unwrap_or(0),
    )
}

/// All answers of `zagvirk::accepts::answers`.
pub fn answers<W: AsRef<[u8]>>(
    machine: &Machine,
    list: &[u16],
    words: impl IntoIterator<Item = W>,
) -> Result<Vec<Result<bool, Refusal>>, Refusal> {
    let kept_list = Kept::new("list", list);
    let answers = zagvirk::accepts::answers(Table::new(machine, list), words);
    let found = answers.map(|answers| answers.collect());
    kept_list.same("answers", list);
    found
}

/// Makes a call that reads a list and a word and writes sets of states.
fn reaching<R>(
    (list, word, sets): (&[u16], &[u8], &mut [u64]),
    call: impl FnOnce(&mut [u64]) -> R,
    written: impl FnOnce(&R) -> usize,
) -> R {
    let kept_list = Kept::new("list", list);
    let kept_word = Kept::new("word", word);
    let kept_sets = Kept::new("slice for sets", sets);
    let found = call(sets);
    kept_list.same("reach", list);
    kept_word.same("reach", word);
    kept_sets.same_past("reach", written(&found), sets);
    found
}

/// `zagvirk::reach::reach_record`.
pub fn reach_record(machine: &Machine, list: &[u16], word: &[u8], sets: &mut [u64]) -> ReachRecord {
    reaching(
        (list, word, sets),
        |sets| zagvirk::reach::reach_record(Table::new(machine, list), word, sets),
        |found| found.sets,
    )
}

/// `zagvirk::reach::reach_into`.
pub fn reach_into(
    machine: &Machine,
    list: &[u16],
    word: &[u8],
    sets: &mut [u64],
) -> Result<usize, Refusal> {
    reaching(
        (list, word, sets),
        |sets| zagvirk::reach::reach_into(Table::new(machine, list), word, sets),
        |found| found.unwrap_or(0),
    )
}

/// `zagvirk::reach::reach`.
pub fn reach<'a>(
    machine: &'a Machine,
    list: &'a [u16],
    word: &'a [u8],
) -> Result<Reach<'a>, Refusal> {
    let kept_list = Kept::new("list", list);
    let kept_word = Kept::new("word", word);
    let found = zagvirk::reach::reach(Table::new(machine, list), word);
    kept_list.same("reach", list);
    kept_word.same("reach", word);
    found
}

/// Makes a call that reads a list, a word and a run and writes a slice; the names are those of the call and the slice.
fn following<T: Copy + PartialEq + Debug, R>(
    [name, slice_name]: [&'static str; 2],
    (list, word, run, slice): (&[u16], &[u8], &[u16], &mut [T]),
    call: impl FnOnce(&mut [T]) -> R,
    written: impl FnOnce(&R) -> usize,
) -> R {
    let kept_list = Kept::new("list", list);
    let kept_word = Kept::new("word", word);
    let kept_run = Kept::new("run", run);
    let kept_slice = Kept::new(slice_name, slice);
    let found = call(slice);
    kept_list.same(name, list);
    kept_word.same(name, word);
    kept_run.same(name, run);
    kept_slice.same_past(name, written(&found), slice);
    found
}

/// The names of the copy list and of its slice.
const COPIES: [&str; 2] = ["list_copies", "slice for copies"];

/// `zagvirk::copies::list_copies_record`.
pub fn list_copies_record(
    machine: &Machine,
    list: &[u16],
    word: &[u8],
    run: &[u16],
    copies: &mut [u16],
) -> CopiesRecord {
    following(
        COPIES,
        (list, word, run, copies),
        |copies| zagvirk::copies::list_copies_record(Table::new(machine, list), word, run, copies),
        |found| found.copies.saturating_mul(2),
    )
}

/// `zagvirk::copies::list_copies`.
pub fn list_copies(
    machine: &Machine,
    list: &[u16],
    word: &[u8],
    run: &[u16],
    copies: &mut [u16],
) -> Result<Copies, Refusal> {
    following(
        COPIES,
        (list, word, run, copies),
        |copies| zagvirk::copies::list_copies(Table::new(machine, list), word, run, copies),
        |found| found.map_or(0, |listed| listed.count.saturating_mul(2)),
    )
}

/// The names of the page and of its slice.
const PAGE: [&str; 2] = ["write_page", "slice for the page"];

/// `zagvirk::page::write_page_record`.
pub fn write_page_record(
    machine: &Machine,
    list: &[u16],
    word: &[u8],
    run: &[u16],
    page: &mut [u8],
) -> PageRecord {
    following(
        PAGE,
        (list, word, run, page),
        |page| zagvirk::page::write_page_record(Table::new(machine, list), word, run, page),
        |found| found.bytes,
    )
}

/// `zagvirk::page::write_page`.
pub fn write_page(
    machine: &Machine,
    list: &[u16],
    word: &[u8],
    run: &[u16],
    page: &mut [u8],
) -> Result<usize, Refusal> {
    following(
        PAGE,
        (list, word, run, page),
        |page| zagvirk::page::write_page(Table::new(machine, list), word, run, page),
        |found| found.unwrap_or(0),
    )
}

/// Makes a call that reads two lists and writes a third.
fn joining<R>(
    (first, second, list): (&[u16], &[u16], &mut [u16]),
    call: impl FnOnce(&mut [u16]) -> R,
    written: impl FnOnce(&R) -> usize,
) -> R {
    let kept_first = Kept::new("first list", first);
    let kept_second = Kept::new("second list", second);
    let kept_list = Kept::new("list for the product", list);
    let found = call(list);
    kept_first.same("join", first);
    kept_second.same("join", second);
    kept_list.same_past("join", written(&found), list);
    found
}

/// `zagvirk::product::join_record`.
pub fn join_record(
    first: &Machine,
    first_list: &[u16],
    second: &Machine,
    second_list: &[u16],
    list: &mut [u16],
) -> JoinedRecord {
    joining(
        (first_list, second_list, list),
        |list| {
            let (first, second) = (
                Table::new(first, first_list),
                Table::new(second, second_list),
            );
            zagvirk::product::join_record(first, second, list)
        },
        |found| list_length(&found.machine),
    )
}

/// `zagvirk::product::join`.
pub fn join(
    first: &Machine,
    first_list: &[u16],
    second: &Machine,
    second_list: &[u16],
    list: &mut [u16],
) -> Result<Machine, Refusal> {
    joining(
        (first_list, second_list, list),
        |list| {
            let (first, second) = (
                Table::new(first, first_list),
                Table::new(second, second_list),
            );
            zagvirk::product::join(first, second, list)
        },
        |found| found.as_ref().map_or(0, list_length),
    )
}

/// The three slices that the common-word search writes to.
pub struct Slices<'a> {
    pub word: &'a mut [u8],
    pub first_run: &'a mut [u16],
    pub second_run: &'a mut [u16],
}

/// Makes a call that reads two lists and writes a word and two runs.
fn searching<R>(
    (first, second): (&[u16], &[u16]),
    slices: Slices,
    call: impl FnOnce(&mut [u8], &mut [u16], &mut [u16]) -> R,
    written: impl FnOnce(&R) -> [usize; 3],
) -> R {
    let Slices {
        word,
        first_run,
        second_run,
    } = slices;
    let kept_first = Kept::new("first list", first);
    let kept_second = Kept::new("second list", second);
    let kept_word = Kept::new("slice for the word", word);
    let kept_first_run = Kept::new("slice for the first run", first_run);
    let kept_second_run = Kept::new("slice for the second run", second_run);
    let found = call(word, first_run, second_run);
    kept_first.same("common_word", first);
    kept_second.same("common_word", second);
    let [letters, first_entries, second_entries] = written(&found);
    kept_word.same_past("common_word", letters, word);
    kept_first_run.same_past("common_word", first_entries, first_run);
    kept_second_run.same_past("common_word", second_entries, second_run);
    found
}

/// `zagvirk::common::common_word_record`.
pub fn common_word_record(first: Table, second: Table, slices: Slices) -> CommonRecord {
    searching(
        (first.list, second.list),
        slices,
        |word, first_run, second_run| {
            zagvirk::common::common_word_record(first, second, word, first_run, second_run)
        },
        |found| [found.letters, found.first_entries, found.second_entries],
    )
}

/// `zagvirk::common::common_word`.
pub fn common_word(
    first: Table,
    second: Table,
    slices: Slices,
) -> Result<Option<Lengths>, Refusal> {
    searching(
        (first.list, second.list),
        slices,
        |word, first_run, second_run| {
            zagvirk::common::common_word(first, second, word, first_run, second_run)
        },
        |found| match found {
            Ok(Some(found)) => [found.letters, found.first_entries, found.second_entries],
            _ => [0; 3],
        },
    )
}

/// `zagvirk::common::find`.
pub fn find(first: Table, second: Table) -> Result<Option<CommonWord>, Refusal> {
    let kept_first = Kept::new("first list", first.list);
    let kept_second = Kept::new("second list", second.list);
    let found = zagvirk::common::find(first, second);
    kept_first.same("find", first.list);
    kept_second.same("find", second.list);
    found
}

/// Makes a call that reads a sheet and writes a list.
fn reading<R>(
    (sheet, list): (&[u8], &mut [u16]),
    call: impl FnOnce(&mut [u16]) -> R,
    written: impl FnOnce(&R) -> usize,
) -> R {
    let kept_sheet = Kept::new("sheet", sheet);
    let kept_list = Kept::new("list", list);
    let found = call(list);
    kept_sheet.same("read", sheet);
    kept_list.same_past("read", written(&found), list);
    found
}

/// `zagvirk::sheet::read_record`.
pub fn read_record(sheet: &[u8], list: &mut [u16]) -> ReadRecord {
    reading(
        (sheet, list),
        |list| zagvirk::sheet::read_record(sheet, list),
        |found| list_length(&found.machine),
    )
}

/// `zagvirk::sheet::read`.
pub fn read(sheet: &[u8], list: &mut [u16]) -> Result<Machine, Refusal> {
    reading(
        (sheet, list),
        |list| zagvirk::sheet::read(sheet, list),
        |found| found.as_ref().map_or(0, list_length),
    )
}

/// Makes a call that reads a list and writes a sheet.
fn writing<R>(
    (list, sheet): (&[u16], &mut [u8]),
    call: impl FnOnce(&mut [u8]) -> R,
    written: impl FnOnce(&R) -> usize,
) -> R {
    let kept_list = Kept::new("list", list);
    let kept_sheet = Kept::new("slice for the sheet", sheet);
    let found = call(sheet);
    kept_list.same("write", list);
    kept_sheet.same_past("write", written(&found), sheet);
    found
}

/// `zagvirk::sheet::write_record`.
pub fn write_record(machine: &Machine, list: &[u16], sheet: &mut [u8]) -> WrittenRecord {
    writing(
        (list, sheet),
        |sheet| zagvirk::sheet::write_record(Table::new(machine, list), sheet),
        |found| found.bytes,
    )
}

/// `zagvirk::sheet::write`.
pub fn write(machine: &Machine, list: &[u16], sheet: &mut [u8]) -> Result<usize, Refusal> {
    writing(
        (list, sheet),
        |sheet| zagvirk::sheet::write(Table::new(machine, list), sheet),
        |found| found.unwrap_or(0),
    )
}

/// Makes a call that reads bytes and writes a word.
fn translating<R>(
    (bytes, word): (&[u8], &mut [u8]),
    call: impl FnOnce(&mut [u8]) -> R,
    written: impl FnOnce(&R) -> usize,
) -> R {
    let kept_bytes = Kept::new("written word", bytes);
    let kept_word = Kept::new("slice for the word", word);
    let found = call(word);
    kept_bytes.same("translate", bytes);
    kept_word.same_past("translate", written(&found), word);
    found
}

/// `zagvirk::spelling::translate_record`.
pub fn translate_record(bytes: &[u8], word: &mut [u8]) -> TranslatedRecord {
    translating(
        (bytes, word),
        |word| zagvirk::spelling::translate_record(bytes, word),
        |found| found.letters,
    )
}

/// `zagvirk::spelling::translate`.
pub fn translate(bytes: &[u8], word: &mut [u8]) -> Result<usize, Refusal> {
    translating(
        (bytes, word),
        |word| zagvirk::spelling::translate(bytes, word),
        |found| found.unwrap_or(0),
    )
}
