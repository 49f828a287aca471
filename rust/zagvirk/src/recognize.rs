//! Recognition: whether a machine accepts a word, with an accepting run. Without one: [`crate::accepts`].

use crate::{Machine, Refusal, Table};

/// The most letters of a word to recognize, with a run or without.
pub const LONGEST_RECOGNIZED: usize = 255;

/// The result of [`recognize_record`]: `refusal` is 0, 16, 9, 8 or 17; `needed` is 0 but for refusal 17; `accepted` is 1
/// or 0; `entries` is 0 unless `accepted` is 1.
#[derive(Clone, Copy, PartialEq, Eq, Debug)]
#[repr(C)]
pub struct RecognizedRecord {
    pub refusal: u8,
    pub needed: usize,
    pub accepted: u8,
    pub entries: usize,
}

extern "C" {
    fn zagvirk_recognize(
        machine: Machine,
        list: *const u16,
        list_len: usize,
        word: *const u8,
        word_len: usize,
        run: *mut u16,
        run_len: usize,
    ) -> RecognizedRecord;
}

/// Recognizes a word, as [`recognize`].
pub fn recognize_record(table: Table, word: &[u8], run: &mut [u16]) -> RecognizedRecord {
    // SAFETY: a slice's pointer is not null and is good for its length, also where that is 0. The call writes to `run`
    // only, which overlaps with no other slice.
    unsafe {
        zagvirk_recognize(
            *table.machine,
            table.list.as_ptr(),
            table.list.len(),
            word.as_ptr(),
            word.len(),
            run.as_mut_ptr(),
            run.len(),
        )
    }
}

/// The length that the run slice needs for a word of `letters` letters.
pub fn run_length(machine: &Machine, letters: usize) -> usize {
    3 * machine.states * (letters + 1)
}

/// The number of entries of an accepting run of the word, or `None` if the machine does not accept it. The run is
/// written to the front of `run`; the rest of `run` stays as it was, and after `None` or a refusal all of it. Which
/// accepting run it is, is left open.
///
/// Refuses, in this order: [`Refusal::MachineBroken`], [`Refusal::WordTooLong`] over 255 letters,
/// [`Refusal::WordLetter`], [`Refusal::RunTooShort`] if `run` has fewer than [`run_length`] elements, whatever the
/// answer would be.
///
/// ```
/// use zagvirk::recognize::{recognize, run_length};
/// use zagvirk::{check_run, Machine, Table};
/// let machine = Machine::new(2, 6, &[5, 0, 10]);
/// let list = [0, 0, 1, 1, 0, 2, 1, 1, 1, 1, 2, 1, 2, 1, 2, 2, 2, 2];
/// let mut run = vec![0; run_length(&machine, 4)];
/// let doubled = Table::new(&machine, &list);
/// let entries = recognize(doubled, &[1, 2, 1, 2], &mut run).unwrap().unwrap();
/// assert_eq!(check_run(doubled, &[1, 2, 1, 2], &run[..entries]), Ok(true));
/// assert_eq!(recognize(doubled, &[1, 2, 2, 1], &mut run), Ok(None));
/// ```
pub fn recognize(table: Table, word: &[u8], run: &mut [u16]) -> Result<Option<usize>, Refusal> {
    let recognized = recognize_record(table, word, run);
    Refusal::check(recognized.refusal, recognized.needed)?;
    Ok((recognized.accepted == 1).then_some(recognized.entries))
}
