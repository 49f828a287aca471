//! Pages: an accepting run as lines of decimal numbers in columns of six bytes, to be held beside the sheet.

use crate::{Machine, Refusal, Table};

/// The most letters of a word that a page takes.
pub const MOST_LETTERS: usize = 255;
/// The most entries of a run that a page takes.
pub const MOST_ENTRIES: usize = 99_999;

/// The bytes of a column.
const COLUMN: usize = 6;
/// The bytes of an entry's line: five columns and the line end.
pub const ENTRY_LINE: usize = 5 * COLUMN + 1;
/// The bytes of the last line: three columns and the line end.
pub const LAST_LINE: usize = 3 * COLUMN + 1;

/// The result of [`write_page_record`]: `refusal` is 0, 16, 9, 8, 14 or 19; `needed` is 0 but for refusal 19; `bytes` is 0
/// after a refusal.
#[derive(Clone, Copy, PartialEq, Eq, Debug)]
#[repr(C)]
pub struct PageRecord {
    pub refusal: u8,
    pub needed: usize,
    pub bytes: usize,
}

extern "C" {
    fn zagvirk_write_page(
        machine: Machine,
        list: *const u16,
        list_len: usize,
        word: *const u8,
        word_len: usize,
        run: *const u16,
        run_len: usize,
        page: *mut u8,
        page_len: usize,
    ) -> PageRecord;
}

/// Writes a page, as [`write_page`].
pub fn write_page_record(table: Table, word: &[u8], run: &[u16], page: &mut [u8]) -> PageRecord {
    // SAFETY: a slice's pointer is not null and is good for its length, also where that is 0. The call writes to `page`
    // only, which overlaps with no other slice.
    unsafe {
        zagvirk_write_page(
            *table.machine,
            table.list.as_ptr(),
            table.list.len(),
            word.as_ptr(),
            word.len(),
            run.as_ptr(),
            run.len(),
            page.as_mut_ptr(),
            page.len(),
        )
    }
}

/// The bytes of the page of a run with so many entries, at most [`MOST_ENTRIES`].
pub fn page_length(entries: usize) -> usize {
    ENTRY_LINE * entries + LAST_LINE
}

/// The number of bytes of an accepting run's page, which is written to the front of `page`; the rest of `page` stays as it
/// was, and after a refusal all of it.
///
/// A page has a line of five columns for each entry, the start state first: the entry's number, counted from 0, and what
/// there is after the entry: the state, the mode (0 normal, 1 buffering, 2 emptying), the letters read so far and the
/// letters in the buffer. A last line of three columns has the letters read in normal mode, the letters stored, each
/// counted once, and the word's length: the first and twice the second make the third. A column has six bytes, a decimal
/// number as in a sheet; every line ends with byte 10.
///
/// Refuses, in this order: [`Refusal::MachineBroken`], [`Refusal::WordTooLong`] if the word has more than [`MOST_LETTERS`]
/// letters or the run more than [`MOST_ENTRIES`] entries, [`Refusal::WordLetter`], [`Refusal::NotAccepting`] also if the
/// run is empty, [`Refusal::SheetTooShort`] if `page` has fewer than [`page_length`] elements.
///
/// Time: in proportion to the machine, the word and the run. Memory: none beside the arguments.
///
/// ```
/// use zagvirk::page::{page_length, write_page};
/// use zagvirk::{Machine, Table};
/// let machine = Machine::new(2, 6, &[5, 0, 10]);
/// let list = [0, 0, 1, 1, 0, 2, 1, 1, 1, 1, 2, 1, 2, 1, 2, 2, 2, 2];
/// let run = [0, 65_533, 0, 2, 3, 1, 65_534, 4, 5, 65_535];
/// let mut page = vec![0; page_length(run.len())];
/// let doubled = Table::new(&machine, &list);
/// assert_eq!(write_page(doubled, &[1, 2, 1, 2], &run, &mut page), Ok(329));
/// assert_eq!(
///     page,
///     b"     0     0     0     0     0
///      1     0     1     0     0
///      2     1     1     0     0
///      3     1     1     1     1
///      4     1     1     2     2
///      5     2     1     2     2
///      6     2     2     2     2
///      7     2     2     3     1
///      8     2     2     4     0
///      9     2     0     4     0
///      0     2     4
/// "
/// );
/// ```
pub fn write_page(
    table: Table,
    word: &[u8],
    run: &[u16],
    page: &mut [u8],
) -> Result<usize, Refusal> {
    let written = write_page_record(table, word, run, page);
    Refusal::check(written.refusal, written.needed)?;
    Ok(written.bytes)
}
