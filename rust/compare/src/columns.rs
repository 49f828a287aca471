//! The number in a column, as the proved library reads it ([`column`]). No call of the header takes a column by itself; the
//! archive has this one for the comparison. And the columns of a sheet, for tests that leave numbers out: [`starts`],
//! [`zeros`], [`blank`].

use crate::kept::Kept;

extern "C" {
    fn zagvirk_column(bytes: *const u8, length: usize) -> usize;
}

/// The most bytes of a column.
pub const WIDEST: usize = 10;

/// Stands for a number where there is none.
const NO_NUMBER: usize = 10_000_000_000;

/// The number in a column of at most ten bytes; nothing if they are not a column, or are more.
pub fn column(bytes: &[u8]) -> Option<usize> {
    let kept = Kept::new("column", bytes);
    // SAFETY: a slice's pointer is not null and is good for its length, also where that is 0. The call writes nothing.
    let number = unsafe { zagvirk_column(bytes.as_ptr(), bytes.len()) };
    kept.same("column", bytes);
    (number != NO_NUMBER).then_some(number)
}

/// Where the columns of five bytes begin in a sheet or in a line of a word: at each line's start and five bytes on, as long
/// as the line has five bytes.
pub fn starts(sheet: &[u8]) -> Vec<usize> {
    let mut starts = Vec::new();
    let mut at = 0;
    for line in sheet.split(|&byte| byte == b'\n') {
        starts.extend((0..line.len() / 5).map(|column| at + 5 * column));
        at += line.len() + 1;
    }
    starts
}

/// Where the columns begin that hold 0 as it is written.
pub fn zeros(sheet: &[u8]) -> Vec<usize> {
    let mut zeros = starts(sheet);
    zeros.retain(|&at| &sheet[at..at + 5] == b"    0");
    zeros
}

/// Makes the columns that begin there five spaces.
pub fn blank(sheet: &mut [u8], columns: &[usize]) {
    for &at in columns {
        sheet[at..at + 5].fill(b' ');
    }
}
