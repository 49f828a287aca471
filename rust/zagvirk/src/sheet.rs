//! Sheets: a machine as lines of decimal numbers in columns of five bytes. A column of five spaces is 0; a sheet read and
//! written comes back with its blanks filled.

use crate::{Machine, Refusal, Table};

/// The result of [`read_record`]: `refusal` is 0 or the number of the refusal; `needed` is 0 but for refusal 15;
/// `machine` is all zero after a refusal.
#[derive(Clone, Copy, PartialEq, Eq, Debug)]
#[repr(C)]
pub struct ReadRecord {
    pub refusal: u8,
    pub needed: usize,
    pub machine: Machine,
}

/// The result of [`write_record`]: `refusal` is 0, 16 or 19; `needed` is 0 but for refusal 19; `bytes` is 0 after a
/// refusal.
#[derive(Clone, Copy, PartialEq, Eq, Debug)]
#[repr(C)]
pub struct WrittenRecord {
    pub refusal: u8,
    pub needed: usize,
    pub bytes: usize,
}

extern "C" {
    fn zagvirk_read_sheet(
        sheet: *const u8,
        sheet_len: usize,
        list: *mut u16,
        list_len: usize,
    ) -> ReadRecord;

    fn zagvirk_write_sheet(
        machine: Machine,
        list: *const u16,
        list_len: usize,
        sheet: *mut u8,
        sheet_len: usize,
    ) -> WrittenRecord;
}

/// Reads a sheet, as [`read`].
pub fn read_record(sheet: &[u8], list: &mut [u16]) -> ReadRecord {
    // SAFETY: a slice's pointer is not null and is good for its length, also where that is 0. The call writes to `list`
    // only, which does not overlap with the sheet.
    unsafe { zagvirk_read_sheet(sheet.as_ptr(), sheet.len(), list.as_mut_ptr(), list.len()) }
}

/// Writes a sheet, as [`write()`].
pub fn write_record(table: Table, sheet: &mut [u8]) -> WrittenRecord {
    // SAFETY: as above; the call writes to `sheet` only, which does not overlap with the list.
    unsafe {
        zagvirk_write_sheet(
            *table.machine,
            table.list.as_ptr(),
            table.list.len(),
            sheet.as_mut_ptr(),
            sheet.len(),
        )
    }
}

/// The machine of a sheet. Its transitions are written to the front of `list`, three elements each; the rest of `list`
/// stays as it was, and after a refusal all of it.
///
/// Refuses at the first fault in reading order, in each line in this order: [`Refusal::LineCutShort`],
/// [`Refusal::ColumnBroken`], then [`Refusal::CountOutOfRange`] (line one), [`Refusal::StateBroken`] (a state's line) or
/// [`Refusal::TransitionBroken`] (a transition's line), then [`Refusal::NotRising`]; after all lines
/// [`Refusal::BytesLeft`], then [`Refusal::ListTooShort`].
///
/// Time: each byte of the sheet once at most. Memory: constant, 12 KB.
///
/// ```
/// use zagvirk::{sheet, Machine, Table};
/// let text = b"    2    1    1\n    0    1\n    1    2\n    0    1    1\n";
/// let mut list = [7; 5];
/// let machine = sheet::read(text, &mut list).unwrap();
/// assert_eq!(machine, Machine::new(1, 1, &[1, 2]));
/// assert_eq!(list, [0, 1, 1, 7, 7]);
/// let mut written = [0; 60];
/// assert_eq!(sheet::write(Table::new(&machine, &list), &mut written), Ok(54));
/// assert_eq!(&written[..54], text);
///
/// // The same with its zeros left out.
/// let blank = b"    2    1    1\n         1\n    1    2\n         1    1\n";
/// assert_eq!(sheet::read(blank, &mut list), Ok(machine));
/// assert_eq!(list, [0, 1, 1, 7, 7]);
/// ```
pub fn read(sheet: &[u8], list: &mut [u16]) -> Result<Machine, Refusal> {
    let read = read_record(sheet, list);
    Refusal::check(read.refusal, read.needed)?;
    Ok(read.machine)
}

/// The number of bytes of the machine's sheet, which is written to the front of `sheet`; the rest of `sheet` stays as it
/// was, and after a refusal all of it.
///
/// Refuses, in this order: [`Refusal::MachineBroken`], [`Refusal::SheetTooShort`].
///
/// A sheet has 16 + 11 x states + 16 x transitions bytes, 64,720 at most. A 0 is written as 0, so that no column is blank.
///
/// Time: in proportion to the sheet's bytes. Memory: constant.
pub fn write(table: Table, sheet: &mut [u8]) -> Result<usize, Refusal> {
    let written = write_record(table, sheet);
    Refusal::check(written.refusal, written.needed)?;
    Ok(written.bytes)
}
