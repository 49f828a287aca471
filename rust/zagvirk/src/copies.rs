//! The copy list of an accepting run.

use crate::{Machine, Refusal, Table};

/// The result of [`list_copies_record`]: `refusal` is 0 or the number of the refusal; `needed` is 0 but for refusal 20;
/// `copies` and `total` are 0 after a refusal.
#[derive(Clone, Copy, PartialEq, Eq, Debug)]
#[repr(C)]
pub struct CopiesRecord {
    pub refusal: u8,
    pub needed: usize,
    pub copies: usize,
    pub total: usize,
}

/// What the copy list comes with.
#[derive(Clone, Copy, PartialEq, Eq, Debug)]
#[non_exhaustive]
pub struct Copies {
    /// The number of copies with letters; the list has two elements for each.
    pub count: usize,
    /// The number of letters stored in all.
    pub total: usize,
}

extern "C" {
    fn zagvirk_list_copies(
        machine: Machine,
        list: *const u16,
        list_len: usize,
        word: *const u8,
        word_len: usize,
        run: *const u16,
        run_len: usize,
        copies: *mut u16,
        copies_len: usize,
    ) -> CopiesRecord;
}

/// Lists the copies of a run, as [`list_copies`].
pub fn list_copies_record(
    table: Table,
    word: &[u8],
    run: &[u16],
    copies: &mut [u16],
) -> CopiesRecord {
    // SAFETY: a slice's pointer is not null and is good for its length, also where that is 0. The call writes to `copies`
    // only, which overlaps with no other slice.
    unsafe {
        zagvirk_list_copies(
            *table.machine,
            table.list.as_ptr(),
            table.list.len(),
            word.as_ptr(),
            word.len(),
            run.as_ptr(),
            run.len(),
            copies.as_mut_ptr(),
            copies.len(),
        )
    }
}

/// The number of copies of an accepting run that have letters, and the number of letters stored in all. For each of
/// these copies, in the run's order, the position where buffering began and the number of letters stored are written to
/// the front of `copies`; the rest of `copies` stays as it was, and after a refusal all of it. A copy is an entry
/// [`crate::BEGIN_EMPTYING`] of the run; one of no letters is not listed.
///
/// `copies` needs two elements for each copy that is listed. The letters of each stand twice in the word, so a slice of
/// as many elements as the word has letters is always long enough.
///
/// The total is added up from the last copy to the first; it is that of all copies of the run, and the letters read in
/// normal mode and twice the total make the word's length.
///
/// Refuses, in this order: [`Refusal::MachineBroken`], [`Refusal::WordTooLong`] over 255 letters,
/// [`Refusal::WordLetter`], [`Refusal::NotAccepting`], [`Refusal::CopiesTooShort`].
///
/// Time: in proportion to the machine, the word and the run. Memory: constant.
///
/// ```
/// use zagvirk::{copies::list_copies, Machine, Table};
/// let machine = Machine::new(2, 6, &[5, 0, 10]);
/// let list = [0, 0, 1, 1, 0, 2, 1, 1, 1, 1, 2, 1, 2, 1, 2, 2, 2, 2];
/// let run = [0, 65_533, 0, 2, 3, 1, 65_534, 4, 5, 65_535];
/// let mut copies = [7; 3];
/// let doubled = Table::new(&machine, &list);
/// let listed = list_copies(doubled, &[1, 2, 1, 2], &run, &mut copies).unwrap();
/// assert_eq!((listed.count, listed.total), (1, 2));
/// assert_eq!(copies, [0, 2, 7]);
///
/// // The empty word has a run with a copy of no letters, which is not listed.
/// let run = [0, 65_533, 0, 1, 65_534, 65_535];
/// let listed = list_copies(doubled, &[], &run, &mut []).unwrap();
/// assert_eq!((listed.count, listed.total), (0, 0));
/// ```
pub fn list_copies(
    table: Table,
    word: &[u8],
    run: &[u16],
    copies: &mut [u16],
) -> Result<Copies, Refusal> {
    let listed = list_copies_record(table, word, run, copies);
    Refusal::check(listed.refusal, listed.needed)?;
    Ok(Copies {
        count: listed.copies,
        total: listed.total,
    })
}
