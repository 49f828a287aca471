//! The product of a machine with a plain machine (document 01: the joined table).

use crate::{Machine, Refusal, Table};

/// The result of [`join_record`]: `refusal` is 0 or the number of the refusal; `needed` is 0 but for refusal 15;
/// `machine` is all zero after a refusal.
#[derive(Clone, Copy, PartialEq, Eq, Debug)]
#[repr(C)]
pub struct JoinedRecord {
    pub refusal: u8,
    pub needed: usize,
    pub machine: Machine,
}

extern "C" {
    fn zagvirk_join(
        first: Machine,
        first_list: *const u16,
        first_len: usize,
        second: Machine,
        second_list: *const u16,
        second_len: usize,
        list: *mut u16,
        list_len: usize,
    ) -> JoinedRecord;
}

/// Joins two machines, as [`join`].
pub fn join_record(first: Table, second: Table, list: &mut [u16]) -> JoinedRecord {
    // SAFETY: a slice's pointer is not null and is good for its length, also where that is 0. The call writes to `list`
    // only, which overlaps with neither table's.
    unsafe {
        zagvirk_join(
            *first.machine,
            first.list.as_ptr(),
            first.list.len(),
            *second.machine,
            second.list.as_ptr(),
            second.list.len(),
            list.as_mut_ptr(),
            list.len(),
        )
    }
}

/// The product of a machine with a plain machine: it accepts the words that both accept. Its transitions are written to
/// the front of `list`, three elements each; the rest of `list` stays as it was, and after a refusal all of it.
///
/// A state is a pair, numbered first x (states of second) + second. It is initial or final if both are; it is buffering
/// or matching if the first is. A letter moves both, epsilon moves the first alone.
///
/// Refuses, in this order: [`Refusal::MachineBroken`] (first, then second), [`Refusal::NotPlain`] if the second has a
/// buffering or matching state or an epsilon transition, [`Refusal::LettersDiffer`], [`Refusal::TooManyStates`],
/// [`Refusal::TooManyTransitions`], [`Refusal::ListTooShort`].
///
/// Time: in proportion to the machines and the product. Memory: constant.
///
/// ```
/// // Doubled words over letters 1 and 2, joined with the words that have a 2.
/// use zagvirk::{product, Machine, Table};
/// let doubled = Machine::new(2, 6, &[5, 0, 10]);
/// let doubled_list = [0, 0, 1, 1, 0, 2, 1, 1, 1, 1, 2, 1, 2, 1, 2, 2, 2, 2];
/// let some_two = Machine::new(2, 4, &[1, 2]);
/// let some_two_list = [0, 1, 0, 0, 2, 1, 1, 1, 1, 1, 2, 1];
/// let mut list = [0; 36];
/// let doubled = Table::new(&doubled, &doubled_list);
/// let both = product::join(doubled, Table::new(&some_two, &some_two_list), &mut list);
/// assert_eq!(both, Ok(Machine::new(2, 12, &[5, 4, 0, 0, 8, 10])));
/// ```
pub fn join(first: Table, second: Table, list: &mut [u16]) -> Result<Machine, Refusal> {
    let joined = join_record(first, second, list);
    Refusal::check(joined.refusal, joined.needed)?;
    Ok(joined.machine)
}
