//! The product of a machine with a plain machine (document 01: the joined table).

use crate::{Machine, Record, Refusal, BUFFERING, FINAL, INITIAL, MATCHING};

/// Both machines, or the first refusal among 16 (first, then second), 10, 11, 12, 13.
pub fn operands(
    first: &Record,
    first_list: &[u16],
    second: &Record,
    second_list: &[u16],
) -> Result<(Machine, Machine), Refusal> {
    let first = first.machine(first_list)?;
    let second = second.machine(second_list)?;
    if !second.is_plain() {
        return Err(Refusal::of(10));
    }
    if first.letters != second.letters {
        return Err(Refusal::of(11));
    }
    if first.states() * second.states() > 64 {
        return Err(Refusal::of(12));
    }
    if product(&first, &second).transitions.len() > 4000 {
        return Err(Refusal::of(13));
    }
    Ok((first, second))
}

/// The product machine: states are pairs, numbered first x (states of second) + second.
pub fn product(first: &Machine, second: &Machine) -> Machine {
    let pair = |p: usize, q: usize| p * second.states() + q;
    let mut marks = Vec::new();
    for &a in &first.marks {
        for &b in &second.marks {
            marks.push((a & b & (INITIAL | FINAL)) | (a & (BUFFERING | MATCHING)));
        }
    }
    let mut transitions = Vec::new();
    for s in &first.transitions {
        if s.letter == 0 {
            for q in 0..second.states() {
                transitions.push((pair(s.from, q), 0, pair(s.to, q)));
            }
        }
        for t in &second.transitions {
            if s.letter != 0 && s.letter == t.letter {
                transitions.push((pair(s.from, t.from), s.letter, pair(s.to, t.to)));
            }
        }
    }
    Machine::new(first.letters, &marks, &transitions)
}

/// The public call of joining: refusals 16, 16, 10, 11, 12, 13, 15. On success the transitions stand at the front of
/// `list`; on a refusal `list` is unchanged.
pub fn join(
    first: &Record,
    first_list: &[u16],
    second: &Record,
    second_list: &[u16],
    list: &mut [u16],
) -> Result<Record, Refusal> {
    let (first, second) = operands(first, first_list, second, second_list)?;
    let (record, written) = product(&first, &second).record();
    if list.len() < written.len() {
        return Err(Refusal::too_short(15, written.len()));
    }
    list[..written.len()].copy_from_slice(&written);
    Ok(record)
}
