//! The copy list of an accepting run.

use crate::{check_word, moves, Machine, Record, Refusal, BEGIN_EMPTYING, LONGEST_RECOGNIZED};

/// What the copy list comes with.
#[derive(Clone, Copy, PartialEq, Eq, Debug)]
pub struct Copies {
    /// The number of copies with letters; the list has two elements for each.
    pub count: usize,
    /// The number of letters stored in all.
    pub total: usize,
}

/// All copies of an accepting run in order, one for each entry 65,534 behind the start state, also those of no letters:
/// the position where buffering began and the number of letters stored. Nothing if the run does not accept the word.
pub fn all_copies(machine: &Machine, word: &[u8], run: &[u16]) -> Option<Vec<(usize, usize)>> {
    if !moves::accepting(machine, word, run) {
        return None;
    }
    let (visited, _) = moves::follow(machine, word, run);
    let mut all = Vec::new();
    // visited[i] is the configuration after entry i, so visited[i - 1] is the one before it.
    for i in 1..run.len() {
        if run[i] == BEGIN_EMPTYING {
            let before = visited[i - 1];
            all.push((before.start, before.end - before.start));
        }
    }
    Some(all)
}

/// Writes for each copy of the run that has letters, in order, the position where buffering began and the number of
/// letters stored; copies of no letters are left out. The total is taken from the last copy to the first. Refusals 16,
/// 9 (over 255 letters), 8, 14 (the run does not accept), 20; then `list` is unchanged.
pub fn copies(
    record: &Record,
    transitions: &[u16],
    word: &[u8],
    run: &[u16],
    list: &mut [u16],
) -> Result<Copies, Refusal> {
    let machine = record.machine(transitions)?;
    check_word(&machine, word, LONGEST_RECOGNIZED)?;
    let Some(all) = all_copies(&machine, word, run) else {
        return Err(Refusal::of(14));
    };
    let mut kept = Vec::new();
    for (begin, letters) in all {
        if letters > 0 {
            kept.push((begin, letters));
        }
    }
    let needed = 2 * kept.len();
    if list.len() < needed {
        return Err(Refusal::too_short(20, needed));
    }
    for (number, &(begin, letters)) in kept.iter().enumerate() {
        list[2 * number] = begin as u16;
        list[2 * number + 1] = letters as u16;
    }
    let mut total = 0;
    for &(_, letters) in kept.iter().rev() {
        total += letters;
    }
    Ok(Copies {
        count: kept.len(),
        total,
    })
}
