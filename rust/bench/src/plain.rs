//! A plain run checker in Rust, written for speed: the same answers and refusals as the proved call.

use zagvirk::{Machine, BACK_TO_NORMAL, BEGIN_BUFFERING, BEGIN_EMPTYING};
use zagvirk::{BUFFERING, FINAL, INITIAL, LONGEST_WORD, MATCHING};

#[derive(PartialEq)]
enum Mode {
    Normal,
    Buffering,
    Emptying,
}

/// Whether the machine and its list keep the rules.
pub fn keeps_rules(machine: &Machine, list: &[u16]) -> bool {
    let Machine {
        states,
        letters,
        transitions,
        ref marks,
    } = *machine;
    if !(1..=64).contains(&states) || letters > 250 || transitions > 4000 {
        return false;
    }
    let (present, absent) = marks.split_at(states);
    let good = |&mark: &u8| mark < 16 && mark & (BUFFERING | MATCHING) != BUFFERING | MATCHING;
    if !present.iter().all(good) || absent.iter().any(|&mark| mark != 0) {
        return false;
    }
    let Some(list) = list.get(..3 * transitions) else {
        return false;
    };
    let mut before = None;
    for triple in list.chunks_exact(3) {
        let (from, letter, to) = (triple[0], triple[1], triple[2]);
        if usize::from(from) >= states || usize::from(to) >= states || usize::from(letter) > letters
        {
            return false;
        }
        if before >= Some((from, letter, to)) {
            return false;
        }
        before = Some((from, letter, to));
    }
    true
}

/// Whether the machine has every letter of the word.
pub fn has_letters(machine: &Machine, word: &[u8]) -> bool {
    // Letter 0 becomes 255, which is above every count.
    let greatest = word
        .iter()
        .fold(0, |greatest, letter| letter.wrapping_sub(1).max(greatest));
    word.is_empty() || usize::from(greatest) < machine.letters
}

/// Whether the run accepts the word, or the number of the refusal.
pub fn check_run(machine: &Machine, list: &[u16], word: &[u8], run: &[u16]) -> Result<bool, u8> {
    if !keeps_rules(machine, list) {
        return Err(16);
    }
    if word.len() > LONGEST_WORD {
        return Err(9);
    }
    if !has_letters(machine, word) {
        return Err(8);
    }
    Ok(accepts(machine, list, word, run, |_, _| {}).is_some())
}

/// Follows the run; `None` as soon as it cannot accept. For each copy that it meets, `copied` gets the position where
/// storing began and the number of letters stored. The machine and its list keep the rules.
#[inline]
pub fn accepts(
    machine: &Machine,
    list: &[u16],
    word: &[u8],
    run: &[u16],
    mut copied: impl FnMut(usize, usize),
) -> Option<()> {
    let (marks, list) = (&machine.marks, &list[..3 * machine.transitions]);
    let (&first, entries) = run.split_first()?;
    let mut state = usize::from(first);
    let mut mark = *marks.get(state)?;
    if mark & INITIAL == 0 {
        return None;
    }
    // The buffer is word[start..position] in buffering mode and word[start..end] in emptying mode.
    let (mut position, mut start, mut end) = (0, 0, 0);
    let mut mode = Mode::Normal;
    for &entry in entries {
        let at = 3 * usize::from(entry);
        if let Some(&[from, letter, to]) = list.get(at..at + 3) {
            if usize::from(from) != state {
                return None;
            }
            let to_mark = marks[usize::from(to)];
            let both_matching = mark & to_mark & MATCHING != 0;
            let reads = letter != 0;
            if reads && u16::from(*word.get(position)?) != letter {
                return None;
            }
            match mode {
                Mode::Normal if both_matching || mark & BUFFERING != 0 => return None,
                Mode::Buffering if both_matching || to_mark & BUFFERING != 0 => return None,
                Mode::Emptying if !both_matching => return None,
                Mode::Emptying if reads => {
                    if start == end || u16::from(word[start]) != letter {
                        return None;
                    }
                    start += 1;
                }
                _ => {}
            }
            position += usize::from(reads);
            state = usize::from(to);
            mark = to_mark;
            continue;
        }
        match entry {
            BEGIN_BUFFERING if mode == Mode::Normal && mark & BUFFERING != 0 => {
                mode = Mode::Buffering;
                start = position;
            }
            BEGIN_EMPTYING if mode == Mode::Buffering && mark & MATCHING != 0 => {
                mode = Mode::Emptying;
                end = position;
                copied(start, end - start);
            }
            BACK_TO_NORMAL if mode == Mode::Emptying && start == end && mark & MATCHING != 0 => {
                mode = Mode::Normal;
            }
            _ => return None,
        }
    }
    (mode == Mode::Normal && position == word.len() && mark & FINAL != 0).then_some(())
}
