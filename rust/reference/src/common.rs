//! A shortest common word of a machine and a plain machine, by trying every word. For words of any length there is
//! the number of its letters, by the relations of strings.

use crate::{product, published, relations, Machine, Record, Refusal};

/// The first word of at most `longest` letters, in order of length, that both machines accept.
pub fn shortest(first: &Machine, second: &Machine, longest: usize) -> Option<Vec<u8>> {
    let accepts = |machine: &Machine, word: &[u8]| published::find_run(machine, word).is_some();
    shortest_by(first, second, longest, accepts)
}

/// As [`shortest`], with another recognizer.
pub fn shortest_by(
    first: &Machine,
    second: &Machine,
    longest: usize,
    accepts: impl Fn(&Machine, &[u8]) -> bool,
) -> Option<Vec<u8>> {
    let letters = first.letters.min(second.letters) as u8;
    for length in 0..=longest {
        if length > 0 && letters == 0 {
            return None;
        }
        let mut word = vec![1; length];
        loop {
            if accepts(second, &word) && accepts(first, &word) {
                return Some(word);
            }
            if !next_word(&mut word, letters) {
                break;
            }
        }
    }
    None
}

/// The number of letters of a shortest word, of whatever length, that both machines accept; nothing if there is none.
pub fn least_letters(first: &Machine, second: &Machine) -> Option<usize> {
    relations::least_letters(&product::product(first, second))
}

/// Puts the next word of the same length in place, or says that there is none.
pub fn next_word(word: &mut [u8], letters: u8) -> bool {
    for letter in word.iter_mut().rev() {
        if *letter < letters {
            *letter += 1;
            return true;
        }
        *letter = 1;
    }
    false
}

/// The lengths of the three slices that are lent to the search.
#[derive(Clone, Copy, PartialEq, Eq, Debug)]
pub struct Room {
    pub word: usize,
    pub first_run: usize,
    pub second_run: usize,
}

impl Room {
    /// What a shortest common word of `letters` letters needs.
    pub fn needed(first: &Machine, letters: usize) -> Room {
        Room {
            word: letters,
            first_run: 3 * first.states() * (letters + 1),
            second_run: letters + 1,
        }
    }

    /// Refusals 18, 17 (first run), 17 (second run) if there is less room than needed.
    pub fn holds(self, needed: Room) -> Result<(), Refusal> {
        if self.word < needed.word {
            return Err(Refusal::too_short(18, needed.word));
        }
        if self.first_run < needed.first_run {
            return Err(Refusal::too_short(17, needed.first_run));
        }
        if self.second_run < needed.second_run {
            return Err(Refusal::too_short(17, needed.second_run));
        }
        Ok(())
    }
}

/// The counts of an answer with a common word.
#[derive(Clone, Copy, PartialEq, Eq, Debug)]
pub struct Common {
    /// The number of letters of the word.
    pub letters: usize,
    /// The number of entries of the first machine's run.
    pub first_entries: usize,
    /// The number of entries of the second machine's run.
    pub second_entries: usize,
}

/// The public call of the common-word search: refusals 16, 16, 10, 11, 12, 13, then, if there is a common word,
/// 18, 17 (first run), 17 (second run). Nothing for "no common word"; here that covers only words of at most
/// `longest` letters. On a refusal and on "no common word" every slice is unchanged.
#[allow(clippy::too_many_arguments)]
pub fn search(
    first: &Record,
    first_list: &[u16],
    second: &Record,
    second_list: &[u16],
    word: &mut [u8],
    first_run: &mut [u16],
    second_run: &mut [u16],
    longest: usize,
) -> Result<Option<Common>, Refusal> {
    let (first, second) = product::operands(first, first_list, second, second_list)?;
    let Some(found) = shortest(&first, &second, longest) else {
        return Ok(None);
    };
    let n = found.len();
    let room = Room {
        word: word.len(),
        first_run: first_run.len(),
        second_run: second_run.len(),
    };
    room.holds(Room::needed(&first, n))?;
    let one = published::find_run(&first, &found).expect("the first machine accepts the word");
    let two = published::find_run(&second, &found).expect("the second machine accepts the word");
    word[..n].copy_from_slice(&found);
    first_run[..one.len()].copy_from_slice(&one);
    second_run[..two.len()].copy_from_slice(&two);
    Ok(Some(Common {
        letters: n,
        first_entries: one.len(),
        second_entries: two.len(),
    }))
}
