//! The two refusals of a word.

use crate::{Machine, Refusal};

/// The most letters of a word to recognize, to list copies of, to lay out on a page or to translate.
pub const LONGEST_RECOGNIZED: usize = 255;

/// The most letters of a word to check a run on.
pub const LONGEST_CHECKED: usize = 1_048_576;

/// Refusal 9 for a word over `longest` letters, then 8 for a letter 0 or above the machine's letter count.
pub fn check_word(machine: &Machine, word: &[u8], longest: usize) -> Result<(), Refusal> {
    if word.len() > longest {
        return Err(Refusal::of(9));
    }
    for &letter in word {
        if letter == 0 || usize::from(letter) > machine.letters {
            return Err(Refusal::of(8));
        }
    }
    Ok(())
}
