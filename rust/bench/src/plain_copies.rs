//! The copy list of an accepting run in plain Rust, written for speed: the same list, answer and refusals as the proved
//! call.
//!
//! The run is followed once. A copy that is listed has a letter at least and is matched before the next begins, so a
//! word has few of them, and they are kept on the stack until it is known that the run accepts.

use crate::plain::{accepts, has_letters, keeps_rules};
use zagvirk::Machine;

/// The most letters of a word.
const LONGEST: usize = 255;
/// The most copies with letters that a run meets: each but the last is matched, so it has two letters of the word.
const MOST: usize = 128;

/// The number of copies written at the front of `copies` and the letters that they store; or the refusal and the length
/// needed.
pub fn list_copies(
    machine: &Machine,
    list: &[u16],
    word: &[u8],
    run: &[u16],
    copies: &mut [u16],
) -> Result<(usize, usize), (u8, usize)> {
    if !keeps_rules(machine, list) {
        return Err((16, 0));
    }
    if word.len() > LONGEST {
        return Err((9, 0));
    }
    if !has_letters(machine, word) {
        return Err((8, 0));
    }
    let mut kept = [0; 2 * MOST];
    let mut needed = 0;
    let found = accepts(machine, list, word, run, |begin, letters| {
        if letters > 0 {
            kept[needed..needed + 2].copy_from_slice(&[begin as u16, letters as u16]);
            needed += 2;
        }
    });
    if found.is_none() {
        return Err((14, 0));
    }
    let Some(front) = copies.get_mut(..needed) else {
        return Err((20, needed));
    };
    front.copy_from_slice(&kept[..needed]);
    let letters = front.iter().skip(1).step_by(2);
    let total = letters.rev().map(|&letters| usize::from(letters)).sum();
    Ok((needed / 2, total))
}

#[cfg(test)]
mod tests {
    use super::list_copies;
    use crate::copies::{inputs, Input};
    use crate::random_runs::{random_run, RandomRun};
    use compare::{filled, record_of, tally, Rng};
    use reference::{copies, Record};

    /// Compares the answer and the whole slice, of the length, with the reference. Returns the refusal or 0.
    fn same(record: &Record, list: &[u16], word: &[u8], run: &[u16], length: usize) -> usize {
        let (mut plain_copies, mut reference_copies) = (filled(length), filled(length));
        let expected = copies::copies(record, list, word, run, &mut reference_copies);
        let expected = expected
            .map(|listed| (listed.count, listed.total))
            .map_err(|refusal| (refusal.number, refusal.needed));
        let plain = list_copies(&record_of(record), list, word, run, &mut plain_copies);
        assert!(
            plain == expected && plain_copies == reference_copies,
            "{record:?}\nlist {list:?}\nword {word:?}\nrun {run:?}\nreference {expected:?} {reference_copies:?}\n\
             plain {plain:?} {plain_copies:?}"
        );
        plain.err().map_or(0, |(number, _)| usize::from(number))
    }

    /// The plain call gives what the reference gives.
    #[test]
    fn same_as_the_reference() {
        let mut rng = Rng::new(20_240_081);
        let mut refusals = [0; 21];
        for _ in 0..50_000 {
            let Some(input) = random_run(&mut rng) else {
                continue;
            };
            let RandomRun {
                record,
                list,
                word,
                run,
            } = &input;
            let length = rng.pick(&[0, 1, 2, 3, 4, 6, word.len()]);
            refusals[same(record, list, word, run, length)] += 1;
        }
        println!("copy lists by refusal: {}", tally(&refusals));
        for number in [0, 8, 9, 14, 16, 20] {
            assert!(refusals[number] > 50, "refusal {number}");
        }
    }

    /// Also on the inputs that are measured, in slices around the length needed, and on a word of 255 letters with one
    /// copy more that is not matched.
    #[test]
    fn same_on_what_is_measured() {
        for input in inputs() {
            let record = input.record();
            let Input {
                list, word, run, ..
            } = &input;
            for length in [0, 1, 2, 39, 40, 253, 254, 255] {
                same(&record, list, word, run, length);
                same(&record, list, word, &run[..run.len() - 1], length);
            }
            if word.len() == 254 {
                let mut longer = word.clone();
                longer.push(1);
                let more = [run, &[4, 65_533, 0, 2, 1, 65_534][..]].concat();
                assert_eq!(same(&record, list, &longer, &more, 300), 14);
            }
        }
    }
}
