//! Yes or no for a list of words in plain Rust, written for speed: the same answers and refusals as the proved call.

use crate::plain::keeps_rules;
use crate::plain_decide::{Decision, Word, LONGEST};
use zagvirk::Machine;

/// The number of words, with an answer for each at the front of `answers`; or the refusal and the length needed.
pub fn accept_words(
    machine: &Machine,
    list: &[u16],
    letters: &[u8],
    ends: &[usize],
    answers: &mut [u8],
) -> Result<usize, (u8, usize)> {
    if !keeps_rules(machine, list) {
        return Err((16, 0));
    }
    let rising = ends.windows(2).all(|pair| pair[0] <= pair[1]);
    if !rising || ends.last().is_some_and(|&last| last > letters.len()) {
        return Err((34, 0));
    }
    if answers.len() < ends.len() {
        return Err((35, ends.len()));
    }
    let mut decision = Decision::new(machine, &list[..3 * machine.transitions]);
    let mut word = Word::new();
    let count = machine.letters as u8;
    let mut start = 0;
    for (&end, answer) in ends.iter().zip(answers) {
        *answer = decide(&mut decision, &mut word, count, &letters[start..end]);
        start = end;
    }
    Ok(ends.len())
}

/// The answer for a word: 1 yes, 0 no, or its refusal.
fn decide(decision: &mut Decision, word: &mut Word, count: u8, letters: &[u8]) -> u8 {
    if letters.len() > LONGEST {
        return 9;
    }
    let bad = |letter: u8| letter.wrapping_sub(1) >= count;
    // All of them, so that several are looked at at once.
    if letters.iter().fold(false, |any, &letter| any | bad(letter)) {
        return 8;
    }
    word.letters[..letters.len()].copy_from_slice(letters);
    word.length = letters.len();
    u8::from(decision.accepts(word))
}

#[cfg(test)]
mod tests {
    use super::accept_words;
    use compare::calls::{self, Words};
    use compare::many_copies::{repetitive_word, zone_circle};
    use compare::{break_a_rule, filled_bytes, random_machine, random_word, record_of, Rng};
    use zagvirk::Machine;

    /// Compares both calls: the result and the whole slice for answers, of the length. Adds how many words have each
    /// answer. Returns the refusal or 0.
    fn same(
        machine: &Machine,
        list: &[u16],
        words: &Words,
        length: usize,
        answers: &mut [u64; 10],
    ) -> u8 {
        let (mut proved_answers, mut plain_answers) = (filled_bytes(length), filled_bytes(length));
        let proved = calls::accept_words(machine, list, words, &mut proved_answers);
        let proved = proved.map_err(|refusal| (refusal.number(), refusal.needed()));
        let Words { letters, ends } = words;
        let plain = accept_words(machine, list, letters, ends, &mut plain_answers);
        assert!(
            plain == proved && plain_answers == proved_answers,
            "{machine:?}\nlist {list:?}\n{words:?}\nproved {proved:?} {proved_answers:?}\nplain {plain:?} {plain_answers:?}"
        );
        for &answer in &plain_answers[..plain.unwrap_or(0)] {
            answers[usize::from(answer)] += 1;
        }
        plain.err().map_or(0, |(number, _)| number)
    }

    /// The plain call does all that the proved one does.
    #[test]
    fn same_as_the_proved_call() {
        let mut rng = Rng::new(20_240_066);
        let (mut refusals, mut answers) = ([0; 36], [0; 10]);
        for _ in 0..8_000 {
            let most = rng.pick(&[3, 3, 3, 12, 250]);
            let machine = random_machine(&mut rng, 6, most);
            let (record, list) = match rng.below(8) {
                0 => break_a_rule(&mut rng, &machine),
                _ => machine.record(),
            };
            let mut words = Words::default();
            for _ in 0..rng.below(40) {
                let longest = rng.pick(&[3, 8, 20, 60]);
                let mut word = random_word(&mut rng, machine.letters, longest);
                if rng.once_in(12) {
                    let bad = rng.pick(&[0, machine.letters as u8 + 1, 255]);
                    word.insert(rng.below(word.len() + 1), bad);
                }
                if rng.once_in(60) {
                    word.resize(rng.pick(&[254, 255, 256, 700]), rng.pick(&[0, 1]));
                }
                words.push(&word);
            }
            let count = words.ends.len();
            if count > 0 && rng.once_in(8) {
                let at = rng.below(count);
                words.ends[at] = rng.below(words.letters.len() + 2);
            }
            let length = match rng.below(8) {
                0 => rng.below(count + 1),
                1 => count + rng.below(5),
                _ => count,
            };
            let refusal = same(&record_of(&record), &list, &words, length, &mut answers);
            refusals[usize::from(refusal)] += 1;
        }
        println!("plain words: refusals {refusals:?}, answers {answers:?}");
        for refusal in [0, 16, 34, 35] {
            assert!(refusals[refusal] > 100, "{refusal} is rare");
        }
        for answer in [0, 1, 8, 9] {
            assert!(answers[answer] > 500, "{answer} is rare");
        }
    }

    /// Long words with many copies.
    #[test]
    fn same_on_long_words() {
        let mut rng = Rng::new(20_240_067);
        let mut answers = [0; 10];
        for _ in 0..400 {
            let letters = rng.pick(&[1, 2, 3, 20, 40]);
            let (record, list) = zone_circle(&mut rng, letters).record();
            let mut words = Words::default();
            for _ in 0..20 {
                let length = rng.pick(&[20, 60, 130, 254, 255]);
                words.push(&repetitive_word(&mut rng, letters, length));
            }
            let count = words.ends.len();
            same(&record_of(&record), &list, &words, count, &mut answers);
        }
        println!("plain words: long words, answers {answers:?}");
        assert!(answers[0] > 300 && answers[1] > 300);
    }
}
