//! The states that runs reach, in plain Rust written for speed: the same sets and refusals as the proved call.
//!
//! Sets of states are 64-bit numbers. Places where storing begins and from which it is in the same set of states are one
//! group: they store alike from there on. Where storing may end, what a group has stored is matched along one row of
//! sets, as far as the letters stand twice for the place of the group for which they do so longest. What a set leads to
//! is kept for the next time that it is asked for.

use crate::plain::keeps_rules;
use crate::plain_moves::{Moves, EMPTYING, NORMAL, STORING};
use crate::plain_recognize::numbers;
use zagvirk::Machine;

/// The most letters of a word.
const LONGEST: usize = 255;
/// The places for what sets lead to.
const KEPT: usize = 256;
/// The numbers from 255 down to 1: the last k of them are the distances of the places before place k to it.
const DISTANCES: [u8; LONGEST] = {
    let mut distances = [0; LONGEST];
    let mut place = 0;
    while place < LONGEST {
        distances[place] = (LONGEST - place) as u8;
        place += 1;
    }
    distances
};

/// The number of sets written at the front of `sets`; or the refusal and the length needed.
pub fn reach(
    machine: &Machine,
    list: &[u16],
    word: &[u8],
    sets: &mut [u64],
) -> Result<usize, (u8, usize)> {
    if !keeps_rules(machine, list) {
        return Err((16, 0));
    }
    if word.len() > LONGEST {
        return Err((9, 0));
    }
    let good = |&letter: &u8| letter != 0 && usize::from(letter) <= machine.letters;
    if !word.iter().all(good) {
        return Err((8, 0));
    }
    let needed = 3 * (word.len() + 1);
    if sets.len() < needed {
        return Err((36, needed));
    }
    let (letters, count) = numbers(word);
    let moves = Moves::new(machine, &list[..3 * machine.transitions], &letters, count);
    let mut read = [0; LONGEST];
    for (number, &letter) in read.iter_mut().zip(word) {
        *number = letters[usize::from(letter)];
    }
    Search::new(&moves, &read[..word.len()], count).write(&mut sets[..needed]);
    Ok(needed)
}

/// What a set leads to by a letter in a mode, as one number.
#[derive(Clone, Copy)]
struct Kept {
    set: u64,
    move_number: usize,
    image: u64,
}

/// Places where storing begins, from all of which it is now in the same set.
struct Group {
    set: u64,
    /// 255 for each place of the group, else 0.
    places: [u8; LONGEST + 1],
}

struct Search<'a> {
    moves: &'a Moves,
    /// The numbers of the word's letters.
    word: &'a [u8],
    kept: [Kept; KEPT],
    /// For each letter's number the last set that was matched by it, and what it leads to.
    matched: Vec<(u64, u64)>,
    groups: Vec<Group>,
    /// For each place the states that copies with letters end in, and those in which runs match.
    copied: [u64; LONGEST + 1],
    emptying: [u64; LONGEST + 1],
    /// `repeated[e * LONGEST + p]` is the number of letters from place e on that are those from p on, for p below e.
    repeated: Vec<u8>,
}

impl<'a> Search<'a> {
    fn new(moves: &'a Moves, word: &'a [u8], count: usize) -> Search<'a> {
        Search {
            moves,
            word,
            // No set leads anywhere by this number.
            kept: [Kept {
                set: 0,
                move_number: usize::MAX,
                image: 0,
            }; KEPT],
            matched: vec![(0, 0); count + 1],
            groups: Vec::new(),
            copied: [0; LONGEST + 1],
            emptying: [0; LONGEST + 1],
            repeated: Vec::new(),
        }
    }

    /// Finds which letters stand twice.
    fn compare(&mut self) {
        let length = self.word.len();
        self.repeated = vec![0; (length + 1) * LONGEST];
        for end in (1..length).rev() {
            let (rows, behind) = self.repeated.split_at_mut((end + 1) * LONGEST);
            let row = &mut rows[end * LONGEST..][..end];
            let next = &behind[1..=end];
            let letter = self.word[end];
            for ((found, &next), &before) in row.iter_mut().zip(next).zip(self.word) {
                let same = u8::from(before == letter).wrapping_neg();
                *found = next.wrapping_add(1) & same;
            }
        }
    }

    /// The set that the set leads to in the mode by the letter's number, closed but in normal mode. By number 0: the
    /// closed set in normal mode, and the one in which storing or matching begins in the other two.
    #[inline]
    fn image(&mut self, mode: usize, set: u64, number: usize) -> u64 {
        if set == 0 {
            return 0;
        }
        let move_number = 3 * number + mode;
        let mixed = (set ^ (move_number as u64) << 32).wrapping_mul(0x9e37_79b9_7f4a_7c15);
        let place = (mixed >> 56) as usize % KEPT;
        let kept = &self.kept[place];
        if kept.set == set && kept.move_number == move_number {
            return kept.image;
        }
        let moves = self.moves;
        let image = match (mode, number) {
            (NORMAL, 0) => moves.close_normal(set),
            (NORMAL, _) => moves.step(NORMAL, set, number),
            (STORING, 0) => moves.close(STORING, set & moves.buffering),
            (EMPTYING, 0) => moves.close(EMPTYING, set & moves.matching),
            _ => moves.close(mode, moves.step(mode, set, number)),
        };
        self.kept[place] = Kept {
            set,
            move_number,
            image,
        };
        image
    }

    /// Writes the sets of all places.
    fn write(&mut self, sets: &mut [u64]) {
        let mut normal = 0;
        for (place, sets) in sets.chunks_exact_mut(3).enumerate() {
            let seed = match place {
                0 => self.moves.initial,
                _ => {
                    let letter = usize::from(self.word[place - 1]);
                    self.store(letter);
                    self.image(NORMAL, normal, letter)
                }
            };
            normal = self.image(NORMAL, seed | self.copied[place], 0);
            let begun = self.image(STORING, normal, 0);
            if begun != 0 {
                self.begin(place, begun);
            }
            let mut storing = 0;
            for number in 0..self.groups.len() {
                let set = self.groups[number].set;
                storing |= set;
                let ready = self.image(EMPTYING, set, 0);
                if ready != 0 {
                    self.empty(number, place, ready);
                }
            }
            sets.copy_from_slice(&[normal, storing, self.emptying[place]]);
        }
    }

    /// All groups read and store the letter.
    fn store(&mut self, letter: usize) {
        let mut number = 0;
        while number < self.groups.len() {
            let set = self.image(STORING, self.groups[number].set, letter);
            let other = self.groups[..number].iter().position(|g| g.set == set);
            if set == 0 {
                self.groups.swap_remove(number);
            } else if let Some(other) = other {
                let group = self.groups.swap_remove(number);
                let places = self.groups[other].places.iter_mut().zip(group.places);
                places.for_each(|(all, more)| *all |= more);
            } else {
                self.groups[number].set = set;
                number += 1;
            }
        }
    }

    /// Storing begins at the place in the set.
    fn begin(&mut self, place: usize, set: u64) {
        let known = self.groups.iter_mut().find(|group| group.set == set);
        match known {
            Some(group) => group.places[place] = 255,
            None => {
                let mut places = [0; LONGEST + 1];
                places[place] = 255;
                self.groups.push(Group { set, places });
            }
        }
    }

    /// The group begins to match at the place `end` in the set `ready`: adds what it reaches there and behind.
    fn empty(&mut self, number: usize, end: usize, ready: u64) {
        self.emptying[end] |= ready;
        if end == self.word.len() {
            return;
        }
        if self.repeated.is_empty() {
            self.compare();
        }
        let repeated = &self.repeated[end * LONGEST..][..end];
        let distances = &DISTANCES[LONGEST - end..];
        let places = &self.groups[number].places;
        let matched = repeated.iter().zip(distances).zip(places);
        let longest = matched.fold(0, |longest, ((&repeated, &distance), &place)| {
            longest.max(repeated.min(distance) & place)
        });
        let mut set = ready;
        for half in 1..=usize::from(longest) {
            let letter = usize::from(self.word[end + half - 1]);
            if self.matched[letter].0 != set {
                self.matched[letter] = (set, self.image(EMPTYING, set, letter));
            }
            set = self.matched[letter].1;
            if set == 0 {
                return;
            }
            self.emptying[end + half] |= set;
            let start = end - half;
            let all = usize::from(self.repeated[end * LONGEST + start]) >= half;
            if all && self.groups[number].places[start] != 0 {
                self.copied[end + half] |= set;
            }
        }
    }
}

#[cfg(test)]
mod tests {
    use super::reach;
    use compare::many_copies::{repetitive_word, zone_circle, zones};
    use compare::{break_a_rule, calls, filled_numbers, random_machine, random_word, record_of};
    use compare::{tally, Rng};
    use zagvirk::Machine;

    /// Compares both calls: the result and the whole slice, of the length. Returns the refusal or 0.
    fn same(machine: &Machine, list: &[u16], word: &[u8], length: usize) -> u8 {
        let (mut proved_sets, mut plain_sets) = (filled_numbers(length), filled_numbers(length));
        let proved = calls::reach_into(machine, list, word, &mut proved_sets);
        let proved = proved.map_err(|refusal| (refusal.number(), refusal.needed()));
        let plain = reach(machine, list, word, &mut plain_sets);
        assert!(
            plain == proved && plain_sets == proved_sets,
            "{machine:?}\nlist {list:?}\nword {word:?}\nproved {proved:?} {proved_sets:?}\nplain {plain:?} {plain_sets:?}"
        );
        plain.err().map_or(0, |(number, _)| number)
    }

    /// The plain call does all that the proved one does.
    #[test]
    fn same_as_the_proved_call() {
        let mut rng = Rng::new(20_240_076);
        let mut refusals = [0; 37];
        for _ in 0..40_000 {
            let most = rng.pick(&[2, 3, 3, 12, 250]);
            let machine = random_machine(&mut rng, 6, most);
            let (record, list) = match rng.below(8) {
                0 => break_a_rule(&mut rng, &machine),
                _ => machine.record(),
            };
            let longest = rng.pick(&[3, 8, 20, 60]);
            let mut word = random_word(&mut rng, machine.letters, longest);
            if rng.once_in(12) {
                let bad = rng.pick(&[0, machine.letters as u8 + 1, 255]);
                word.insert(rng.below(word.len() + 1), bad);
            }
            if rng.once_in(60) {
                word.resize(rng.pick(&[256, 257, 700]), rng.pick(&[0, 1]));
            }
            let needed = 3 * (word.len() + 1);
            let length = match rng.below(8) {
                0 => rng.below(needed),
                1 => needed + rng.below(5),
                _ => needed,
            };
            let refusal = same(&record_of(&record), &list, &word, length);
            refusals[usize::from(refusal)] += 1;
        }
        println!("plain reach: by refusal {}", tally(&refusals));
        for refusal in [0, 8, 9, 16, 36] {
            assert!(refusals[refusal] > 300, "{refusal} is rare");
        }
    }

    /// Long words with many copies.
    #[test]
    fn same_on_long_words() {
        let mut rng = Rng::new(20_240_077);
        let words = 600;
        for number in 0..words {
            let letters = rng.pick(&[1, 2, 3, 20, 40]);
            let machine = match number % 3 {
                0 => zones(&mut rng, 20, letters),
                _ => zone_circle(&mut rng, letters),
            };
            let (record, list) = machine.record();
            let length = rng.pick(&[20, 60, 130, 254, 255]);
            let word = repetitive_word(&mut rng, letters, length);
            let needed = 3 * (length + 1);
            assert_eq!(same(&record_of(&record), &list, &word, needed), 0);
        }
        println!("plain reach: {words} long words");
    }
}
