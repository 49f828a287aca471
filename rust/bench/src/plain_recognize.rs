//! A plain recognizer in Rust, written for speed: the same answers and refusals as the proved call, with a run.
//!
//! Sets of states are 64-bit numbers. For each position there is the set that a run reaches in normal mode, and for each
//! position where buffering begins a row of sets, one for each position up to which it stores. A copy that ends at
//! position t empties along one row of sets, whatever position it began at. The run is found backwards from the sets.

use crate::plain::keeps_rules;
use crate::plain_moves::{states_of, Moves, EMPTYING, NORMAL, STORING};
use zagvirk::{Machine, BACK_TO_NORMAL, BEGIN_BUFFERING, BEGIN_EMPTYING};

/// With so many rows or fewer the halves of a copy are compared letter by letter, each time anew.
const FEW: usize = 8;

/// The states reached at a position in normal mode: by a letter, by the end of a copy that has letters, and in all.
#[derive(Clone, Copy)]
struct Reached {
    by_letter: u64,
    by_copy: u64,
    normal: u64,
}

/// A row of sets from the position `start`: `sets[at + j]` is the set after j letters are stored.
struct Row {
    start: usize,
    at: usize,
    length: usize,
}

struct Search<'a> {
    list: &'a [u16],
    word: &'a [u8],
    /// For each letter of the word a number from 1; 0 is epsilon.
    letters: [u8; 256],
    /// The moves by the letters of the word.
    moves: &'a Moves,
    reached: Vec<Reached>,
    rows: Vec<Row>,
    sets: Vec<u64>,
    /// `same[h]` is the number of letters before the position `compared` that are each equal to the letter h before it.
    same: [u16; 256],
    compared: usize,
    /// Working space of a path.
    layers: Vec<[u64; 3]>,
}

/// The number of entries of an accepting run, written at the front of `run`, or nothing; or the refusal and the length
/// needed.
pub fn recognize(
    machine: &Machine,
    list: &[u16],
    word: &[u8],
    run: &mut [u16],
) -> Result<Option<usize>, (u8, usize)> {
    if !keeps_rules(machine, list) {
        return Err((16, 0));
    }
    if word.len() > 255 {
        return Err((9, 0));
    }
    let good = |&letter: &u8| letter != 0 && usize::from(letter) <= machine.letters;
    if !word.iter().all(good) {
        return Err((8, 0));
    }
    let needed = 3 * machine.states * (word.len() + 1);
    if run.len() < needed {
        return Err((17, needed));
    }
    let list = &list[..3 * machine.transitions];
    let (letters, count) = numbers(word);
    let moves = Moves::new(machine, list, &letters, count);
    let mut search = Search::new(list, word, letters, &moves);
    search.forward();
    let ends = search.reached[word.len()].normal & search.moves.ends;
    if ends == 0 {
        return Ok(None);
    }
    let mut entries = search.backward(ends.trailing_zeros() as usize);
    if entries.len() > needed {
        entries = search.cut(&entries);
    }
    run[..entries.len()].copy_from_slice(&entries);
    Ok(Some(entries.len()))
}

/// A number from 1 for each letter of the word, 0 for the others; the greatest.
pub fn numbers(word: &[u8]) -> ([u8; 256], usize) {
    let mut letters = [0; 256];
    let mut count = 0;
    for &letter in word {
        if letters[usize::from(letter)] == 0 {
            count += 1;
            letters[usize::from(letter)] = count;
        }
    }
    (letters, usize::from(count))
}

impl<'a> Search<'a> {
    fn new(list: &'a [u16], word: &'a [u8], letters: [u8; 256], moves: &'a Moves) -> Search<'a> {
        Search {
            list,
            word,
            letters,
            moves,
            reached: Vec::with_capacity(word.len() + 1),
            rows: Vec::with_capacity(4),
            sets: Vec::with_capacity(word.len() + 2),
            same: [0; 256],
            compared: 0,
            layers: Vec::with_capacity(4),
        }
    }

    /// The set after the letter at the position.
    fn read(&self, mode: usize, set: u64, position: usize) -> u64 {
        let number = self.letters[usize::from(self.word[position])];
        self.moves.step(mode, set, usize::from(number))
    }

    /// The set that begins to empty at the position in a copy that ends at `end` and began in the row, if the halves are
    /// the same.
    fn begins_emptying(&self, row: &Row, end: usize) -> u64 {
        let half = (end - row.start) / 2;
        if half == 0 || half >= row.length {
            return 0;
        }
        let set = self.sets[row.at + half] & self.moves.matching;
        if set == 0 || !self.same_halves(row.start, half, end) {
            return 0;
        }
        set
    }

    /// Whether the two halves of the stretch are the same.
    fn same_halves(&self, start: usize, half: usize, end: usize) -> bool {
        if self.compared == end {
            return usize::from(self.same[half]) >= half;
        }
        self.word[start..start + half] == self.word[start + half..end]
    }

    /// The set in which copies with letters end at the position.
    fn copies_to(&self, end: usize) -> u64 {
        let (mut set, mut position) = (0, 0);
        for row in &self.rows {
            if !(end - row.start).is_multiple_of(2) {
                continue;
            }
            let begin = self.begins_emptying(row, end);
            if begin != 0 {
                let from = (end + row.start) / 2;
                set = self.emptied(set, position, from);
                position = from;
                set |= self.moves.close(EMPTYING, begin);
            }
        }
        self.emptied(set, position, end)
    }

    /// The set after emptying from one position to another.
    fn emptied(&self, mut set: u64, from: usize, to: usize) -> u64 {
        for position in from..to {
            if set == 0 {
                break;
            }
            set = self
                .moves
                .close(EMPTYING, self.read(EMPTYING, set, position));
        }
        set
    }

    /// Fills the sets for all positions.
    fn forward(&mut self) {
        let n = self.word.len();
        for position in 0..=n {
            let by_letter = match position {
                0 => self.moves.initial,
                _ => self.read(NORMAL, self.reached[position - 1].normal, position - 1),
            };
            if self.rows.len() > FEW {
                while self.compared < position {
                    self.compare(self.compared + 1);
                }
            }
            let by_copy = self.copies_to(position);
            let normal = match by_letter | by_copy {
                0 => 0,
                seed => self.moves.close_normal(seed),
            };
            self.reached.push(Reached {
                by_letter,
                by_copy,
                normal,
            });
            let begin = normal & self.moves.buffering;
            if begin != 0 && position < n {
                let at = self.sets.len();
                let mut set = self.moves.close(STORING, begin);
                self.sets.push(set);
                for next in position..(n + position) / 2 {
                    set = self.moves.close(STORING, self.read(STORING, set, next));
                    if set == 0 {
                        break;
                    }
                    self.sets.push(set);
                }
                let length = self.sets.len() - at;
                self.rows.push(Row {
                    start: position,
                    at,
                    length,
                });
            }
        }
    }

    /// Brings `same` up to the position.
    fn compare(&mut self, position: usize) {
        let last = self.word[position - 1];
        let before = self.word[..position - 1].iter().rev();
        for (same, &letter) in self.same[1..].iter_mut().zip(before) {
            *same = if letter == last { *same + 1 } else { 0 };
        }
        self.compared = position;
    }

    /// The number of a transition.
    fn transition(&self, from: usize, letter: u8, to: usize) -> u16 {
        let wanted = [from as u16, u16::from(letter), to as u16];
        let (mut low, mut high) = (0, self.list.len() / 3);
        while low < high {
            let middle = (low + high) / 2;
            if self.list[3 * middle..3 * middle + 3] < wanted[..] {
                low = middle + 1;
            } else {
                high = middle;
            }
        }
        low as u16
    }

    /// A state of the set from which a transition with the letter leads to the state.
    fn before(&self, mode: usize, set: u64, letter: u8, to: usize) -> Option<usize> {
        let number = usize::from(self.letters[usize::from(letter)]);
        states_of(set).find(|&from| self.moves.step_from(mode, from, number) >> to & 1 != 0)
    }

    /// Entries at one position from the sets of the three modes to the state, the last entry first. Mode changes are
    /// used only if `change`. Returns the state where they begin.
    fn path(
        &mut self,
        seeds: [u64; 3],
        goal: (usize, usize),
        change: bool,
        run: &mut Vec<u16>,
    ) -> usize {
        let (mut mode, mut state) = goal;
        if seeds[mode] >> state & 1 != 0 {
            return state;
        }
        let mut layers = std::mem::take(&mut self.layers);
        layers.clear();
        layers.push(seeds);
        let mut seen = seeds;
        while seen[mode] >> state & 1 == 0 {
            let last = layers[layers.len() - 1];
            let mut next = [NORMAL, STORING, EMPTYING].map(|m| self.moves.step(m, last[m], 0));
            if change {
                next[STORING] |= last[NORMAL] & self.moves.buffering;
                next[EMPTYING] |= last[STORING] & self.moves.matching;
                next[NORMAL] |= last[EMPTYING] & self.moves.matching;
            }
            for m in 0..3 {
                next[m] &= !seen[m];
                seen[m] |= next[m];
            }
            layers.push(next);
        }
        layers.pop();
        for layer in layers.iter().rev() {
            if let Some(from) = self.before(mode, layer[mode], 0, state) {
                run.push(self.transition(from, 0, state));
                state = from;
                continue;
            }
            let (before, entry) = match mode {
                NORMAL => (EMPTYING, BACK_TO_NORMAL),
                STORING => (NORMAL, BEGIN_BUFFERING),
                _ => (STORING, BEGIN_EMPTYING),
            };
            run.push(entry);
            mode = before;
        }
        self.layers = layers;
        state
    }

    /// An accepting run that ends in the state.
    fn backward(&mut self, end: usize) -> Vec<u16> {
        let mut run = Vec::with_capacity(2 * self.word.len() + 8);
        let (mut position, mut state) = (self.word.len(), end);
        loop {
            let reached = self.reached[position];
            let seed = reached.by_letter | reached.by_copy;
            state = self.path([seed, 0, 0], (NORMAL, state), true, &mut run);
            if reached.by_letter >> state & 1 != 0 {
                if position == 0 {
                    run.push(state as u16);
                    run.reverse();
                    return run;
                }
                position -= 1;
                let letter = self.word[position];
                let from = self.before(NORMAL, self.reached[position].normal, letter, state);
                let from = from.expect("a state before");
                run.push(self.transition(from, letter, state));
                state = from;
            } else {
                (position, state) = self.copy_back(position, state, &mut run);
            }
        }
    }

    /// The entries of a copy that ends at the position in the state, the last first. Returns where it began.
    fn copy_back(&mut self, end: usize, state: usize, run: &mut Vec<u16>) -> (usize, usize) {
        // For each position the set that begins to empty there and the set that comes from the letter before.
        let half = end.div_ceil(2);
        let mut begins = vec![0; end + 1 - half];
        for row in &self.rows {
            if row.start < end && (end - row.start).is_multiple_of(2) {
                begins[(end + row.start) / 2 - half] = self.begins_emptying(row, end);
            }
        }
        let mut comes = vec![0; end + 1 - half];
        for position in half..end {
            let set = self
                .moves
                .close(EMPTYING, begins[position - half] | comes[position - half]);
            comes[position + 1 - half] = self.read(EMPTYING, set, position);
        }
        run.push(BACK_TO_NORMAL);
        let (mut position, mut state) = (end, state);
        loop {
            let (begin, come) = (begins[position - half], comes[position - half]);
            state = self.path([0, 0, begin | come], (EMPTYING, state), false, run);
            if begin >> state & 1 != 0 {
                break;
            }
            position -= 1;
            let letter = self.word[position];
            let set = self
                .moves
                .close(EMPTYING, begins[position - half] | comes[position - half]);
            let from = self
                .before(EMPTYING, set, letter, state)
                .expect("a state before");
            run.push(self.transition(from, letter, state));
            state = from;
        }
        run.push(BEGIN_EMPTYING);
        let start = 2 * position - end;
        let row = self.rows.iter().find(|row| row.start == start);
        let at = row.expect("a row").at;
        while position > start {
            let letter = self.word[position - 1];
            let before = self.sets[at + position - 1 - start];
            let come = self.read(STORING, before, position - 1);
            state = self.path([0, come, 0], (STORING, state), false, run);
            let from = self
                .before(STORING, before, letter, state)
                .expect("a state before");
            run.push(self.transition(from, letter, state));
            state = from;
            position -= 1;
        }
        let begin = self.reached[start].normal & self.moves.buffering;
        state = self.path([0, begin, 0], (STORING, state), false, run);
        run.push(BEGIN_BUFFERING);
        (start, state)
    }

    /// The run without the parts between two configurations with the same position, state and mode.
    fn cut(&self, run: &[u16]) -> Vec<u16> {
        let mut kept: Vec<(u16, (usize, usize, usize))> = Vec::new();
        let mut config = (0, NORMAL, usize::from(run[0]));
        kept.push((run[0], config));
        for &entry in &run[1..] {
            match entry {
                BEGIN_BUFFERING => config.1 = STORING,
                BEGIN_EMPTYING => config.1 = EMPTYING,
                BACK_TO_NORMAL => config.1 = NORMAL,
                _ => {
                    let at = 3 * usize::from(entry);
                    config.0 += usize::from(self.list[at + 1] != 0);
                    config.2 = usize::from(self.list[at + 2]);
                }
            }
            match kept.iter().rposition(|&(_, seen)| seen == config) {
                Some(index) => kept.truncate(index + 1),
                None => kept.push((entry, config)),
            }
        }
        kept.into_iter().map(|(entry, _)| entry).collect()
    }
}

#[cfg(test)]
mod tests {
    use super::recognize;
    use compare::{break_a_rule, calls, filled, random_machine, random_word, record_of, Rng};
    use zagvirk::Machine;

    /// Compares both calls: the answer, the refusal and the length needed; a run of either accepts, stands at the front
    /// of the slice, and the rest of the slice is as it was. Returns the refusal, or 100 for no and 101 for yes.
    fn same(machine: &Machine, list: &[u16], word: &[u8], length: usize) -> usize {
        let (mut proved_run, mut plain_run) = (filled(length), filled(length));
        let proved = calls::recognize(machine, list, word, &mut proved_run);
        let proved = proved.map_err(|refusal| (refusal.number(), refusal.needed()));
        let plain = recognize(machine, list, word, &mut plain_run);
        let input = || format!("{machine:?}\nlist {list:?}\nword {word:?}");
        assert_eq!(
            plain.map(|run| run.is_some()),
            proved.map(|run| run.is_some()),
            "{}",
            input()
        );
        let entries = plain.ok().flatten().unwrap_or(0);
        assert!(plain_run[entries..] == filled(length)[entries..]);
        if let (Ok(Some(proved)), Ok(Some(plain))) = (proved, plain) {
            for run in [&proved_run[..proved], &plain_run[..plain]] {
                let checked = calls::check_run(machine, list, word, run);
                assert_eq!(checked, Ok(true), "{}\nrun {run:?}", input());
            }
        }
        match proved {
            Ok(run) => 100 + usize::from(run.is_some()),
            Err((number, _)) => usize::from(number),
        }
    }

    /// The plain recognizer does all that the proved call does.
    #[test]
    fn same_as_the_proved_call() {
        let mut rng = Rng::new(20_240_018);
        let mut counts = [0; 102];
        for _ in 0..20_000 {
            let machine = random_machine(&mut rng, 6, 3);
            let (record, list) = match rng.below(6) {
                0 => break_a_rule(&mut rng, &machine),
                _ => machine.record(),
            };
            let proved = record_of(&record);
            for longest in [5, 12, 20] {
                let mut word = random_word(&mut rng, machine.letters, longest);
                if rng.once_in(10) {
                    let bad = rng.pick(&[0, machine.letters as u8 + 1, 255]);
                    word.insert(rng.below(word.len() + 1), bad);
                }
                if rng.once_in(100) {
                    word.resize(rng.pick(&[256, 257, 1000]), 0);
                }
                let needed = 3 * machine.states() * (word.len() + 1);
                let length = match rng.below(8) {
                    0 => rng.below(needed),
                    1 => needed + 1 + rng.below(9),
                    _ => needed,
                };
                counts[same(&proved, &list, &word, length)] += 1;
            }
        }
        println!(
            "plain recognizer: {} cases, {} yes, {} no, refused with 16: {}, 9: {}, 8: {}, 17: {}",
            counts.iter().sum::<u32>(),
            counts[101],
            counts[100],
            counts[16],
            counts[9],
            counts[8],
            counts[17]
        );
        for number in [8, 9, 16, 17, 100, 101] {
            assert!(counts[number] > 100, "{number} is rare");
        }
    }
}
