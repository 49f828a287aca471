//! The states that runs reach at each position of a word in each mode, from all configurations that can be reached.

use crate::moves::{step, Config};
use crate::{check_word, Machine, Record, Refusal, LONGEST_RECOGNIZED};
use crate::{BACK_TO_NORMAL, BEGIN_BUFFERING, BEGIN_EMPTYING, INITIAL};
use std::collections::HashSet;

/// Every configuration that some entries lead to from where a run starts.
pub fn configurations(machine: &Machine, word: &[u8]) -> HashSet<Config> {
    // The entries that may lead on from each state: the transitions that leave it, and the changes of mode.
    let mut entries = vec![vec![BEGIN_BUFFERING, BEGIN_EMPTYING, BACK_TO_NORMAL]; machine.states()];
    for (number, transition) in machine.transitions.iter().enumerate() {
        entries[transition.from].push(number as u16);
    }
    let mut reached: HashSet<Config> = HashSet::new();
    let mut waiting: Vec<Config> = Vec::new();
    for state in 0..machine.states() {
        if machine.has(state, INITIAL) {
            reached.insert(Config::initial(state));
            waiting.push(Config::initial(state));
        }
    }
    while let Some(config) = waiting.pop() {
        for &entry in &entries[config.state] {
            if let Some(next) = step(machine, word, config, entry) {
                if reached.insert(next) {
                    waiting.push(next);
                }
            }
        }
    }
    reached
}

/// For each position and each of the modes 0, 1 and 2 the set of states of the configurations with them, at
/// 3 x position + mode. Bit q of a set is 1 for state q.
pub fn sets<'a>(word: &[u8], reached: impl IntoIterator<Item = &'a Config>) -> Vec<u64> {
    let mut sets = vec![0; 3 * (word.len() + 1)];
    for config in reached {
        sets[3 * config.position + usize::from(config.mode)] |= 1 << config.state;
    }
    sets
}

/// The public call: refusals 16, 9 (over 255 letters), 8, 36 (a slice of fewer than 3 x (letters of the word + 1)
/// elements); then `slice` is unchanged. Else the sets stand at its front. Returns how many numbers are written.
pub fn reach(
    record: &Record,
    list: &[u16],
    word: &[u8],
    slice: &mut [u64],
) -> Result<usize, Refusal> {
    let machine = record.machine(list)?;
    check_word(&machine, word, LONGEST_RECOGNIZED)?;
    let needed = 3 * (word.len() + 1);
    if slice.len() < needed {
        return Err(Refusal::too_short(36, needed));
    }
    let found = sets(word, &configurations(&machine, word));
    slice[..needed].copy_from_slice(&found);
    Ok(needed)
}

#[cfg(test)]
mod tests {
    use super::{configurations, reach, sets};
    use crate::moves::{BUFFERING_MODE, EMPTYING_MODE, NORMAL_MODE};
    use crate::{Config, Machine, Refusal};

    /// Table T: doubled words over letters 1 and 2.
    fn table_t() -> Machine {
        Machine::new(
            2,
            &[5, 0, 10],
            &[
                (0, 0, 1),
                (1, 0, 2),
                (1, 1, 1),
                (1, 2, 1),
                (2, 1, 2),
                (2, 2, 2),
            ],
        )
    }

    /// In normal mode a run is in state 0 at the start and in 2 after an empty copy there; later in none, since storing
    /// begins at position 0 and nothing that is stored from there on stands twice. Storing goes on at each position, and
    /// matching begins at each.
    #[test]
    fn table_t_on_1_2_2_1() {
        let (machine, word) = (table_t(), [1, 2, 2, 1]);
        let found = sets(&word, &configurations(&machine, &word));
        let both = 1 << 1 | 1 << 2;
        let expected = [
            [1 << 0 | 1 << 2, 1 << 0 | both, 1 << 2],
            [0, both, 1 << 2],
            [0, both, 1 << 2],
            [0, both, 1 << 2],
            [0, both, 1 << 2],
        ];
        assert_eq!(found, expected.concat());
    }

    /// The configurations of T and 1: a copy of the letter begins to be matched and cannot go on.
    #[test]
    fn configurations_of_table_t() {
        let config = |position, state, mode, start, end| Config {
            position,
            state,
            mode,
            start,
            end,
        };
        let mut found: Vec<Config> = configurations(&table_t(), &[1]).into_iter().collect();
        found.sort_by_key(|c| (c.position, c.mode, c.state, c.start, c.end));
        let expected = [
            config(0, 0, NORMAL_MODE, 0, 0),
            config(0, 2, NORMAL_MODE, 0, 0),
            config(0, 0, BUFFERING_MODE, 0, 0),
            config(0, 1, BUFFERING_MODE, 0, 0),
            config(0, 2, BUFFERING_MODE, 0, 0),
            config(0, 2, EMPTYING_MODE, 0, 0),
            config(1, 1, BUFFERING_MODE, 0, 1),
            config(1, 2, BUFFERING_MODE, 0, 1),
            config(1, 2, EMPTYING_MODE, 0, 1),
        ];
        assert_eq!(found, expected);
    }

    #[test]
    fn refusals() {
        let (record, list) = table_t().record();
        let mut slice = [9; 16];
        let refused = |list: &[u16], word: &[u8], length: usize| {
            let mut slice = vec![9; length];
            let result = reach(&record, list, word, &mut slice);
            assert!(slice.iter().all(|&number| number == 9));
            result.unwrap_err()
        };
        assert_eq!(refused(&list[..17], &[0; 256], 0), Refusal::of(16));
        assert_eq!(refused(&list, &[0; 256], 0), Refusal::of(9));
        assert_eq!(refused(&list, &[3; 255], 0), Refusal::of(8));
        let too_short = Refusal::too_short(36, 15);
        assert_eq!(refused(&list, &[1, 2, 2, 1], 14), too_short);
        assert_eq!(reach(&record, &list, &[1, 2, 2, 1], &mut slice), Ok(15));
        assert_eq!((slice[0], slice[14], slice[15]), (5, 4, 9));
    }
}
