//! Definitions 11 to 13 of source 000: configurations with strings, the relation "yields", and recognition by
//! breadth-first search over the configurations.

use crate::{check_word, Machine, Record, Refusal, LONGEST_RECOGNIZED};
use crate::{BACK_TO_NORMAL, BEGIN_BUFFERING, BEGIN_EMPTYING};
use crate::{BUFFERING, FINAL, INITIAL, MATCHING};
use std::collections::{HashMap, VecDeque};

/// The modes N, B and E.
#[derive(Clone, Copy, PartialEq, Eq, Hash, Debug)]
pub enum Mode {
    Normal,
    Buffering,
    Emptying,
}

/// A configuration (u, q, v, t): the rest of the input, the state, the string in the buffer, the mode.
#[derive(Clone, PartialEq, Eq, Hash, Debug)]
pub struct Config {
    pub rest: Vec<u8>,
    pub state: usize,
    pub buffer: Vec<u8>,
    pub mode: Mode,
}

/// Every configuration that the given one yields, each with the entry that a run has for the move.
pub fn yields(machine: &Machine, config: &Config) -> Vec<(u16, Config)> {
    let mut found = Vec::new();
    for (number, &transition) in machine.transitions.iter().enumerate() {
        if transition.from != config.state {
            continue;
        }
        // x is the string that the transition reads: a letter or nothing.
        let x: Vec<u8> = match transition.letter {
            0 => vec![],
            letter => vec![letter as u8],
        };
        let Some(rest) = config.rest.strip_prefix(x.as_slice()) else {
            continue;
        };
        let (rest, state) = (rest.to_vec(), transition.to);
        let both_matching = machine.between_matching(transition);
        let buffer = match config.mode {
            Mode::Normal
                if !both_matching
                    && config.buffer.is_empty()
                    && !machine.has(transition.from, BUFFERING) =>
            {
                Some(vec![])
            }
            Mode::Buffering if !both_matching && !machine.has(transition.to, BUFFERING) => {
                Some([config.buffer.as_slice(), x.as_slice()].concat())
            }
            Mode::Emptying if both_matching => config
                .buffer
                .strip_prefix(x.as_slice())
                .map(|buffer| buffer.to_vec()),
            _ => None,
        };
        if let Some(buffer) = buffer {
            let next = Config {
                rest,
                state,
                buffer,
                mode: config.mode,
            };
            found.push((number as u16, next));
        }
    }
    let change = match config.mode {
        Mode::Normal if machine.has(config.state, BUFFERING) && config.buffer.is_empty() => {
            Some((BEGIN_BUFFERING, Mode::Buffering))
        }
        Mode::Buffering if machine.has(config.state, MATCHING) => {
            Some((BEGIN_EMPTYING, Mode::Emptying))
        }
        Mode::Emptying if machine.has(config.state, MATCHING) && config.buffer.is_empty() => {
            Some((BACK_TO_NORMAL, Mode::Normal))
        }
        _ => None,
    };
    if let Some((entry, mode)) = change {
        let next = Config {
            mode,
            ..config.clone()
        };
        found.push((entry, next));
    }
    found
}

/// An accepting run of the word with the fewest entries, or nothing if the machine does not accept the word.
pub fn find_run(machine: &Machine, word: &[u8]) -> Option<Vec<u16>> {
    let mut reached: HashMap<Config, Option<(Config, u16)>> = HashMap::new();
    let mut queue: VecDeque<Config> = VecDeque::new();
    for state in 0..machine.states() {
        if machine.has(state, INITIAL) {
            let start = Config {
                rest: word.to_vec(),
                state,
                buffer: vec![],
                mode: Mode::Normal,
            };
            reached.insert(start.clone(), None);
            queue.push_back(start);
        }
    }
    while let Some(config) = queue.pop_front() {
        let ends = config.rest.is_empty()
            && config.buffer.is_empty()
            && config.mode == Mode::Normal
            && machine.has(config.state, FINAL);
        if ends {
            return Some(run_to(&reached, config));
        }
        for (entry, next) in yields(machine, &config) {
            if !reached.contains_key(&next) {
                reached.insert(next.clone(), Some((config.clone(), entry)));
                queue.push_back(next);
            }
        }
    }
    None
}

/// The run that led to the configuration.
fn run_to(reached: &HashMap<Config, Option<(Config, u16)>>, end: Config) -> Vec<u16> {
    let mut run = Vec::new();
    let mut config = end;
    while let Some((before, entry)) = &reached[&config] {
        run.push(*entry);
        config = before.clone();
    }
    run.push(config.state as u16);
    run.reverse();
    run
}

/// The public call of recognition: refusals 16, 9 (over 255 letters), 8, 17 (a run slice of fewer than
/// 3 x states x (letters of the word + 1) elements). Then the number of entries of an accepting run, written at
/// the front of `run`, or nothing for "no".
pub fn recognize(
    record: &Record,
    list: &[u16],
    word: &[u8],
    run: &mut [u16],
) -> Result<Option<usize>, Refusal> {
    let machine = record.machine(list)?;
    check_word(&machine, word, LONGEST_RECOGNIZED)?;
    let needed = 3 * machine.states() * (word.len() + 1);
    if run.len() < needed {
        return Err(Refusal::too_short(17, needed));
    }
    let found = find_run(&machine, word);
    if let Some(entries) = &found {
        run[..entries.len()].copy_from_slice(entries);
    }
    Ok(found.map(|entries| entries.len()))
}
