//! The moves of a run, one entry at a time, and the run checker. The buffer is a stretch of the word.

use crate::{check_word, Machine, Record, Refusal, LONGEST_CHECKED};
use crate::{BUFFERING, FINAL, INITIAL, MATCHING};

/// Normal mode.
pub const NORMAL_MODE: u8 = 0;
/// Buffering mode (document 01: storing).
pub const BUFFERING_MODE: u8 = 1;
/// Emptying mode (document 01: matching).
pub const EMPTYING_MODE: u8 = 2;

/// Entry: normal becomes buffering.
pub const BEGIN_BUFFERING: u16 = 65_533;
/// Entry: buffering becomes emptying.
pub const BEGIN_EMPTYING: u16 = 65_534;
/// Entry: emptying becomes normal.
pub const BACK_TO_NORMAL: u16 = 65_535;

/// A configuration: position in the word, state, mode, and the buffer `word[start..end)`. Any values can stand
/// in it; [`is_configuration`] says which are a configuration.
#[derive(Clone, Copy, PartialEq, Eq, Hash, Debug)]
pub struct Config {
    pub position: usize,
    pub state: usize,
    pub mode: u8,
    pub start: usize,
    pub end: usize,
}

impl Config {
    /// Where a run starts: position 0, the given state, normal mode, empty buffer.
    pub fn initial(state: usize) -> Config {
        Config {
            position: 0,
            state,
            mode: NORMAL_MODE,
            start: 0,
            end: 0,
        }
    }
}

/// Whether a move could be allowed from here: the position is in the word or at its end, the state is there, the
/// mode is one of the three, and the buffer is a stretch of the word that ends at or before the position
/// (buffering mode: at it; normal mode: it is empty).
pub fn is_configuration(machine: &Machine, word: &[u8], config: Config) -> bool {
    if config.position > word.len() {
        return false;
    }
    if config.state >= machine.states() {
        return false;
    }
    if config.start > config.end || config.end > config.position {
        return false;
    }
    match config.mode {
        NORMAL_MODE => config.start == config.end,
        BUFFERING_MODE => config.end == config.position,
        EMPTYING_MODE => true,
        _ => false,
    }
}

/// The next configuration after one entry, or nothing if the move is not allowed.
pub fn step(machine: &Machine, word: &[u8], config: Config, entry: u16) -> Option<Config> {
    if !is_configuration(machine, word, config) {
        return None;
    }
    match entry {
        BEGIN_BUFFERING => {
            let allowed = config.mode == NORMAL_MODE && machine.has(config.state, BUFFERING);
            allowed.then_some(Config {
                mode: BUFFERING_MODE,
                start: config.position,
                end: config.position,
                ..config
            })
        }
        BEGIN_EMPTYING => {
            let allowed = config.mode == BUFFERING_MODE && machine.has(config.state, MATCHING);
            allowed.then_some(Config {
                mode: EMPTYING_MODE,
                ..config
            })
        }
        BACK_TO_NORMAL => {
            let allowed = config.mode == EMPTYING_MODE
                && config.start == config.end
                && machine.has(config.state, MATCHING);
            allowed.then_some(Config {
                mode: NORMAL_MODE,
                ..config
            })
        }
        _ => take(machine, word, config, usize::from(entry)),
    }
}

/// The next configuration after the transition with this number, from a configuration in which
/// [`is_configuration`] holds.
fn take(machine: &Machine, word: &[u8], config: Config, number: usize) -> Option<Config> {
    let transition = *machine.transitions.get(number)?;
    if transition.from != config.state {
        return None;
    }
    let reads = transition.letter != 0;
    if reads {
        let next = *word.get(config.position)?;
        if usize::from(next) != transition.letter {
            return None;
        }
    }
    let mut after = Config {
        state: transition.to,
        ..config
    };
    if reads {
        after.position += 1;
    }
    match config.mode {
        NORMAL_MODE => {
            if machine.between_matching(transition) || machine.has(transition.from, BUFFERING) {
                return None;
            }
        }
        BUFFERING_MODE => {
            if machine.between_matching(transition) || machine.has(transition.to, BUFFERING) {
                return None;
            }
            if reads {
                after.end += 1;
            }
        }
        _ => {
            if !machine.between_matching(transition) {
                return None;
            }
            if reads {
                if config.start == config.end {
                    return None;
                }
                if usize::from(word[config.start]) != transition.letter {
                    return None;
                }
                after.start += 1;
            }
        }
    }
    Some(after)
}

/// The configurations of a run, the first one being its start, as far as its moves are allowed; empty if the run
/// is empty or its start state is absent or not initial. The flag says whether the run was followed to its end.
pub fn follow(machine: &Machine, word: &[u8], run: &[u16]) -> (Vec<Config>, bool) {
    let Some((&start, entries)) = run.split_first() else {
        return (Vec::new(), false);
    };
    if !machine.has(usize::from(start), INITIAL) {
        return (Vec::new(), false);
    }
    let mut config = Config::initial(usize::from(start));
    let mut visited = vec![config];
    for &entry in entries {
        match step(machine, word, config, entry) {
            Some(next) => config = next,
            None => return (visited, false),
        }
        visited.push(config);
    }
    (visited, true)
}

/// Whether the run accepts the word.
pub fn accepting(machine: &Machine, word: &[u8], run: &[u16]) -> bool {
    let Some((&start, entries)) = run.split_first() else {
        return false;
    };
    if !machine.has(usize::from(start), INITIAL) {
        return false;
    }
    let mut config = Config::initial(usize::from(start));
    for &entry in entries {
        match step(machine, word, config, entry) {
            Some(next) => config = next,
            None => return false,
        }
    }
    machine.has(config.state, FINAL)
        && config.mode == NORMAL_MODE
        && config.start == config.end
        && config.position == word.len()
}

/// The public call of one move: refusals 16, 9, 8, then the next configuration or nothing.
pub fn step_call(
    record: &Record,
    list: &[u16],
    word: &[u8],
    config: Config,
    entry: u16,
) -> Result<Option<Config>, Refusal> {
    let machine = record.machine(list)?;
    check_word(&machine, word, LONGEST_CHECKED)?;
    Ok(step(&machine, word, config, entry))
}

/// The public call of the run checker: refusals 16, 9, 8, then whether the run accepts.
pub fn check_run_call(
    record: &Record,
    list: &[u16],
    word: &[u8],
    run: &[u16],
) -> Result<bool, Refusal> {
    let machine = record.machine(list)?;
    check_word(&machine, word, LONGEST_CHECKED)?;
    Ok(accepting(&machine, word, run))
}
