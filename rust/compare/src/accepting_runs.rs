//! Random accepting runs, also long ones with many copies of no letters, and such runs damaged.

use crate::Rng;
use reference::{moves, Config, Machine, FINAL, INITIAL};

/// A word and an accepting run of it, both made by random moves: a move that reads a letter adds it to the word. The
/// run is cut at one of the places where it accepts; nothing if there is none.
pub fn walk(rng: &mut Rng, machine: &Machine) -> Option<(Vec<u8>, Vec<u16>)> {
    let initial: Vec<usize> = (0..machine.states())
        .filter(|&state| machine.has(state, INITIAL))
        .collect();
    let mut config = Config::initial(rng.pick(&initial));
    let (mut word, mut run) = (Vec::new(), vec![config.state as u16]);
    let mut ends = Vec::new();
    for _ in 0..4 + rng.below(120) {
        if config.mode == moves::NORMAL_MODE && machine.has(config.state, FINAL) {
            ends.push((word.len(), run.len()));
        }
        let all = (0..machine.transitions.len() as u16).chain(65_533..=65_535);
        let allowed: Vec<(u16, Option<u8>, Config)> = all
            .filter_map(|entry| {
                let taken = machine.transitions.get(usize::from(entry));
                let letter = taken.map(|taken| taken.letter as u8);
                let letter = letter.filter(|&letter| letter != 0);
                word.extend(letter);
                let next = moves::step(machine, &word, config, entry);
                word.truncate(config.position);
                Some((entry, letter, next?))
            })
            .collect();
        if allowed.is_empty() {
            break;
        }
        let (entry, letter, next) = rng.pick(&allowed);
        run.push(entry);
        word.extend(letter);
        config = next;
    }
    if ends.is_empty() {
        return None;
    }
    let (letters, entries) = rng.pick(&ends);
    word.truncate(letters);
    run.truncate(entries);
    Some((word, run))
}

/// The accepting run with moves put in that read nothing and lead back to the same configuration: copies of no letters
/// and epsilon moves.
pub fn longer(rng: &mut Rng, machine: &Machine, word: &[u8], run: &[u16]) -> Vec<u16> {
    let (rows, _) = moves::follow(machine, word, run);
    let mut longer = vec![run[0]];
    for (i, &row) in rows.iter().enumerate() {
        if rng.once_in(3) {
            if let Some(round) = round_trip(rng, machine, word, row) {
                for _ in 0..1 + rng.below(3) {
                    longer.extend(&round);
                }
            }
        }
        longer.extend(run.get(i + 1));
    }
    longer
}

/// Entries that read nothing and lead from the configuration back to it, if a few random moves find some.
fn round_trip(rng: &mut Rng, machine: &Machine, word: &[u8], from: Config) -> Option<Vec<u16>> {
    let epsilon = |&entry: &u16| machine.transitions[usize::from(entry)].letter == 0;
    let silent: Vec<u16> = (0..machine.transitions.len() as u16)
        .filter(epsilon)
        .chain(65_533..=65_535)
        .collect();
    for _ in 0..4 {
        let mut config = from;
        let mut entries = Vec::new();
        for _ in 0..9 {
            let allowed: Vec<(u16, Config)> = silent
                .iter()
                .filter_map(|&entry| Some((entry, moves::step(machine, word, config, entry)?)))
                .collect();
            if allowed.is_empty() {
                break;
            }
            let (entry, next) = rng.pick(&allowed);
            entries.push(entry);
            config = next;
            let same = config.state == from.state
                && config.mode == from.mode
                && config.end - config.start == from.end - from.start;
            if same {
                return Some(entries);
            }
        }
    }
    None
}

/// The run with an entry changed, left out or added, or cut; now and then it still accepts.
pub fn damaged(rng: &mut Rng, run: &[u16]) -> Vec<u16> {
    let mut damaged = run.to_vec();
    let at = rng.below(run.len());
    match rng.below(4) {
        0 => damaged[at] = rng.pick(&[0, 1, 2, 65_533, 65_534, 65_535]),
        1 => drop(damaged.remove(at)),
        2 => damaged.push(rng.pick(&[0, 1, 65_533, 65_534, 65_535])),
        _ => damaged.truncate(at),
    }
    damaged
}
