//! Random inputs for the tests of the calls that take a word and a run.

use compare::accepting_runs::{damaged, longer, walk};
use compare::many_copies::zones_or_random;
use compare::{break_a_rule, Rng};
use reference::Record;

/// A table, a word and a run.
pub struct RandomRun {
    pub record: Record,
    pub list: Vec<u16>,
    pub word: Vec<u8>,
    pub run: Vec<u16>,
}

/// A word and a run that accepts it, made by random moves, and now and then the run damaged, a letter that the machine does
/// not have, a word that is too long or a table that breaks a rule; nothing if the moves find no accepting run.
pub fn random_run(rng: &mut Rng) -> Option<RandomRun> {
    let machine = zones_or_random(rng);
    let (mut word, run) = walk(rng, &machine)?;
    let mut run = longer(rng, &machine, &word, &run);
    if rng.once_in(4) {
        run = damaged(rng, &run);
    }
    if rng.once_in(12) {
        let bad = rng.pick(&[0, machine.letters as u8 + 1, 255]);
        word.insert(rng.below(word.len() + 1), bad);
    }
    if rng.once_in(60) {
        word.resize(rng.pick(&[256, 257, 700]), rng.pick(&[0, 1]));
    }
    let (record, list) = match rng.below(8) {
        0 => break_a_rule(rng, &machine),
        _ => machine.record(),
    };
    Some(RandomRun {
        record,
        list,
        word,
        run,
    })
}
