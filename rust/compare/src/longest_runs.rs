//! Accepting runs of any number of entries: moves that read nothing and lead back, or copies of no letters, over and over.

use reference::Machine;

/// Words of letters 1, read in state 0; transitions 0 and 2 are an epsilon circle of states 0 and 1. Both states are final.
pub fn epsilon_circle() -> Machine {
    Machine::new(1, &[3, 2], &[(0, 0, 1), (0, 1, 0), (1, 0, 0)])
}

/// A run of the machine with the epsilon circle that has so many entries: the start, so many letters, then the circle.
pub fn circle_run(letters: usize, entries: usize) -> Vec<u16> {
    let mut run = vec![0];
    run.resize(1 + letters, 1);
    run.extend([0, 2].iter().cycle().take(entries - run.len()));
    run
}

/// The empty word alone, by copies of no letters, which begin in state 0 and are matched in state 1. Both states are final.
pub fn empty_copies() -> Machine {
    Machine::new(0, &[7, 10], &[(0, 0, 1), (1, 0, 0), (1, 0, 1)])
}

/// A run of the machine with the empty copies that has so many entries: the start, copies of five, the last one with a few
/// epsilon moves more.
pub fn empty_copies_run(entries: usize) -> Vec<u16> {
    let mut run = vec![0];
    let (copies, more) = ((entries - 1) / 5, (entries - 1) % 5);
    for copy in 1..=copies {
        run.extend([65_533, 0, 65_534]);
        if copy == copies {
            run.extend(vec![2; more]);
        }
        run.extend([65_535, 1]);
    }
    run
}
