//! Doubled words one after another, with empty ones and plain letters among them, and a run of each.

use reference::Machine;

/// T with an epsilon transition from its last state back to its first: doubled words one after another.
pub fn repeated() -> Machine {
    let mut transitions = vec![(0, 0, 1), (1, 0, 2), (2, 0, 0)];
    for letter in 1..3 {
        transitions.extend([(1, letter, 1), (2, letter, 2)]);
    }
    Machine::new(2, &[5, 0, 10], &transitions)
}

/// Some doubled words one after another, each by the number of letters of its half.
pub const SEVERAL: [&[usize]; 9] = [
    &[0],
    &[2],
    &[1, 2, 3],
    &[0, 0, 5, 0],
    &[0, 1, 0, 0, 2, 0, 0, 0, 3, 1, 0],
    &[127],
    &[60, 67],
    &[0; 40],
    &[1; 127],
];

/// A run of the doubled words, each of the given number of letters 1 twice.
pub fn repeated_run(halves: &[usize]) -> (Vec<u8>, Vec<u16>) {
    let (mut word, mut run) = (Vec::new(), vec![0]);
    for (number, &half) in halves.iter().enumerate() {
        if number > 0 {
            run.push(4);
        }
        run.extend([65_533, 0]);
        run.extend(vec![2; half]);
        run.extend([1, 65_534]);
        run.extend(vec![5; half]);
        run.push(65_535);
        word.extend(vec![1; 2 * half]);
    }
    (word, run)
}

/// A part of a word of letters 1.
#[derive(Clone, Copy)]
pub enum Part {
    /// A letter that is read in normal mode.
    Plain,
    /// A doubled word of so many letters.
    Doubled(usize),
}

/// Plain letters and doubled words in any order. State 3 reads plain letters; the others are those of T over one
/// letter.
pub fn plain_and_doubled() -> Machine {
    let doubled = [(0, 0, 1), (1, 0, 2), (1, 1, 1), (2, 1, 2)];
    let transitions = [&doubled[..], &[(2, 0, 3), (3, 0, 0), (3, 1, 3)]].concat();
    Machine::new(1, &[4, 0, 8, 3], &transitions)
}

/// The number of letters of the parts, their run, and what the copy list has of it.
pub fn run_of_parts(parts: &[Part]) -> (usize, Vec<u16>, Vec<u16>) {
    let (mut position, mut run, mut listed) = (0, vec![3], Vec::new());
    for &part in parts {
        match part {
            Part::Plain => {
                run.push(6);
                position += 1;
            }
            Part::Doubled(half) => {
                run.extend([5, 65_533, 0]);
                run.extend(vec![2; half]);
                run.extend([1, 65_534]);
                run.extend(vec![4; half]);
                run.extend([65_535, 3]);
                if half > 0 {
                    listed.extend([position as u16, half as u16]);
                }
                position += 2 * half;
            }
        }
    }
    (position, run, listed)
}
