//! The machines of `data/machines`, the runs that source 000 prints, and the agreement of the two definitions of a
//! move: with the buffer as a stretch of the word and with the buffer as a string.

use reference::common::next_word;
use reference::families::small_machines;
use reference::folder;
use reference::moves::{self, accepting, follow, step};
use reference::product::product;
use reference::published::{self, find_run, yields};
use reference::{Config, Machine};

#[test]
fn folders() {
    let mut words = 0;
    for folder in folder::all() {
        for (word, expected) in &folder.words {
            let run = find_run(&folder.machine, word);
            assert_eq!(run.is_some(), *expected, "{} {word:?}", folder.name);
            if let Some(run) = run {
                assert!(accepting(&folder.machine, word, &run));
                let most = 3 * folder.machine.states() * (word.len() + 1);
                assert!(run.len() <= most);
            }
            words += 1;
        }
    }
    println!("{words} words of data/machines");
}

/// The run of Figure 2.4, one row a configuration.
#[test]
fn figure_2_4() {
    let m2 = folder::load("fig-2.3a-m2").machine;
    let word = [1, 2, 2, 1, 2, 2];
    let run = [0, 65533, 0, 2, 4, 3, 65534, 5, 6, 6, 65535];
    assert_eq!(run.len(), 11);
    assert!(accepting(&m2, &word, &run));
    let (rows, _) = follow(&m2, &word, &run);
    let states: Vec<usize> = rows.iter().map(|row| row.state + 1).collect();
    assert_eq!(states, [1, 1, 2, 3, 3, 4, 4, 4, 4, 4, 4]);
    let left: Vec<usize> = rows.iter().map(|row| 6 - row.position).collect();
    assert_eq!(left, [6, 6, 5, 4, 3, 3, 3, 2, 1, 0, 0]);
    let modes: Vec<u8> = rows.iter().map(|row| row.mode).collect();
    assert_eq!(modes, [0, 1, 1, 1, 1, 1, 2, 2, 2, 2, 0]);
}

/// The rows of Figure 2.5: every move is allowed, no move goes on, and no run accepts.
#[test]
fn figure_2_5() {
    let m2 = folder::load("fig-2.3a-m2").machine;
    let word = [1, 2, 1, 2, 2];
    let run = [0, 65533, 0, 2, 3, 65534, 5, 6, 65535];
    stuck(&m2, &word, &run);
}

/// The run of Figure 2.7, one row a configuration.
#[test]
fn figure_2_7() {
    let m3 = folder::load("fig-2.6-m3-agta").machine;
    let word = [2, 7, 3, 2, 7, 3, 3, 6];
    let run = [0, 65533, 1, 6, 9, 65534, 14, 19, 15, 65535, 12, 22, 25];
    assert_eq!(run.len(), 13);
    assert!(accepting(&m3, &word, &run));
    let (rows, _) = follow(&m3, &word, &run);
    let states: Vec<usize> = rows.iter().map(|row| row.state + 1).collect();
    assert_eq!(states, [1, 1, 2, 3, 4, 4, 4, 4, 4, 4, 5, 5, 5]);
    let stored: Vec<usize> = rows.iter().map(|row| row.end - row.start).collect();
    assert_eq!(stored, [0, 0, 1, 2, 3, 3, 2, 1, 0, 0, 0, 0, 0]);
}

/// The rows of Figure 2.8.
#[test]
fn figure_2_8() {
    let m3 = folder::load("fig-2.6-m3-agta").machine;
    let word = [2, 6, 3, 2, 7, 3, 3, 6];
    let run = [0, 65533, 1, 5, 9, 65534, 14];
    stuck(&m3, &word, &run);
}

/// Asserts that the run's moves are allowed, that no further move is, and that the word is not accepted.
fn stuck(machine: &Machine, word: &[u8], run: &[u16]) {
    let (rows, to_the_end) = follow(machine, word, run);
    assert!(to_the_end);
    assert!(!accepting(machine, word, run));
    for entry in 0..=u16::MAX {
        assert_eq!(step(machine, word, rows[rows.len() - 1], entry), None);
    }
    assert_eq!(find_run(machine, word), None);
}

/// Figure 2.13c is the product of 2.13b and 2.13a.
#[test]
fn figure_2_13() {
    let odd = folder::load("fig-2.13a").machine;
    for reading in ["epsilon", "letters"] {
        let first = folder::load(&format!("fig-2.13b-{reading}")).machine;
        let both = folder::load(&format!("fig-2.13c-{reading}")).machine;
        assert_eq!(product(&first, &odd), both);
    }
}

/// The configuration with strings that a configuration with a stretch stands for.
fn as_strings(word: &[u8], config: Config) -> published::Config {
    published::Config {
        rest: word[config.position..].to_vec(),
        state: config.state,
        buffer: word[config.start..config.end].to_vec(),
        mode: match config.mode {
            moves::NORMAL_MODE => published::Mode::Normal,
            moves::BUFFERING_MODE => published::Mode::Buffering,
            _ => published::Mode::Emptying,
        },
    }
}

/// Every allowed move from every configuration of every machine with 2 states, 1 letter and all 8 transitions is a
/// step of "yields" with the same entry, and conversely.
#[test]
fn the_two_definitions_agree() {
    let mut cases = 0;
    for machine in small_machines(2, 255..256) {
        for length in 0..=3 {
            cases += agree_on_configurations(&machine, &vec![1; length]);
        }
    }
    let table_t = folder::load("table-t").machine;
    for length in 0..=5 {
        let mut word = vec![1; length];
        loop {
            cases += agree_on_configurations(&table_t, &word);
            if !next_word(&mut word, 2) {
                break;
            }
        }
    }
    println!("{cases} moves by both definitions");
}

fn agree_on_configurations(machine: &Machine, word: &[u8]) -> usize {
    let mut cases = 0;
    let n = word.len();
    for position in 0..=n {
        for state in 0..machine.states() {
            for mode in 0..3 {
                for end in 0..=position {
                    for start in 0..=end {
                        let config = Config {
                            position,
                            state,
                            mode,
                            start,
                            end,
                        };
                        if moves::is_configuration(machine, word, config) {
                            cases += agree(machine, word, config);
                        }
                    }
                }
            }
        }
    }
    cases
}

fn agree(machine: &Machine, word: &[u8], config: Config) -> usize {
    let next = yields(machine, &as_strings(word, config));
    let entries = (0..machine.transitions.len() as u16 + 2).chain(65_532..=65_535);
    let mut cases = 0;
    for entry in entries {
        let moved = step(machine, word, config, entry);
        let yielded = next.iter().find(|(by, _)| *by == entry);
        assert_eq!(
            moved.map(|to| as_strings(word, to)),
            yielded.map(|(_, to)| to.clone())
        );
        cases += 1;
    }
    cases
}
