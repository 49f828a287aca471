//! Every machine of one state and every machine of two states over one letter.

use compare::{in_threads, Case};
use reference::families::small_machines;
use reference::{Config, Machine, Record};

/// Entries that name a transition, one that is absent, the three mode changes and the number before them.
fn entries(record: &Record) -> Vec<u16> {
    let mut entries: Vec<u16> = (0..=record.transitions as u16).collect();
    entries.extend([65_532, 65_533, 65_534, 65_535]);
    entries
}

/// Compares every move from every configuration whose numbers go one past what is allowed.
fn every_step(case: &mut Case, record: &Record, length: usize, entries: &[u16]) {
    let past = length + 1;
    for position in 0..=past {
        for state in 0..=record.states {
            for mode in 0..=3 {
                for start in 0..=past {
                    for end in 0..=past {
                        let config = Config {
                            position,
                            state,
                            mode,
                            start,
                            end,
                        };
                        for &entry in entries {
                            case.step(config, entry);
                        }
                    }
                }
            }
        }
    }
}

/// Compares every run of at most `longest` entries.
fn every_run(case: &mut Case, run: &mut Vec<u16>, entries: &[u16], longest: usize) {
    case.check_run(run);
    if run.len() < longest {
        for &entry in entries {
            run.push(entry);
            every_run(case, run, entries, longest);
            run.pop();
        }
    }
}

/// Compares every run of at most `longest` entries in which all entries but the last are allowed. Returns the number of
/// accepting ones.
fn every_allowed_run(
    case: &mut Case,
    run: &mut Vec<u16>,
    config: Config,
    entries: &[u16],
    longest: usize,
) -> u64 {
    let mut accepting = u64::from(case.check_run(run));
    if run.len() == longest {
        return accepting;
    }
    for &entry in entries {
        run.push(entry);
        match case.step(config, entry) {
            Some(next) => accepting += every_allowed_run(case, run, next, entries, longest),
            None => assert!(!case.check_run(run)),
        }
        run.pop();
    }
    accepting
}

/// How far the comparison of a machine goes.
#[derive(Clone, Copy)]
struct Extent {
    /// The most letters of a word.
    word: usize,
    /// The most letters of a word on which every single move is compared.
    word_for_steps: usize,
    /// The most entries of a run whose entries can be any.
    any_run: usize,
    /// The most entries of a run whose moves are allowed but for the last.
    allowed_run: usize,
}

/// Compares the machine. Returns the number of cases and the number of accepting runs.
fn compare_machine(machine: &Machine, extent: Extent) -> (u64, u64) {
    let (mut cases, mut accepting) = (0, 0);
    let (record, list) = machine.record();
    let entries = entries(&record);
    for length in 0..=extent.word {
        let word = vec![1; length];
        let mut case = Case::new(&record, &list, &word);
        if length <= extent.word_for_steps {
            every_step(&mut case, &record, length, &entries);
        }
        case.check_run(&[]);
        for start in 0..=record.states as u16 {
            let run = &mut vec![start];
            every_run(&mut case, run, &entries, extent.any_run);
            if machine.has(usize::from(start), reference::INITIAL) {
                let config = Config::initial(usize::from(start));
                let longest = extent.allowed_run;
                accepting += every_allowed_run(&mut case, run, config, &entries, longest);
            }
        }
        for start in [65_533, 65_534, 65_535] {
            assert!(!case.check_run(&[start]));
        }
        cases += case.finish();
    }
    (cases, accepting)
}

/// Compares the machines.
fn compare_all(machines: &[Machine], extent: Extent) -> (u64, u64) {
    let counts = in_threads(machines, |machine| compare_machine(machine, extent));
    let cases = counts.iter().map(|counts| counts.0).sum();
    let accepting = counts.iter().map(|counts| counts.1).sum();
    (cases, accepting)
}

#[test]
fn one_state() {
    let machines = small_machines(1, 0..4);
    let extent = Extent {
        word: 4,
        word_for_steps: 4,
        any_run: 4,
        allowed_run: 8,
    };
    let (cases, accepting) = compare_all(&machines, extent);
    println!(
        "one state, one letter: {} machines, {cases} cases, {accepting} accepting runs",
        machines.len()
    );
}

#[test]
fn two_states_every_step() {
    // A move depends on the marks and on its own transition, so the machines with all transitions suffice here.
    let machines = small_machines(2, 255..256);
    let extent = Extent {
        word: 3,
        word_for_steps: 3,
        any_run: 1,
        allowed_run: 1,
    };
    let (cases, _) = compare_all(&machines, extent);
    println!(
        "two states, one letter, all transitions: {} machines, {cases} cases, nearly all single moves",
        machines.len()
    );
}

#[test]
fn two_states_every_run() {
    let machines = small_machines(2, 0..256);
    let extent = Extent {
        word: 3,
        word_for_steps: 0,
        any_run: 2,
        allowed_run: 7,
    };
    let (cases, accepting) = compare_all(&machines, extent);
    println!(
        "two states, one letter: {} machines, {cases} cases, {accepting} accepting runs",
        machines.len()
    );
}
