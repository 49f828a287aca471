//! Random machines, words, runs and configurations with a fixed seed, and machines that break a rule.

use compare::{break_a_rule, random_machine, random_word, Case, Rng};
use reference::{published, Config, Machine, Record, BEGIN_EMPTYING};

const MACHINES: usize = 120_000;

/// What was compared.
#[derive(Default)]
struct Counts {
    cases: u64,
    accepting: u64,
    with_copies: u64,
    with_letters_copied: u64,
    damaged: u64,
    damaged_accepting: u64,
    allowed: u64,
    malformed: u64,
    damaged_machines: u64,
    refused: u64,
}

/// An entry: mostly one that names something.
fn random_entry(rng: &mut Rng, record: &Record) -> u16 {
    match rng.below(8) {
        0 => 65_533,
        1 => 65_534,
        2 => 65_535,
        3 => rng.pick(&[0, 65_532, 4000, record.transitions as u16]),
        _ => rng.below(record.transitions + 1) as u16,
    }
}

/// A configuration whose conditions all hold if `whole`, or any numbers near the allowed ones.
fn random_config(rng: &mut Rng, record: &Record, length: usize, whole: bool) -> Config {
    if whole {
        let position = rng.below(length + 1);
        let mode = rng.below(3) as u8;
        let end = if mode == 1 {
            position
        } else {
            rng.below(position + 1)
        };
        let start = if mode == 0 { end } else { rng.below(end + 1) };
        Config {
            position,
            state: rng.below(record.states),
            mode,
            start,
            end,
        }
    } else {
        let mut config = random_config(rng, record, length, true);
        let far = rng.pick(&[1, 2, 1000, usize::MAX - length - 64]);
        match rng.below(9) {
            0 => config.position = length + far,
            1 => config.state = record.states - 1 + far,
            2 => config.end = config.position + far,
            3 => config.start = config.end + far,
            4 => {
                config.mode = 1;
                config.position = rng.below(length + 1);
            }
            5 => {
                config.mode = 0;
                config.position = rng.below(length + 1);
                config.end = rng.below(config.position + 1);
                config.start = rng.below(config.end + 1);
            }
            6 => config.mode = 3 + rng.below(253) as u8,
            7 => {
                config.start = config.position + far;
                config.end = config.start;
            }
            _ => {
                config.position = rng.below(length + 3);
                config.start = rng.below(length + 3);
                config.end = rng.below(length + 3);
                config.mode = rng.below(4) as u8;
            }
        }
        config
    }
}

/// The run with one thing changed.
fn damage(rng: &mut Rng, record: &Record, run: &[u16]) -> Vec<u16> {
    let mut damaged = run.to_vec();
    let at = rng.below(run.len());
    match rng.below(7) {
        0 => damaged[at] = random_entry(rng, record),
        1 => {
            damaged.remove(at);
        }
        2 => damaged.insert(at, random_entry(rng, record)),
        3 => damaged.push(random_entry(rng, record)),
        4 => {
            let other = rng.below(run.len());
            damaged.swap(at, other);
        }
        5 => damaged[0] = rng.pick(&[0, 1, 2, 63, 64, 65_533, 65_534, 65_535]),
        _ => damaged.truncate(at),
    }
    damaged
}

fn compare_machine(rng: &mut Rng, machine: &Machine, words: usize, longest: usize, c: &mut Counts) {
    let (record, mut list) = machine.record();
    for _ in 0..rng.below(3) {
        list.push(rng.bits() as u16);
    }
    for _ in 0..words {
        let mut word = random_word(rng, machine.letters, longest);
        if rng.once_in(20) {
            let bad = rng.pick(&[0, 255, (machine.letters + 1).min(255) as u8]);
            let at = rng.below(word.len() + 1);
            word.insert(at, bad);
        }
        let mut case = Case::new(&record, &list, &word);
        let found = match case.refusal() {
            0 => published::find_run(machine, &word),
            _ => None,
        };
        if let Some(run) = &found {
            assert!(case.check_run(run));
            c.accepting += 1;
            c.with_copies += u64::from(run.contains(&BEGIN_EMPTYING));
            let (rows, _) = reference::moves::follow(machine, &word, run);
            c.with_letters_copied += u64::from(rows.iter().any(|row| row.start < row.end));
            for _ in 0..8 {
                let damaged = damage(rng, &record, run);
                c.damaged += 1;
                c.damaged_accepting += u64::from(case.check_run(&damaged));
            }
        }
        // A run that takes allowed moves as long as it finds some.
        let start = rng.below(record.states);
        let mut run = vec![start as u16];
        let mut config = Config::initial(start);
        for _ in 0..12 {
            let mut entry = random_entry(rng, &record);
            for _ in 0..6 {
                if case.step(config, entry).is_some() {
                    break;
                }
                entry = random_entry(rng, &record);
            }
            run.push(entry);
            match case.step(config, entry) {
                Some(next) => config = next,
                None => break,
            }
        }
        for length in 0..=run.len() {
            case.check_run(&run[..length]);
        }
        for whole in [true, true, true, false, false, false] {
            let config = random_config(rng, &record, word.len(), whole);
            let entry = random_entry(rng, &record);
            let moved = case.step(config, entry).is_some();
            c.allowed += u64::from(moved);
            let holds = reference::moves::is_configuration(machine, &word, config);
            c.malformed += u64::from(!holds);
            if config.mode < 3 {
                case.wrappers(config, entry, &run);
            }
        }
        c.cases += case.finish();
    }
    compare_damaged(rng, machine, longest, c);
}

/// Compares both calls on the machine with a rule broken.
fn compare_damaged(rng: &mut Rng, machine: &Machine, longest: usize, c: &mut Counts) {
    let (record, _) = machine.record();
    let (damaged, list) = break_a_rule(rng, machine);
    let word = random_word(rng, machine.letters, longest);
    let mut case = Case::new(&damaged, &list, &word);
    c.damaged_machines += 1;
    c.refused += u64::from(case.refusal() == 16);
    let mut run = vec![rng.below(record.states) as u16];
    for whole in [true, true, false] {
        let config = random_config(rng, &record, word.len(), whole);
        let entry = random_entry(rng, &record);
        case.step(config, entry);
        run.push(entry);
        case.check_run(&run);
    }
    c.cases += case.finish();
}

fn report(name: &str, machines: usize, c: &Counts) {
    println!(
        "{name}: {machines} machines, {} cases; {} accepting runs found ({} with copies, {} with letters copied); \
         {} damaged runs, {} of them still accepting; {} single moves allowed, {} from no configuration; \
         {} damaged machines, {} of them refused",
        c.cases,
        c.accepting,
        c.with_copies,
        c.with_letters_copied,
        c.damaged,
        c.damaged_accepting,
        c.allowed,
        c.malformed,
        c.damaged_machines,
        c.refused
    );
}

#[test]
fn small_random_machines() {
    let mut rng = Rng::new(20_240_001);
    let mut counts = Counts::default();
    for _ in 0..MACHINES {
        let machine = random_machine(&mut rng, 5, 3);
        compare_machine(&mut rng, &machine, 3, 9, &mut counts);
    }
    report("small random machines", MACHINES, &counts);
    assert!(counts.with_letters_copied > 1000);
}

#[test]
fn large_random_machines() {
    let mut rng = Rng::new(20_240_002);
    let mut counts = Counts::default();
    let machines = 300;
    for _ in 0..machines {
        let states = 1 + rng.below(64);
        let letters = 1 + rng.below(250);
        let mut marks: Vec<u8> = Vec::new();
        for _ in 0..states {
            marks.push(rng.pick(&[0, 4, 8, 8]) | rng.pick(&[0, 1, 2, 3]));
        }
        let mut transitions = Vec::new();
        for _ in 0..rng.pick(&[0, 100, 1000, 3000, 4000]) {
            let letter = rng.below(letters + 1).min(rng.below(letters + 1));
            transitions.push((rng.below(states), letter, rng.below(states)));
        }
        let machine = Machine::new(letters, &marks, &transitions);
        compare_machine(&mut rng, &machine, 4, 6, &mut counts);
    }
    // The largest sizes: 64 states, 250 letters, 4,000 transitions.
    let mut transitions = Vec::new();
    for from in 0..64 {
        for letter in 0..63 {
            transitions.push((from, letter * 4, (from + letter) % 64));
        }
    }
    transitions.truncate(4000);
    let marks: Vec<u8> = (0..64).map(|state| [5, 0, 10, 8][state % 4]).collect();
    let machine = Machine::new(250, &marks, &transitions);
    assert_eq!(machine.transitions.len(), 4000);
    compare_machine(&mut rng, &machine, 20, 6, &mut counts);
    report("large random machines", machines + 1, &counts);
}
