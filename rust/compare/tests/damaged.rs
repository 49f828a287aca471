//! Malformed configurations of every kind, machines that break each rule, words with bad letters, the longest words,
//! and the order of refusals.

use compare::{random_machine, random_word, Case, Rng};
use reference::{folder, published, Config, Machine, Record};

/// Compares both calls on the input, with a few configurations and runs, and asserts the refusal.
fn refuses(record: &Record, list: &[u16], word: &[u8], number: u8) -> u64 {
    let mut case = Case::new(record, list, word);
    assert_eq!(case.refusal(), number, "{record:?} {list:?}");
    for entry in [0, 1, 65_533, 65_534, 65_535] {
        for mode in [0, 1, 2, 3, 255] {
            let config = Config {
                mode,
                ..Config::initial(0)
            };
            case.step(config, entry);
        }
    }
    let odd = Config {
        position: usize::MAX,
        state: usize::MAX,
        mode: 255,
        start: usize::MAX,
        end: usize::MAX,
    };
    case.step(odd, 7);
    case.wrappers(Config::initial(0), 65_533, &[0]);
    case.check_run(&[]);
    case.check_run(&[0]);
    case.check_run(&[0, 65_533, 0, 1, 65_534, 65_535]);
    case.check_run(&[65_535; 20]);
    case.finish()
}

/// Every way to break a rule of "The table" in the machine, with the word as it is. Returns the number of cases.
fn break_rules(machine: &Machine, word: &[u8]) -> u64 {
    let mut cases = 0;
    let mut broken = |change: &dyn Fn(&mut Record, &mut Vec<u16>)| {
        let (mut record, mut list) = machine.record();
        change(&mut record, &mut list);
        cases += refuses(&record, &list, word, 16);
    };
    let states = machine.states();
    let count = machine.transitions.len();
    for number in [0, 65, 66, 256, 65_536, 65_537, usize::MAX] {
        broken(&|r, _| r.states = number);
    }
    for number in [251, 255, 256, 65_536, usize::MAX] {
        broken(&|r, _| r.letters = number);
    }
    for number in [4001, 65_536, usize::MAX / 3, usize::MAX / 3 + 1, usize::MAX] {
        broken(&|r, _| r.transitions = number);
        broken(&|r, l| {
            r.transitions = number;
            l.resize(12_100, 0);
        });
    }
    // 2^64 / 3 rounded up: three times this is a small number if it wraps around.
    broken(&|r, _| r.transitions = 6_148_914_691_236_517_206);
    for state in 0..states {
        for mark in [12, 13, 14, 15, 16, 17, 20, 32, 64, 128, 255] {
            broken(&|r, _| r.marks[state] = mark);
        }
    }
    for state in states..64 {
        for mark in [1, 2, 4, 8, 16, 255] {
            broken(&|r, _| r.marks[state] = mark);
        }
    }
    for missing in 1..=(3 * count).min(4) {
        broken(&|_, l| l.truncate(3 * count - missing));
    }
    broken(&|r, _| r.transitions = count + 1);
    for number in 0..count {
        for past in [states, 64, 256, 65_535] {
            broken(&|_, l| l[3 * number] = past.max(states) as u16);
            broken(&|_, l| l[3 * number + 2] = past.max(states) as u16);
        }
        for past in [machine.letters + 1, 251, 256, 65_535] {
            broken(&|_, l| l[3 * number + 1] = past as u16);
        }
        // A state that the record no longer has.
        let last = machine.transitions[number]
            .from
            .max(machine.transitions[number].to);
        if last > 0 {
            broken(&|r, _| {
                r.states = last;
                r.marks[last..].fill(0);
            });
        }
    }
    for number in 1..count {
        // Repeated, and with its neighbour.
        broken(&|_, l| l.copy_within(3 * number - 3..3 * number, 3 * number));
        broken(&|_, l| {
            for i in 0..3 {
                l.swap(3 * number + i, 3 * number - 3 + i);
            }
        });
    }
    cases
}

#[test]
fn broken_machines() {
    let mut cases = 0;
    let table_t = folder::load("table-t").machine;
    for word in [&[][..], &[1, 2, 1, 2], &[0], &[3]] {
        cases += break_rules(&table_t, word);
    }
    let mut machines = 1;
    for folder in folder::all() {
        cases += break_rules(&folder.machine, &[1]);
        machines += 1;
    }
    let mut rng = Rng::new(20_240_003);
    for _ in 0..300 {
        let machine = random_machine(&mut rng, 6, 4);
        let word = random_word(&mut rng, 5, 6);
        cases += break_rules(&machine, &word);
        machines += 1;
    }
    println!("broken machines: {machines} machines, each rule broken, {cases} cases");
}

#[test]
fn limits_and_rubbish() {
    let mut cases = 0;
    // The largest counts are no refusal.
    let (record, list) = Machine::new(250, &[3; 64], &[]).record();
    cases += refuses(&record, &list, &[250, 1], 0);
    cases += refuses(&record, &list, &[251], 8);
    let mut transitions = Vec::new();
    for from in 0..64 {
        for to in 0..63 {
            transitions.push((from, 250, to));
        }
    }
    transitions.truncate(4000);
    let (record, list) = Machine::new(250, &[3; 64], &transitions).record();
    assert_eq!(record.transitions, 4000);
    cases += refuses(&record, &list, &[250], 0);
    let mut longer = record.clone();
    longer.transitions = 4001;
    let mut long_list = list.clone();
    long_list.extend([63, 250, 63]);
    cases += refuses(&longer, &long_list, &[250], 16);
    cases += refuses(&record, &long_list, &[250], 0);
    // No letters, no transitions, an empty list.
    let (record, list) = Machine::new(0, &[3], &[]).record();
    assert!(list.is_empty());
    cases += refuses(&record, &list, &[], 0);
    cases += refuses(&record, &list, &[1], 8);
    // Rubbish past the count does not matter, neither rising nor naming anything.
    for folder in folder::all() {
        let (record, list) = folder.machine.record();
        for rubbish in [&[0][..], &[65_535], &[0, 0, 0], &[65_535; 9], &[0; 100]] {
            let mut long = list.clone();
            long.extend(rubbish);
            for (word, _) in folder.words.iter().take(5) {
                let mut case = Case::new(&record, &long, word);
                assert_eq!(case.refusal(), 0);
                if let Some(run) = published::find_run(&folder.machine, word) {
                    assert!(case.check_run(&run));
                }
                // An entry that names an element past the count names nothing.
                let past = record.transitions as u16;
                for state in 0..record.states {
                    assert_eq!(case.step(Config::initial(state), past), None);
                }
                cases += case.finish();
            }
        }
    }
    println!("limits and rubbish past the count: {cases} cases");
}

#[test]
fn bad_letters() {
    let mut cases = 0;
    for folder in folder::all() {
        let (record, list) = folder.machine.record();
        let above = record.letters as u8 + 1;
        for length in [1, 2, 7, 255, 256, 257, 1000] {
            for at in [0, length / 2, length - 1] {
                for bad in [0, above, 255] {
                    let mut word = vec![1; length];
                    word[at] = bad;
                    cases += refuses(&record, &list, &word, 8);
                }
            }
            cases += refuses(&record, &list, &vec![1; length], 0);
        }
    }
    println!("bad letters: {cases} cases");
}

#[test]
fn longest_words() {
    let (record, list) = folder::load("table-t").machine.record();
    let mut cases = 0;
    let longest = 1_048_576;
    cases += refuses(&record, &list, &vec![1; longest], 0);
    cases += refuses(&record, &list, &vec![1; longest + 1], 9);
    for at in [0, longest / 2, longest - 1] {
        let mut word = vec![1; longest];
        word[at] = 3;
        cases += refuses(&record, &list, &word, 8);
    }
    // The order of refusals: 16, then 9, then 8.
    let bad = vec![0; longest + 1];
    cases += refuses(&record, &list, &bad, 9);
    cases += refuses(&record, &list, &bad[..longest], 8);
    let mut other = record.clone();
    other.states = 65;
    cases += refuses(&other, &list, &bad, 16);
    cases += refuses(&record, &list[..17], &bad, 16);
    cases += refuses(&other, &list, &bad[..1], 16);
    // A doubled word of the greatest length, and the same with its last letter or one entry changed.
    let mut rng = Rng::new(20_240_004);
    let half: Vec<u8> = (0..longest / 2).map(|_| 1 + rng.below(2) as u8).collect();
    let mut word = half.clone();
    word.extend(&half);
    let mut run = vec![0, 65_533, 0];
    run.extend(half.iter().map(|&letter| 1 + u16::from(letter)));
    run.extend([1, 65_534]);
    run.extend(half.iter().map(|&letter| 3 + u16::from(letter)));
    run.push(65_535);
    let mut case = Case::new(&record, &list, &word);
    assert!(case.check_run(&run));
    assert!(!case.check_run(&run[..run.len() - 1]));
    for at in [
        0,
        1,
        2,
        3,
        1000,
        longest / 2,
        longest / 2 + 4,
        run.len() - 2,
        run.len() - 1,
    ] {
        let mut damaged = run.clone();
        damaged[at] = match damaged[at] {
            2 => 3,
            3 => 2,
            4 => 5,
            5 => 4,
            _ => 6,
        };
        assert!(!case.check_run(&damaged));
    }
    let mut longer = run.clone();
    longer.push(65_535);
    assert!(!case.check_run(&longer));
    for position in [0, 1, longest - 1, longest, longest + 1] {
        for state in 0..3 {
            for mode in 0..3 {
                for (start, end) in [
                    (0, 0),
                    (0, position),
                    (position, position),
                    (position, longest),
                ] {
                    let config = Config {
                        position,
                        state,
                        mode,
                        start,
                        end,
                    };
                    for entry in [0, 1, 2, 3, 4, 5, 65_533, 65_534, 65_535] {
                        case.step(config, entry);
                    }
                }
            }
        }
    }
    cases += case.finish();
    *word.last_mut().unwrap() ^= 3;
    let mut case = Case::new(&record, &list, &word);
    assert!(!case.check_run(&run));
    cases += case.finish();
    println!("words of 1,048,576 and 1,048,577 letters, order of refusals: {cases} cases");
}

/// Every kind of malformed configuration on table T, by every entry of the table and every mode byte.
#[test]
fn malformed_configurations() {
    let (record, list) = folder::load("table-t").machine.record();
    let word = [1, 1, 1, 1];
    let mut case = Case::new(&record, &list, &word);
    let entries = [0, 1, 2, 3, 4, 5, 6, 7, 4000, 65_532, 65_533, 65_534, 65_535];
    let max = usize::MAX;
    let mut allowed = 0;
    for state in [0, 1, 2, 3, 63, 64, 256, 1 << 32, max] {
        for mode in 0..=255 {
            for (position, start, end) in [
                (0, 0, 0),
                (4, 4, 4),
                (4, 0, 4),
                (4, 0, 2),
                (2, 0, 2),
                (2, 2, 2),
                (2, 0, 0),
                (3, 1, 3),
                // Position past the end.
                (5, 0, 0),
                (5, 5, 5),
                (max, 0, 0),
                (max, max, max),
                // The stretch ends past the position.
                (2, 0, 3),
                (2, 3, 3),
                (2, 4, 4),
                (2, 0, max),
                // The start is past the end.
                (3, 3, 2),
                (3, 2, 0),
                (3, max, 0),
                (3, max, 2),
                // Buffering mode that does not end at the position, normal mode with letters.
                (3, 0, 2),
                (3, 1, 1),
                (3, 0, 1),
            ] {
                for entry in entries {
                    let config = Config {
                        position,
                        state,
                        mode,
                        start,
                        end,
                    };
                    allowed += u64::from(case.step(config, entry).is_some());
                }
            }
        }
    }
    let cases = case.finish();
    println!("malformed configurations on table T: {cases} cases, {allowed} of them allowed moves");
}
