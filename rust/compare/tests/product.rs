//! The product: the whole result and the whole list of each call are compared with the reference.

use compare::calls::{check_run, join, join_record};
use compare::{break_a_rule, filled, random_machine, record_of, tally, Case, Rng, NO_MACHINE};
use reference::{folder, product, published, Machine, Record};
use zagvirk::product::JoinedRecord;

/// A record and its list.
type Input = (Record, Vec<u16>);

/// Compares joining into a list of the length. Returns the refusal or 0, and the length needed.
fn joins(first: &Input, second: &Input, length: usize) -> (u8, usize) {
    let mut expected_list = filled(length);
    let joined = product::join(&first.0, &first.1, &second.0, &second.1, &mut expected_list);
    let expected = match joined {
        Ok(record) => JoinedRecord {
            refusal: 0,
            needed: 0,
            machine: record_of(&record),
        },
        Err(refusal) => JoinedRecord {
            refusal: refusal.number,
            needed: refusal.needed,
            machine: NO_MACHINE,
        },
    };
    let one = record_of(&first.0);
    let two = record_of(&second.0);
    let mut list = filled(length);
    let found = join_record(&one, &first.1, &two, &second.1, &mut list);
    if found != expected || list != expected_list {
        panic!(
            "join differs, list of {length} elements, the same after the call: {}\nfirst {first:?}\n\
             second {second:?}\nreference {expected:?}\nproved {found:?}",
            list == expected_list
        );
    }
    (expected.refusal, expected.needed)
}

/// A plain machine with up to the given number of states and just so many letters.
fn random_plain(rng: &mut Rng, states: usize, letters: usize) -> Machine {
    let states = 1 + rng.below(states);
    let marks: Vec<u8> = (0..states).map(|_| rng.pick(&[0, 1, 2, 3])).collect();
    let mut transitions = Vec::new();
    if letters > 0 {
        for _ in 0..rng.below(2 * states * letters + 1) {
            transitions.push((rng.below(states), 1 + rng.below(letters), rng.below(states)));
        }
    }
    Machine::new(letters, &marks, &transitions)
}

#[test]
fn random_pairs() {
    let mut rng = Rng::new(20_240_009);
    let pairs = 60_000;
    let mut counts = [0u64; 21];
    for _ in 0..pairs {
        let first = random_machine(&mut rng, 8, 4);
        let mut letters = first.letters;
        if rng.once_in(12) {
            letters = rng.below(5);
        }
        let states = rng.pick(&[1, 3, 5, 8, 12]);
        let second = match rng.below(12) {
            0 => random_machine(&mut rng, states, 4),
            _ => random_plain(&mut rng, states, letters),
        };
        let mut one = first.record();
        let mut two = second.record();
        match rng.below(24) {
            0 => one = break_a_rule(&mut rng, &first),
            1 => two = break_a_rule(&mut rng, &second),
            2 => {
                one = break_a_rule(&mut rng, &first);
                two = break_a_rule(&mut rng, &second);
            }
            3..8 => {
                one.1.extend([0, 65_535, 3]);
                two.1.push(7);
            }
            _ => {}
        }
        let (refusal, needed) = joins(&one, &two, 0);
        counts[usize::from(refusal)] += 1;
        if refusal == 15 {
            for length in [
                rng.below(needed),
                needed - 1,
                needed,
                needed + 1 + rng.below(9),
            ] {
                let (refusal, _) = joins(&one, &two, length);
                assert_eq!(refusal, if length < needed { 15 } else { 0 });
                counts[usize::from(refusal)] += 1;
            }
        }
    }
    let cases: u64 = counts.iter().sum();
    println!(
        "join, random: {pairs} pairs, {cases} cases (refusal: cases; {})",
        tally(&counts)
    );
    for number in [0, 10, 11, 12, 15, 16] {
        assert!(counts[number] > 100, "refusal {number} is rare");
    }
}

/// The product accepts a word if both machines do: a run of it goes through the proved checker.
/// A machine whose transitions have letters from all of 0 to `letters`, few of them shared with another such machine.
fn many_letters(rng: &mut Rng, states: usize, letters: usize, epsilon: bool) -> Machine {
    let marks: Vec<u8> = (0..states).map(|_| rng.below(4) as u8).collect();
    let mut chosen = Vec::new();
    for _ in 0..1 + rng.below(120) {
        let letter = match rng.below(6) {
            0 if epsilon => 0,
            1 => rng.pick(&[1, 63, 64, 65, 127, 128, 191, 192, 250]),
            _ => 1 + rng.below(letters),
        };
        chosen.push((rng.below(states), letter.min(letters), rng.below(states)));
    }
    chosen.sort();
    chosen.dedup();
    Machine::new(letters, &marks, &chosen)
}

#[test]
fn pairs_with_many_letters() {
    let mut rng = Rng::new(20_240_010);
    let pairs = 4_000;
    let (mut joined, mut transitions) = (0u64, 0usize);
    for _ in 0..pairs {
        let letters = rng.pick(&[65, 129, 193, 250]);
        let states = 1 + rng.below(8);
        let first = many_letters(&mut rng, states, letters, true);
        let states = 1 + rng.below(8);
        let second = many_letters(&mut rng, states, letters, false);
        let (one, two) = (first.record(), second.record());
        let (refusal, needed) = joins(&one, &two, 0);
        if refusal == 15 {
            assert_eq!(joins(&one, &two, needed).0, 0);
            assert_eq!(joins(&one, &two, needed + 7).0, 0);
            joined += 1;
            transitions += needed / 3;
        }
    }
    println!("join, 65 to 250 letters: {pairs} pairs, {joined} of them with joined transitions, {transitions} in all");
    assert!(joined > 1_000);
}

#[test]
fn accepts_what_both_accept() {
    let mut rng = Rng::new(20_240_010);
    let (mut words, mut yes) = (0, 0);
    for _ in 0..2_000 {
        let first = random_machine(&mut rng, 5, 2);
        let second = random_plain(&mut rng, 4, first.letters);
        let mut list = filled(12_000);
        let (one, two) = (first.record(), second.record());
        let joined = join(
            &record_of(&one.0),
            &one.1,
            &record_of(&two.0),
            &two.1,
            &mut list,
        );
        let joined = joined.expect("a small product");
        let record = Record {
            states: joined.states,
            letters: joined.letters,
            transitions: joined.transitions,
            marks: joined.marks,
        };
        let both = record.machine(&list).expect("the product keeps the rules");
        for _ in 0..12 {
            let word = compare::random_word(&mut rng, first.letters, 6);
            let run = published::find_run(&both, &word);
            let each = published::find_run(&first, &word).is_some()
                && published::find_run(&second, &word).is_some();
            assert_eq!(run.is_some(), each, "{first:?} {second:?} {word:?}");
            if let Some(run) = run {
                let mut case = Case::new(&record, &list, &word);
                assert!(case.check_run(&run));
                case.finish();
                yes += 1;
            }
            words += 1;
        }
    }
    println!("words of products: {words} words, {yes} accepted");
}

/// The machines of figure 2.13: the product of b and a is c, and it gives the answers of c's words.
#[test]
fn figure_2_13() {
    let odd = folder::load("fig-2.13a").machine.record();
    let mut words = 0;
    for reading in ["epsilon", "letters"] {
        let first = folder::load(&format!("fig-2.13b-{reading}"))
            .machine
            .record();
        let both = folder::load(&format!("fig-2.13c-{reading}"));
        let (record, expected) = both.machine.record();
        let mut list = filled(expected.len() + 3);
        let joined = join(
            &record_of(&first.0),
            &first.1,
            &record_of(&odd.0),
            &odd.1,
            &mut list,
        );
        assert_eq!(joined, Ok(record_of(&record)));
        assert_eq!(list[..expected.len()], expected);
        for (word, answer) in &both.words {
            let run = published::find_run(&both.machine, word);
            assert_eq!(run.is_some(), *answer);
            if let Some(run) = run {
                let checked = check_run(&joined.unwrap(), &list, word, &run);
                assert_eq!(checked, Ok(true));
            }
            words += 1;
        }
        for length in 0..expected.len() + 4 {
            let refusal = if length < expected.len() {
                (15, expected.len())
            } else {
                (0, 0)
            };
            assert_eq!(joins(&first, &odd, length), refusal);
        }
    }
    println!("figure 2.13, b joined with a, two readings: {words} words");
}

#[test]
fn examples_of_document_01() {
    let table_t = folder::load("table-t").machine.record();
    let odd = folder::load("odd-ones").machine.record();
    let mut list = filled(40);
    let (one, two) = (record_of(&table_t.0), record_of(&odd.0));
    let joined = join(&one, &table_t.1, &two, &odd.1, &mut list).unwrap();
    assert_eq!((joined.states, joined.transitions), (6, 12));
    assert_eq!(joins(&table_t, &odd, 40), (0, 0));
    // The second is not plain.
    assert_eq!(joins(&odd, &table_t, 40), (10, 0));
    // Every length too short, for every two machines of data/machines that can be joined.
    let all: Vec<Input> = folder::all()
        .iter()
        .map(|folder| folder.machine.record())
        .collect();
    let (mut pairs, mut cases) = (0, 0);
    for first in &all {
        for second in &all {
            let (refusal, needed) = joins(first, second, 0);
            cases += 1;
            if refusal == 15 || refusal == 0 {
                pairs += 1;
                for length in 0..needed + 3 {
                    let refusal = if length < needed {
                        (15, needed)
                    } else {
                        (0, 0)
                    };
                    assert_eq!(joins(first, second, length), refusal);
                    cases += 1;
                }
            }
        }
    }
    println!(
        "join, machines of data/machines: {pairs} pairs, lists of every length, {cases} cases"
    );
}

/// A machine with so many transitions by each letter, letter 0 first.
fn with_counts(states: usize, letters: usize, counts: &[usize], marks: &[u8]) -> Machine {
    let mut transitions = Vec::new();
    for (letter, &count) in counts.iter().enumerate() {
        assert!(count <= states * states);
        for number in 0..count {
            transitions.push((number / states, letter, number % states));
        }
    }
    let all: Vec<u8> = (0..states)
        .map(|state| marks[state % marks.len()])
        .collect();
    Machine::new(letters, &all, &transitions)
}

#[test]
fn limits() {
    let mut cases = 0;
    let mut gives = |first: &Machine, second: &Machine, refusal: u8| {
        let (one, two) = (first.record(), second.record());
        let needed = match refusal {
            0 => 3 * product::product(first, second).transitions.len(),
            _ => 0,
        };
        for length in [needed, needed + 1, needed + 100, 12_000, 12_001] {
            assert_eq!(joins(&one, &two, length), (refusal, 0));
            cases += 1;
        }
        for length in [0, 1, needed / 2, needed.saturating_sub(1)] {
            if length < needed {
                assert_eq!(joins(&one, &two, length), (15, needed));
                cases += 1;
            }
        }
    };
    // 64 and more joined states.
    for (p, q) in [(64, 1), (1, 64), (32, 2), (2, 32), (16, 4), (4, 16), (8, 8)] {
        let first = with_counts(p, 2, &[1, p, p / 2], &[5, 10, 0]);
        let second = with_counts(q, 2, &[0, q, 1], &[1, 2, 3]);
        gives(&first, &second, 0);
    }
    for (p, q) in [
        (13, 5),
        (5, 13),
        (64, 2),
        (2, 64),
        (33, 2),
        (9, 8),
        (8, 9),
        (64, 64),
    ] {
        let first = with_counts(p, 2, &[1, p, p / 2], &[5, 10, 0]);
        let second = with_counts(q, 2, &[0, q, 1], &[1, 2, 3]);
        gives(&first, &second, 12);
    }
    // 4,000 and 4,001 joined transitions: 64 x 62 + 32 x 1, and one more; the same with epsilon.
    let second = with_counts(8, 2, &[0, 62, 1], &[1, 2]);
    gives(&with_counts(8, 2, &[0, 64, 32], &[5, 8, 2]), &second, 0);
    gives(&with_counts(8, 2, &[0, 64, 33], &[5, 8, 2]), &second, 13);
    gives(&with_counts(8, 2, &[4, 64, 0], &[5, 8, 2]), &second, 0);
    gives(&with_counts(8, 2, &[4, 64, 1], &[5, 8, 2]), &second, 13);
    gives(&with_counts(8, 2, &[5, 64, 0], &[5, 8, 2]), &second, 13);
    gives(&with_counts(8, 2, &[3, 64, 8], &[5, 8, 2]), &second, 0);
    // 4,000 transitions in the first alone.
    let loops = with_counts(1, 1, &[0, 1], &[3]);
    gives(&with_counts(64, 1, &[0, 4000], &[5, 8, 2]), &loops, 0);
    gives(&with_counts(64, 1, &[4000, 0], &[5, 8, 2]), &loops, 0);
    gives(&with_counts(64, 1, &[2000, 2000], &[5, 8, 2]), &loops, 0);
    let none = with_counts(1, 1, &[], &[3]);
    gives(&with_counts(64, 1, &[0, 4000], &[5, 8, 2]), &none, 0);
    gives(
        &with_counts(32, 1, &[1000, 0], &[5]),
        &with_counts(2, 1, &[], &[1]),
        0,
    );
    gives(
        &with_counts(32, 1, &[1000, 250], &[5]),
        &with_counts(2, 1, &[0, 4], &[1]),
        0,
    );
    gives(
        &with_counts(63, 1, &[3969, 31], &[5]),
        &with_counts(1, 1, &[0, 1], &[1]),
        0,
    );
    // As many as there can be: 62 letters with 64 x 64 each.
    let mut full = vec![64; 63];
    full[0] = 0;
    let many = with_counts(8, 250, &full, &[1, 2]);
    gives(&many, &many, 13);
    // All 250 letters, none of them common, and one common.
    let odd: Vec<usize> = (0..=250).map(|letter| letter % 2 * 8).collect();
    let even: Vec<usize> = (0..=250)
        .map(|letter| (letter + 1) % 2 * 8 * usize::from(letter > 0))
        .collect();
    gives(
        &with_counts(8, 250, &odd, &[5, 10]),
        &with_counts(8, 250, &even, &[1, 2]),
        0,
    );
    let mut one_more = even.clone();
    one_more[249] = 5;
    gives(
        &with_counts(8, 250, &odd, &[5, 10]),
        &with_counts(8, 250, &one_more, &[1, 2]),
        0,
    );
    // No letters.
    gives(
        &with_counts(3, 0, &[5], &[5, 10]),
        &with_counts(2, 0, &[], &[3]),
        0,
    );
    println!("join, 64 and 65 states, 4,000 and 4,001 transitions, lists too short: {cases} cases");
}

/// Every two faults together: 16 (first, then second), 10, 11, 12, 13, 15.
#[test]
fn order_of_refusals() {
    let first = with_counts(8, 2, &[0, 64, 33], &[5, 8, 2]);
    let second = with_counts(8, 2, &[0, 62, 1], &[1, 2]);
    let mut cases = 0;
    for faults in 0..64u32 {
        let has = |fault: u32| faults >> fault & 1 == 1;
        let (mut one, mut two) = (first.record(), second.record());
        let mut expected = 13;
        if has(0) {
            // More than 64 states.
            two.0.states = 9;
            expected = 12;
        }
        if has(1) {
            two.0.letters = 3;
            expected = 11;
        }
        if has(2) {
            two.0.marks[3] |= 4;
            expected = 10;
        }
        if has(3) {
            two.0.marks[3] |= 8;
            expected = 10;
        }
        if has(2) && has(3) {
            expected = 16;
        }
        if has(4) {
            two.1[1] = 60_000;
            expected = 16;
        }
        if has(5) {
            one.0.letters = 1;
            expected = 16;
        }
        for length in [0, 12_000] {
            assert_eq!(joins(&one, &two, length).0, expected, "{faults:b}");
            cases += 1;
        }
    }
    // An epsilon transition makes the second not plain.
    let mut epsilon = second.clone();
    epsilon.transitions[0].letter = 0;
    assert_eq!(joins(&first.record(), &epsilon.record(), 0).0, 10);
    // Fewer transitions: only the list is too short.
    let small = with_counts(8, 2, &[0, 64, 32], &[5, 8, 2]);
    assert_eq!(joins(&small.record(), &second.record(), 0), (15, 12_000));
    println!("join, order of refusals: {} cases", cases + 2);
}

#[test]
fn c_program() {
    let printed = compare::c::program("product", env!("CARGO_TARGET_TMPDIR"));
    assert_eq!(printed, "machines are joined right from C\n");
    print!("{printed}");
}
