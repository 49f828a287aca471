//! The common-word search.

use crate::measure::{best_of_both, least_within, REPETITIONS};
use crate::plain_common;
use compare::copy_chains::{chain, cycles, every_word, short_copies};
use compare::dense::{dense, dense_plain, doubled, Kind};
use compare::record_of;
use reference::{folder, Machine};
use zagvirk::common::{common_word, needed};
use zagvirk::{check_run, Refusal, Table};

/// The time in seconds of a sample: as many calls as take so long, at least one.
const SAMPLE: f64 = 0.005;
/// The most calls of a sample.
const CALLS: f64 = 5000.0;

/// Two machines and the number of letters of a shortest common word, where it is known before.
struct Pair {
    name: &'static str,
    first: Machine,
    second: Machine,
    letters: Option<Option<usize>>,
}

impl Pair {
    fn new(name: &'static str, first: Machine, second: Machine) -> Pair {
        Pair {
            name,
            first,
            second,
            letters: None,
        }
    }

    /// A machine with the plain machine that accepts every word.
    fn alone(name: &'static str, first: Machine) -> Pair {
        let second = every_word(first.letters);
        Pair::new(name, first, second)
    }

    fn with(self, letters: Option<usize>) -> Pair {
        Pair {
            letters: Some(letters),
            ..self
        }
    }
}

fn pairs() -> Vec<Pair> {
    let plain = |name| folder::load(name).machine;
    let mut pairs = vec![
        Pair::new("T, odd number of 1", doubled(2), plain("odd-ones")).with(None),
        Pair::new("T, some 2", doubled(2), plain("some-two")).with(Some(2)),
    ];
    for (name, (first, letters)) in [
        ("cycles 31, 32", cycles(31, 32)),
        ("21 copies, 22, 21", chain(21, 22, 21, false)),
        ("16 copies, 32, 31", chain(16, 32, 31, true)),
        ("21 short copies", short_copies(21, 2)),
        ("16 copies, 3, 16", chain(16, 3, 16, false)),
    ] {
        pairs.push(Pair::alone(name, first).with(Some(letters)));
    }
    for (name, kind, letters, count) in [
        ("250 letters, no final", Kind::NoFinal, 250, 4_000),
        ("250 letters, no way", Kind::NoWayOut, 250, 4_000),
        ("250 letters, apart", Kind::NeverMatched, 250, 4_000),
        ("250 letters, parity", Kind::Parity, 250, 4_000),
        ("1 letter, no final", Kind::NoFinal, 1, 4_000),
        ("1 letter, no way", Kind::NoWayOut, 1, 3_900),
        ("1 letter, parity", Kind::Parity, 1, 1_500),
    ] {
        pairs.push(Pair::alone(name, dense(kind, 64, letters, count)).with(None));
    }
    for (name, letters) in [
        ("1 letter, a word", 1),
        ("20 letters, a word", 20),
        ("250 letters, a word", 250),
    ] {
        pairs.push(Pair::alone(name, dense(Kind::Any, 64, letters, 4_000)));
    }
    let dense_second = |ends| dense_plain(21, 6, 1_979, ends);
    pairs.push(Pair::new("T over 6, no final", doubled(6), dense_second(false)).with(None));
    pairs.push(Pair::new(
        "T over 6, a word",
        doubled(6),
        dense_second(true),
    ));
    pairs
}

/// Prints the times of the common-word search.
pub fn section() {
    println!(
        "Common-word search with both runs. Microseconds a call, best of {REPETITIONS} samples after a first one; a call"
    );
    println!("checks the machines too. Ratio: time of the proved call / time of plain Rust.");
    println!();
    println!(
        "{:22} {:>6} {:>11} {:>7} {:>10} {:>10} {:>7}",
        "machines", "states", "transitions", "letters", "proved", "plain", "ratio"
    );
    for pair in pairs() {
        row(&pair);
    }
    println!();
    println!(
        "States and transitions are those of the product. T is table T. Cycles: storing and matching go round cycles of so"
    );
    println!(
        "many states. Copies: so many in a row, round the same two cycles. Short copies: of two letters each. Then tables with"
    );
    println!(
        "many transitions at random: without a final state; without a way out of the initial state; where no letter is both"
    );
    println!(
        "stored and matched; where copies end in states of one parity and the final ones have the other; and with a word."
    );
}

/// Prints the row of two machines.
fn row(pair: &Pair) {
    let Pair {
        name,
        first,
        second,
        letters,
    } = pair;
    let joined = reference::product::product(first, second);
    let ((one, one_list), (two, two_list)) = (first.record(), second.record());
    let (one, two) = (record_of(&one), record_of(&two));
    let (one_table, two_table) = (Table::new(&one, &one_list), Table::new(&two, &two_list));
    // The number of letters, from a call with no room.
    let search = |word: &mut [u8], first_run: &mut [u16], second_run: &mut [u16]| {
        common_word(one_table, two_table, word, first_run, second_run)
    };
    let plain_search = |word: &mut [u8], first_run: &mut [u16], second_run: &mut [u16]| {
        let (one, two) = ((&one, &one_list[..]), (&two, &two_list[..]));
        plain_common::common_word(one, two, word, first_run, second_run)
    };
    let found = match search(&mut [], &mut [], &mut []) {
        Ok(_) => None,
        Err(Refusal::WordTooShort { needed }) => Some(needed),
        Err(Refusal::RunTooShort { .. }) => Some(0),
        Err(refusal) => panic!("{name}: {refusal}"),
    };
    if let Some(letters) = letters {
        assert_eq!(found, *letters, "{name}");
    }
    let needed = needed(&one, found.unwrap_or(0));
    let slices = || {
        (
            vec![0; needed.word],
            vec![0; needed.first_run],
            vec![0; needed.second_run],
        )
    };
    let (mut proved, mut plain) = (slices(), slices());
    // Both find a word of this length, or none, and their runs accept it.
    let proved_lengths = search(&mut proved.0, &mut proved.1, &mut proved.2).expect("enough room");
    let plain_lengths = plain_search(&mut plain.0, &mut plain.1, &mut plain.2);
    let plain_lengths = plain_lengths.expect("enough room");
    let proved_lengths =
        proved_lengths.map(|found| (found.letters, found.first_entries, found.second_entries));
    let plain_lengths =
        plain_lengths.map(|found| (found.letters, found.first_entries, found.second_entries));
    for (lengths, (word, first_run, second_run)) in
        [(proved_lengths, &proved), (plain_lengths, &plain)]
    {
        assert_eq!(lengths.map(|lengths| lengths.0), found, "{name}");
        if let Some((letters, first_entries, second_entries)) = lengths {
            let word = &word[..letters];
            let checked = [
                check_run(one_table, word, &first_run[..first_entries]),
                check_run(two_table, word, &second_run[..second_entries]),
            ];
            assert_eq!(checked, [Ok(true); 2], "{name}");
        }
    }
    let once = least_within(5, SAMPLE, || {
        search(&mut proved.0, &mut proved.1, &mut proved.2).is_ok()
    });
    let plain_once = least_within(5, SAMPLE, || {
        plain_search(&mut plain.0, &mut plain.1, &mut plain.2).is_ok()
    });
    let calls = |once: f64| (SAMPLE / once).clamp(1.0, CALLS) as usize;
    let (proved_calls, plain_calls) = (calls(once), calls(plain_once));
    let (proved_time, plain_time) = best_of_both(
        || (0..proved_calls).all(|_| search(&mut proved.0, &mut proved.1, &mut proved.2).is_ok()),
        || (0..plain_calls).all(|_| plain_search(&mut plain.0, &mut plain.1, &mut plain.2).is_ok()),
    );
    let (proved_time, plain_time) = (
        proved_time / proved_calls as f64,
        plain_time / plain_calls as f64,
    );
    println!(
        "{name:22} {:6} {:11} {:>7} {:10.2} {:10.2} {:7.2}",
        joined.states(),
        joined.transitions.len(),
        found.map_or("none".to_string(), |letters| letters.to_string()),
        1e6 * proved_time,
        1e6 * plain_time,
        proved_time / plain_time
    );
}
