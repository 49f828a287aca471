//! Recognition of words with a run, one call a word.

use crate::measure::{least_within, REPETITIONS};
use crate::plain_recognize;
use std::hint::black_box;
use std::time::Instant;
use zagvirk::recognize::{recognize, run_length};
use zagvirk::{check_run, Machine};

/// The most time in seconds for one row, but each row has at least one call of each.
const BUDGET: f64 = 3.0;
/// The time in seconds of a sample: as many rounds over the words as take so long, at least one.
const SAMPLE: f64 = 0.005;
/// The most rounds of a sample.
const ROUNDS: f64 = 2000.0;
/// The most calls to find the time of a single word, and the time in seconds that is enough for it.
const CALLS: usize = 5;
const ENOUGH: f64 = 0.02;

/// Numbers that look random, the same in every run of the program.
pub struct Numbers(pub u64);

impl Numbers {
    pub fn below(&mut self, bound: usize) -> usize {
        self.0 ^= self.0 << 13;
        self.0 ^= self.0 >> 7;
        self.0 ^= self.0 << 17;
        (self.0 >> 20) as usize % bound
    }
}

/// A machine and the number of letters its words are made of.
pub struct Table {
    pub name: &'static str,
    pub machine: Machine,
    pub list: Vec<u16>,
    pub letters: usize,
}

impl Table {
    fn new(name: &'static str, letters: usize, marks: &[u8], transitions: &[[u16; 3]]) -> Table {
        let mut sorted = transitions.to_vec();
        sorted.sort();
        sorted.dedup();
        Table {
            name,
            machine: Machine::new(letters, sorted.len(), marks),
            list: sorted.concat(),
            letters,
        }
    }

    /// The sheet of the machine.
    pub fn sheet(&self) -> Vec<u8> {
        let machine = &self.machine;
        let mut text = vec![0; 16 + 11 * machine.states + 16 * machine.transitions];
        let table = zagvirk::Table::new(machine, &self.list);
        let bytes = zagvirk::sheet::write(table, &mut text).expect("a good machine");
        text.truncate(bytes);
        text
    }
}

/// Doubled words over two letters.
pub fn table_t() -> Table {
    let moves = [
        [0, 0, 1],
        [1, 0, 2],
        [1, 1, 1],
        [1, 2, 1],
        [2, 1, 2],
        [2, 2, 2],
    ];
    Table::new("T", 2, &[5, 0, 10], &moves)
}

/// Doubled words over two letters one after another.
pub fn repeated() -> Table {
    let moves = [
        [0, 0, 1],
        [1, 0, 2],
        [1, 1, 1],
        [1, 2, 1],
        [2, 0, 0],
        [2, 1, 2],
        [2, 2, 2],
    ];
    Table::new("doubled words repeated", 2, &[5, 0, 10], &moves)
}

/// Ten copy zones of six states over 20 letters. In a zone storing goes to and fro between two states, matching too, and
/// a plain state leads on.
pub fn zones() -> Table {
    let (mut marks, mut moves) = (Vec::new(), Vec::new());
    for zone in 0..10u16 {
        let begin = 6 * zone;
        let [store, other_store, matched, other_match, plain] =
            [begin + 1, begin + 2, begin + 3, begin + 4, begin + 5];
        marks.extend([if zone == 0 { 5 } else { 4 }, 0, 0, 8, 8, 2]);
        moves.extend([
            [begin, 0, store],
            [store, 0, matched],
            [other_store, 0, matched],
        ]);
        for letter in 1..=20 {
            moves.push([store, letter, store]);
            moves.push([matched, letter, matched]);
            if letter % 2 == zone % 2 {
                moves.extend([[store, letter, other_store], [other_store, letter, store]]);
                moves.extend([
                    [matched, letter, other_match],
                    [other_match, letter, matched],
                ]);
            }
        }
        moves.push([matched, 0, plain]);
        for letter in 1..=6 {
            moves.push([plain, letter + zone, plain]);
        }
        if zone < 9 {
            moves.push([plain, 0, begin + 6]);
        }
    }
    Table::new("60 states, 10 zones", 20, &marks, &moves)
}

/// Pairs of copy zones in turn over one letter, the first of a pair for one letter and the second for two: copies of every
/// length begin at many places, and most lead nowhere.
pub fn in_turn(name: &'static str, pairs: u16) -> Table {
    let (mut marks, mut moves) = (Vec::new(), Vec::new());
    for pair in 0..pairs {
        let first = 9 * pair;
        let next = if pair + 1 < pairs { first + 9 } else { 0 };
        marks.extend([4, 0, 8, 10, 4, 0, 8, 8, 10]);
        // From, letter, to, counted from the first state of the pair.
        let zones = [
            [0, 0, 1],
            [1, 1, 1],
            [1, 0, 2],
            [2, 1, 3],
            [3, 0, 4],
            [4, 0, 5],
            [5, 1, 5],
            [5, 0, 6],
            [6, 1, 7],
            [7, 1, 8],
        ];
        moves.extend(zones.map(|[from, letter, to]| [first + from, letter, first + to]));
        moves.push([first + 8, 0, next]);
    }
    marks[0] |= 1;
    Table::new(name, 1, &marks, &moves)
}

/// 64 states, 4,000 transitions, one letter.
pub fn dense() -> Table {
    let marks: Vec<u8> = (0..64).map(|state| [5, 0, 8, 10][state % 4]).collect();
    let moves: Vec<[u16; 3]> = (0..4000)
        .map(|number| [number / 64, 1, number % 64])
        .collect();
    Table::new("dense, 64 states, 4,000 transitions", 1, &marks, &moves)
}

/// The kinds of words over so many letters. Over one letter all words of a length are the same.
pub fn kinds(letters: usize) -> &'static [&'static str] {
    match letters {
        1 => &["one letter"],
        _ => &[
            "mixed",
            "one letter",
            "two in turn",
            "Fibonacci",
            "nearly square",
        ],
    }
}

/// Words of the kind: sixteen, or of one letter, of two in turn and of two as in a Fibonacci word as many as there are
/// letters, up to sixteen.
pub fn words(kind: &str, letters: usize, length: usize) -> Vec<Vec<u8>> {
    if kind == "one letter" {
        let letters = letters.min(16) as u8;
        return (1..=letters).map(|letter| vec![letter; length]).collect();
    }
    if kind == "two in turn" {
        let pair = |first: usize, place: usize| 1 + ((first + place % 2) % letters) as u8;
        return (0..letters.min(16))
            .map(|first| (0..length).map(|place| pair(first, place)).collect())
            .collect();
    }
    if kind == "Fibonacci" {
        let (mut last, mut places) = (vec![0], vec![0, 1]);
        while places.len() < length {
            let next = [places.clone(), last].concat();
            last = std::mem::replace(&mut places, next);
        }
        return (0..letters.min(16))
            .map(|first| {
                let letter = |&second: &usize| 1 + ((first + second) % letters) as u8;
                places[..length].iter().map(letter).collect()
            })
            .collect();
    }
    let mut numbers = Numbers(88_172_645_463_325_252);
    let mut any = |count: usize| -> Vec<u8> {
        (0..count)
            .map(|_| 1 + numbers.below(letters) as u8)
            .collect()
    };
    let mut all = Vec::new();
    for number in 0..16 {
        let half = any(length / 2);
        let odd = any(length % 2);
        let mut square = [half.clone(), half, odd].concat();
        all.push(match kind {
            "nearly square" => {
                let last = length - length % 2 - 1;
                square[last] = 1 + square[last] % letters as u8;
                square
            }
            // Squares, short squares one after another, and random words.
            _ => match number % 4 {
                0 | 1 => square,
                2 => {
                    let mut word = Vec::new();
                    while word.len() < length {
                        let part = any(1 + number % 3);
                        word.extend([part.clone(), part].concat());
                    }
                    word.truncate(length);
                    word
                }
                _ => any(length),
            },
        });
    }
    all
}

/// The time of a single word.
struct Single {
    length: usize,
    kind: &'static str,
    yes: bool,
    proved: f64,
    plain: f64,
}

/// Prints the times of recognition with a run.
pub fn section() {
    println!(
        "Recognition with a run, one call a word: each call checks the machine and the word and prepares the machine anew."
    );
    println!(
        "(Yes or no for many words over a table that is prepared once: sections words and listing.) Words per second, best of"
    );
    println!(
        "up to {REPETITIONS} samples after a first pass, as many as fit into {BUDGET} s for the row. Yes: of the words of the row, as"
    );
    println!(
        "many as the first pass came to. Ratio: time of the proved call / time of plain Rust."
    );
    println!();
    println!("| table | letters | words | yes | proved | plain Rust | ratio |");
    println!("|---|---|---|---|---|---|---|");
    let tables = [
        table_t(),
        repeated(),
        zones(),
        dense(),
        in_turn("zones in turn, 9 states", 1),
        in_turn("zones in turn, 63 states", 7),
    ];
    let mut slowest = Vec::new();
    for table in &tables {
        let mut singles = Vec::new();
        for length in [8, 32, 254, 255] {
            for kind in kinds(table.letters) {
                let row = row(table, length, kind);
                singles.extend(row.into_iter().filter(|single| single.length >= 254));
            }
        }
        let single = singles
            .into_iter()
            .max_by(|a, b| a.proved.total_cmp(&b.proved));
        slowest.push((table.name, single.expect("a long word")));
    }
    println!();
    println!(
        "The slowest of the measured words of 254 and 255 letters for the proved call. Milliseconds, best of up to {CALLS} calls."
    );
    println!();
    println!("| table | letters | word | answer | proved, ms | plain Rust, ms | ratio |");
    println!("|---|---|---|---|---|---|---|");
    for (name, single) in slowest {
        println!(
            "| {name} | {} | {} | {} | {:.3} | {:.3} | {:.2} |",
            single.length,
            single.kind,
            if single.yes { "yes" } else { "no" },
            1e3 * single.proved,
            1e3 * single.plain,
            single.proved / single.plain
        );
    }
    println!();
    println!(
        "Doubled words repeated is T with a way back, doubled words one after another; the table of 60 states has 20 letters,"
    );
    println!(
        "{} transitions and 10 copy zones; the dense one has {} transitions and one letter; zones in turn have two copy",
        tables[2].machine.transitions, tables[3].machine.transitions
    );
    println!(
        "zones in turn over one letter, for one letter and for two, and those of {} states seven such pairs.",
        tables[5].machine.states
    );
}

/// Prints the row of a table and words of a length and a kind. Returns the times of its words.
fn row(table: &Table, length: usize, kind: &'static str) -> Vec<Single> {
    let Table {
        name,
        machine,
        list,
        letters,
    } = table;
    let begin = Instant::now();
    let left = || BUDGET - begin.elapsed().as_secs_f64();
    let mut words = words(kind, *letters, length);
    let lent = zagvirk::Table::new(machine, list);
    let needed = run_length(machine, length);
    let (mut proved_run, mut plain_run) = (vec![0; needed], vec![0; needed]);
    // The first pass: each word alone, and whether the answers are the same and the runs accept.
    let mut singles = Vec::new();
    for word in &words {
        if !singles.is_empty() && left() < 0.0 {
            break;
        }
        let (mut proved, mut plain) = (Ok(None), Ok(None));
        let proved_time = least_within(CALLS, ENOUGH, || {
            proved = recognize(lent, word, &mut proved_run);
        });
        let plain_time = least_within(CALLS, ENOUGH, || {
            plain = plain_recognize::recognize(machine, list, word, &mut plain_run);
        });
        let proved = proved.expect("no refusal");
        let plain = plain.expect("no refusal");
        assert_eq!(proved.is_some(), plain.is_some(), "{name} {word:?}");
        if let (Some(proved), Some(plain)) = (proved, plain) {
            for run in [&proved_run[..proved], &plain_run[..plain]] {
                let checked = check_run(lent, word, run);
                assert_eq!(checked, Ok(true), "{name} {word:?}");
            }
        }
        singles.push(Single {
            length,
            kind,
            yes: proved.is_some(),
            proved: proved_time,
            plain: plain_time,
        });
    }
    words.truncate(singles.len());
    // Samples, each of one or more rounds over the words.
    let mut proved: f64 = singles.iter().map(|single| single.proved).sum();
    let mut plain: f64 = singles.iter().map(|single| single.plain).sum();
    let rounds = |once: f64| (SAMPLE / once).clamp(1.0, ROUNDS).floor();
    let (proved_rounds, plain_rounds) = (rounds(proved), rounds(plain));
    let mut sample = || {
        let start = Instant::now();
        for word in words
            .iter()
            .cycle()
            .take(proved_rounds as usize * words.len())
        {
            black_box(recognize(lent, word, &mut proved_run)).expect("no refusal");
        }
        let proved = start.elapsed().as_secs_f64() / proved_rounds;
        let start = Instant::now();
        for word in words
            .iter()
            .cycle()
            .take(plain_rounds as usize * words.len())
        {
            black_box(plain_recognize::recognize(
                machine,
                list,
                word,
                &mut plain_run,
            ))
            .expect("no refusal");
        }
        (proved, start.elapsed().as_secs_f64() / plain_rounds)
    };
    for number in 0..REPETITIONS {
        if left() < proved * proved_rounds + plain * plain_rounds {
            break;
        }
        let (proved_sample, plain_sample) = sample();
        if number == 0 {
            (proved, plain) = (proved_sample, plain_sample);
        }
        proved = proved.min(proved_sample);
        plain = plain.min(plain_sample);
    }
    let count = words.len() as f64;
    let yes = singles.iter().filter(|single| single.yes).count();
    println!(
        "| {name} | {length} | {kind} | {yes}/{} | {} | {} | {:.2} |",
        words.len(),
        rate(count / proved),
        rate(count / plain),
        proved / plain
    );
    singles
}

/// The number with three digits or more.
pub fn rate(number: f64) -> String {
    match number {
        100.0.. => thousands(number.round() as u64),
        10.0.. => format!("{number:.1}"),
        _ => format!("{number:.2}"),
    }
}

/// The number with a comma before each three digits.
fn thousands(number: u64) -> String {
    match number {
        1000.. => format!("{},{:03}", thousands(number / 1000), number % 1000),
        _ => number.to_string(),
    }
}
