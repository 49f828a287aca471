//! The page of an accepting run: the whole result and the whole slice of each call are compared with the reference. The
//! columns of each page of the random runs are read back by the proved pass over a column, and its last line is compared
//! with the copy list.

use compare::accepting_runs::{longer, walk};
use compare::calls::{list_copies, write_page, write_page_record};
use compare::columns::column;
use compare::doubled_words::{
    plain_and_doubled, repeated, repeated_run, run_of_parts, Part, SEVERAL,
};
use compare::longest_runs::{circle_run, empty_copies, empty_copies_run, epsilon_circle};
use compare::many_copies::zones_or_random;
use compare::{break_a_rule, filled_bytes, in_threads, record_of, tally, Rng};
use reference::page::{entry_numbers, last_numbers};
use reference::{folder, moves, published, Machine, Record};
use std::collections::BTreeSet;
use zagvirk::page::{page_length, PageRecord, ENTRY_LINE, LAST_LINE, MOST_ENTRIES, MOST_LETTERS};

/// The bytes of a column.
const COLUMN: usize = 6;

/// A call but for its slice, and what the reference says of it with a slice that is long enough: the page, or the refusal.
struct Case<'a> {
    record: &'a Record,
    list: &'a [u16],
    word: &'a [u8],
    run: &'a [u16],
    judged: Result<Vec<u8>, u8>,
}

impl<'a> Case<'a> {
    fn new(record: &'a Record, list: &'a [u16], word: &'a [u8], run: &'a [u16]) -> Case<'a> {
        let mut page = vec![0; page_length(run.len())];
        let judged = match reference::page::write(record, list, word, run, &mut page) {
            Ok(bytes) => {
                page.truncate(bytes);
                Ok(page)
            }
            Err(refusal) => Err(refusal.number),
        };
        Case {
            record,
            list,
            word,
            run,
            judged,
        }
    }

    /// The refusal or 0, and the length needed, with a slice of the length.
    fn refusal(&self, length: usize) -> (u8, usize) {
        match &self.judged {
            Err(number) => (*number, 0),
            Ok(page) if length < page.len() => (19, page.len()),
            Ok(_) => (0, 0),
        }
    }

    /// Compares the call with a slice of the length. Returns the refusal or 0, and the length needed.
    fn writes(&self, length: usize) -> (u8, usize) {
        let (refusal, needed) = self.refusal(length);
        let mut page = filled_bytes(length);
        let mut expected_page = page.clone();
        let mut bytes = 0;
        if let (0, Ok(written)) = (refusal, &self.judged) {
            bytes = written.len();
            expected_page[..bytes].copy_from_slice(written);
        }
        let expected = PageRecord {
            refusal,
            needed,
            bytes,
        };
        let machine = record_of(self.record);
        let found = write_page_record(&machine, self.list, self.word, self.run, &mut page);
        if found != expected || page != expected_page {
            let at = (0..length).find(|&at| page[at] != expected_page[at]);
            panic!(
                "write_page differs, slice of {length} elements, the first other byte {at:?}\n{}\n\
                 reference {expected:?}\nproved {found:?}\n{}",
                self.input(),
                String::from_utf8_lossy(&page[..bytes.min(2_000)])
            );
        }
        (refusal, needed)
    }

    /// Compares the call with slices of no element, one too few, as many as needed and more; returns how many there were.
    /// The reference must have a page.
    fn writes_in_all(&self) -> u64 {
        let page = self.judged.as_ref().expect("a page");
        let needed = page_length(self.run.len());
        assert_eq!(page.len(), needed, "{}", self.input());
        let lengths = [0, needed - 1, needed, needed + 40];
        for length in lengths {
            self.writes(length);
        }
        lengths.len() as u64
    }

    /// The input as text for a message.
    fn input(&self) -> String {
        format!(
            "{:?}\nlist {:?}\nword {:?}\nrun of {} entries {:?}",
            self.record,
            self.list,
            self.word,
            self.run.len(),
            &self.run[..self.run.len().min(300)]
        )
    }
}

/// The numbers of a line, each column read back; nothing unless the line has so many columns and ends with byte 10.
fn read_line<const N: usize>(line: &[u8]) -> Option<[usize; N]> {
    if line.len() != N * COLUMN + 1 || line[N * COLUMN] != b'\n' {
        return None;
    }
    let mut numbers = [0; N];
    for (number, bytes) in numbers.iter_mut().zip(line.chunks(COLUMN)) {
        *number = column(bytes)?;
    }
    Some(numbers)
}

/// The page of the call read back: the numbers of each entry's line, and those of the last.
fn read_back(case: &Case) -> (Vec<[usize; 5]>, [usize; 3]) {
    let mut page = filled_bytes(page_length(case.run.len()));
    let length = page.len();
    let machine = record_of(case.record);
    let written = write_page(&machine, case.list, case.word, case.run, &mut page);
    assert_eq!(written, Ok(length), "{}", case.input());
    let (entries, last) = page.split_at(length - LAST_LINE);
    let lines = entries.chunks(ENTRY_LINE).map(read_line);
    let lines: Option<Vec<[usize; 5]>> = lines.collect();
    let last = read_line(last).expect("three columns and byte 10");
    (lines.expect("five columns and byte 10"), last)
}

/// Compares a page that is read back with the numbers of the reference and with the copy list. Returns its last line.
fn reads_back(machine: &Machine, case: &Case) -> [usize; 3] {
    let (word, run) = (case.word, case.run);
    let (lines, last) = read_back(case);
    let (visited, whole) = moves::follow(machine, word, run);
    assert!(whole && lines.len() == run.len(), "{}", case.input());
    for (number, (line, &after)) in lines.iter().zip(&visited).enumerate() {
        let expected = entry_numbers(number, word, after);
        assert_eq!(*line, expected, "{}", case.input());
    }
    assert_eq!(last, last_numbers(word, &visited), "{}", case.input());
    let [plain, stored, length] = last;
    assert_eq!(plain + 2 * stored, length, "{}", case.input());
    assert_eq!(length, word.len(), "{}", case.input());
    // The slice is as long as the word, which is enough.
    let mut copies = vec![40_000; word.len()];
    let listed = list_copies(&record_of(case.record), case.list, word, run, &mut copies);
    let total = listed.map(|listed| listed.total);
    assert_eq!(total, Ok(stored), "{}", case.input());
    last
}

/// How many random accepting runs there are, in so many parts. Each run is also damaged once.
const RUNS: u64 = 100_000;
const PARTS: u64 = 20;
/// How many runs at most are made of one machine and word.
const OF_ONE_WORD: usize = 4;

/// What is damaged. A damage may leave a good table, and a run that accepts.
#[derive(Clone, Copy, Debug)]
enum Damage {
    EntryChanged,
    EntryDropped,
    EntryAdded,
    Letters,
    Table,
}

/// All damages, in the order of their numbers.
const DAMAGES: [Damage; 5] = [
    Damage::EntryChanged,
    Damage::EntryDropped,
    Damage::EntryAdded,
    Damage::Letters,
    Damage::Table,
];

/// An entry: one of the run, one that is a change of mode, or any number.
fn any_entry(rng: &mut Rng, run: &[u16]) -> u16 {
    match rng.below(4) {
        0 => rng.bits() as u16,
        1 => rng.pick(&[0, 1, 2, 65_533, 65_534, 65_535]),
        _ => rng.pick(run),
    }
}

/// The word with a letter changed, dropped or added; a letter that is put in may be one that the machine does not have.
fn damaged_word(rng: &mut Rng, letters: usize, word: &[u8]) -> Vec<u8> {
    let mut word = word.to_vec();
    let letter = match rng.below(3) {
        0 => rng.pick(&[0, letters as u8 + 1, 255]),
        _ => 1 + rng.below(letters.max(1)) as u8,
    };
    let at = rng.below(word.len() + 1);
    match rng.below(3) {
        0 if at < word.len() => word[at] = letter,
        1 if at < word.len() => drop(word.remove(at)),
        _ => word.insert(at, letter),
    }
    word
}

/// What the random runs have.
#[derive(Default)]
struct Counts {
    words: u64,
    runs: u64,
    with_copies: u64,
    with_plain: u64,
    with_both: u64,
    most_entries: usize,
    most_letters: usize,
    most_states: usize,
    refusals: [u64; 21],
    /// For each damage, how many there were and how many of them still accept.
    damaged: [(u64, u64); 5],
}

impl Counts {
    /// Counts a case by its refusal.
    fn add(&mut self, (refusal, _): (u8, usize)) {
        self.refusals[usize::from(refusal)] += 1;
    }

    /// The counts of both.
    fn and(mut self, other: Counts) -> Counts {
        self.words += other.words;
        self.runs += other.runs;
        self.with_copies += other.with_copies;
        self.with_plain += other.with_plain;
        self.with_both += other.with_both;
        self.most_entries = self.most_entries.max(other.most_entries);
        self.most_letters = self.most_letters.max(other.most_letters);
        self.most_states = self.most_states.max(other.most_states);
        for (count, more) in self.refusals.iter_mut().zip(other.refusals) {
            *count += more;
        }
        for (count, more) in self.damaged.iter_mut().zip(other.damaged) {
            *count = (count.0 + more.0, count.1 + more.1);
        }
        self
    }

    /// Compares the page of a run that accepts.
    fn compare(
        &mut self,
        rng: &mut Rng,
        machine: &Machine,
        list: &[u16],
        word: &[u8],
        run: &[u16],
    ) {
        let (record, _) = machine.record();
        let case = Case::new(&record, list, word, run);
        let [plain, stored, _] = reads_back(machine, &case);
        self.runs += 1;
        self.with_copies += u64::from(stored > 0);
        self.with_plain += u64::from(plain > 0);
        self.with_both += u64::from(stored > 0 && plain > 0);
        self.most_entries = self.most_entries.max(run.len());
        self.most_letters = self.most_letters.max(word.len());
        self.most_states = self.most_states.max(machine.states());
        let needed = page_length(run.len());
        for length in [
            0,
            rng.below(needed),
            needed - 1,
            needed,
            needed + 1 + rng.below(50),
        ] {
            self.add(case.writes(length));
        }
    }

    /// Compares the page of the run after a damage.
    fn damaged(
        &mut self,
        rng: &mut Rng,
        machine: &Machine,
        list: &[u16],
        word: &[u8],
        run: &[u16],
    ) {
        let number = rng.below(DAMAGES.len());
        let (mut record, _) = machine.record();
        let (mut list, mut word, mut run) = (list.to_vec(), word.to_vec(), run.to_vec());
        let at = rng.below(run.len());
        match DAMAGES[number] {
            Damage::EntryChanged => run[at] = any_entry(rng, &run),
            Damage::EntryDropped => drop(run.remove(at)),
            Damage::EntryAdded => run.insert(at + rng.below(2), any_entry(rng, &run)),
            Damage::Letters => word = damaged_word(rng, machine.letters, &word),
            Damage::Table => (record, list) = break_a_rule(rng, machine),
        }
        let case = Case::new(&record, &list, &word, &run);
        let (count, accepting) = &mut self.damaged[number];
        *count += 1;
        *accepting += u64::from(case.judged.is_ok());
        let needed = page_length(run.len());
        for length in [needed, rng.pick(&[0, 19, needed - 1, needed + 5])] {
            self.add(case.writes(length));
        }
    }
}

/// Machines of copy zones, in a circle or one after another, to 64 states, and random ones of up to 5 states. A word and a
/// run of it are made by random moves; of each word there are up to four different runs: this one, and this one with moves
/// put in that read nothing and lead back. Each run is compared as it is and damaged.
fn random_part(seed: u64) -> Counts {
    let mut rng = Rng::new(seed);
    let mut counts = Counts::default();
    while counts.runs < RUNS / PARTS {
        let machine = zones_or_random(&mut rng);
        let Some((word, first)) = walk(&mut rng, &machine) else {
            continue;
        };
        counts.words += 1;
        let mut list = machine.list();
        if rng.once_in(2) {
            list.push(65_535);
        }
        let mut different = vec![first.clone()];
        for _ in 1..OF_ONE_WORD {
            let run = longer(&mut rng, &machine, &word, &first);
            if !different.contains(&run) {
                different.push(run);
            }
        }
        for run in &different {
            if counts.runs == RUNS / PARTS {
                break;
            }
            counts.compare(&mut rng, &machine, &list, &word, run);
            counts.damaged(&mut rng, &machine, &list, &word, run);
        }
    }
    counts
}

#[test]
fn random_runs() {
    let seeds: Vec<u64> = (0..PARTS).map(|part| 20_240_110 + part).collect();
    let counts = in_threads(&seeds, |&seed| random_part(seed));
    let counts = counts.into_iter().fold(Counts::default(), Counts::and);
    let cases: u64 = counts.refusals.iter().sum();
    println!(
        "page, random: {} accepting runs of {} words ({} with letters copied, {} with plain letters, {} with both; \
         up to {} entries, {} letters, {} states), {cases} cases (refusal: cases; {})",
        counts.runs,
        counts.words,
        counts.with_copies,
        counts.with_plain,
        counts.with_both,
        counts.most_entries,
        counts.most_letters,
        counts.most_states,
        tally(&counts.refusals)
    );
    for (damage, (count, accepting)) in DAMAGES.iter().zip(counts.damaged) {
        println!("page, random: {count} damaged by {damage:?}, {accepting} of them still accept");
        assert!(count >= 15_000 && accepting > 0 && accepting < count);
    }
    assert!(counts.with_both >= 5_000 && counts.most_letters > 40 && counts.most_states == 64);
}

/// The page of the lines.
fn page_of(lines: &[[usize; 5]], last: [usize; 3]) -> Vec<u8> {
    let mut text = String::new();
    for [number, state, mode, read, buffered] in lines {
        text += &format!("{number:6}{state:6}{mode:6}{read:6}{buffered:6}\n");
    }
    let [plain, stored, length] = last;
    text += &format!("{plain:6}{stored:6}{length:6}\n");
    text.into_bytes()
}

/// Every state's number, and the start alone: what is written stands here as numbers.
#[test]
fn pages_as_numbers() {
    let mut cases = 0;
    let chain: Vec<(usize, usize, usize)> = (0..63).map(|state| (state, 1, state + 1)).collect();
    let mut ends = [0; 64];
    (ends[0], ends[63]) = (1, 2);
    let mut last = [0; 64];
    last[63] = 3;
    let lines: Vec<[usize; 5]> = (0..64)
        .map(|number| [number, number, 0, number, 0])
        .collect();
    let mut run = vec![0];
    run.extend(0..63);
    for (machine, word, run, page) in [
        (
            Machine::new(1, &ends, &chain),
            vec![1; 63],
            run,
            page_of(&lines, [63, 0, 63]),
        ),
        (
            Machine::new(0, &[3], &[]),
            vec![],
            vec![0],
            page_of(&[[0; 5]], [0; 3]),
        ),
        (
            Machine::new(0, &last, &[]),
            vec![],
            vec![63],
            page_of(&[[0, 63, 0, 0, 0]], [0; 3]),
        ),
        (
            repeated(),
            vec![1, 1, 1, 1],
            vec![0, 65_533, 0, 2, 2, 1, 65_534, 5, 5, 65_535],
            page_of(
                &[
                    [0, 0, 0, 0, 0],
                    [1, 0, 1, 0, 0],
                    [2, 1, 1, 0, 0],
                    [3, 1, 1, 1, 1],
                    [4, 1, 1, 2, 2],
                    [5, 2, 1, 2, 2],
                    [6, 2, 2, 2, 2],
                    [7, 2, 2, 3, 1],
                    [8, 2, 2, 4, 0],
                    [9, 2, 0, 4, 0],
                ],
                [0, 2, 4],
            ),
        ),
    ] {
        let (record, list) = machine.record();
        let case = Case::new(&record, &list, &word, &run);
        assert_eq!(case.judged.as_ref(), Ok(&page));
        cases += case.writes_in_all();
        reads_back(&machine, &case);
    }
    println!("page, written as numbers in the test: {cases} cases");
}

/// Doubled words one after another, in slices of every length around the need, and each run cut at every entry.
#[test]
fn several_copies() {
    let machine = repeated();
    let (record, list) = machine.record();
    let mut cases = 0;
    for halves in SEVERAL {
        let (word, run) = repeated_run(halves);
        let case = Case::new(&record, &list, &word, &run);
        let stored = halves.iter().sum();
        assert_eq!(reads_back(&machine, &case), [0, stored, word.len()]);
        let needed = page_length(run.len());
        for length in needed - 40..needed + 40 {
            let expected = if length < needed {
                (19, needed)
            } else {
                (0, 0)
            };
            assert_eq!(case.writes(length), expected);
            cases += 1;
        }
        for entries in 0..run.len() {
            let cut = Case::new(&record, &list, &word, &run[..entries]);
            let accepts = moves::accepting(&machine, &word, &run[..entries]);
            let expected = if accepts { (0, 0) } else { (14, 0) };
            assert_eq!(cut.writes(page_length(entries)), expected);
            cases += 1;
        }
    }
    println!("page, doubled words one after another: {cases} cases");
}

/// Words of 255 letters, one of them plain and the others copied, or all plain; with one letter more they are refused.
#[test]
fn longest_words() {
    let machine = plain_and_doubled();
    let (record, list) = machine.record();
    let mut words = vec![
        vec![Part::Plain, Part::Doubled(127)],
        vec![Part::Doubled(127), Part::Plain],
        vec![Part::Doubled(63), Part::Plain, Part::Doubled(64)],
        vec![Part::Plain; 255],
        vec![
            Part::Doubled(0),
            Part::Plain,
            Part::Doubled(127),
            Part::Doubled(0),
        ],
    ];
    for place in [0, 1, 64, 126, 127] {
        let mut parts = vec![Part::Doubled(1); 127];
        parts.insert(place, Part::Plain);
        words.push(parts);
    }
    let mut cases = 0;
    for mut parts in words {
        let (letters, run, listed) = run_of_parts(&parts);
        let stored: usize = listed
            .iter()
            .skip(1)
            .step_by(2)
            .map(|&n| usize::from(n))
            .sum();
        let word = vec![1; letters];
        assert_eq!(letters, MOST_LETTERS);
        let case = Case::new(&record, &list, &word, &run);
        cases += case.writes_in_all();
        assert_eq!(reads_back(&machine, &case), [255 - 2 * stored, stored, 255]);
        parts.push(Part::Plain);
        let (letters, run, _) = run_of_parts(&parts);
        let word = vec![1; letters];
        assert!(letters == 256 && moves::accepting(&machine, &word, &run));
        let needed = page_length(run.len());
        for length in [0, needed - 1, needed, needed + 40] {
            assert_eq!(
                Case::new(&record, &list, &word, &run).writes(length),
                (9, 0)
            );
            cases += 1;
        }
    }
    println!("page, words of 255 and of 256 letters: {cases} cases");
}

/// The page of a run around the epsilon circle on so many letters.
fn circle_page(letters: usize, entries: usize) -> Vec<u8> {
    let line = |number: usize| {
        let read = number.min(letters);
        [number, (number - read) % 2, 0, read, 0]
    };
    let lines: Vec<[usize; 5]> = (0..entries).map(line).collect();
    page_of(&lines, [letters, 0, letters])
}

/// The page of a run of empty copies alone, which has as many entries as fill its copies.
fn empty_copies_page(entries: usize) -> Vec<u8> {
    // State and mode after the entry that begins a copy and those behind it.
    let copy = [[0, 1], [1, 1], [1, 2], [1, 0], [0, 0]];
    let line = |number: usize| match number {
        0 => [0; 5],
        _ => {
            let [state, mode] = copy[(number - 1) % 5];
            [number, state, mode, 0, 0]
        }
    };
    let lines: Vec<[usize; 5]> = (0..entries).map(line).collect();
    page_of(&lines, [0; 3])
}

/// Runs of 99,999 entries have their pages, runs of 100,000 are refused, though they accept.
#[test]
fn longest_runs() {
    let circle = epsilon_circle();
    let copies = empty_copies();
    let mut cases = 0;
    let mut compares = |machine: &Machine, word: &[u8], run: &[u16], page: Option<Vec<u8>>| {
        let (record, list) = machine.record();
        assert!(moves::accepting(machine, word, run));
        let case = Case::new(&record, &list, word, run);
        if run.len() > MOST_ENTRIES {
            assert_eq!(case.judged, Err(9));
            let needed = page_length(run.len());
            for length in [0, 50, needed - 31, needed] {
                assert_eq!(case.writes(length), (9, 0));
                cases += 1;
            }
            return;
        }
        cases += case.writes_in_all();
        if let Some(page) = page {
            assert!(case.judged.as_ref() == Ok(&page));
        }
    };
    for letters in [0, 1, 255] {
        for entries in [99_998, 99_999, 100_000, 100_001] {
            let (word, run) = (vec![1; letters], circle_run(letters, entries));
            assert_eq!(run.len(), entries);
            let page = circle_page(letters, entries);
            compares(&circle, &word, &run, Some(page));
        }
    }
    for entries in [99_996, 99_998, 99_999, 100_000, 100_001] {
        let run = empty_copies_run(entries);
        assert_eq!(run.len(), entries);
        let page = (entries % 5 == 1).then(|| empty_copies_page(entries));
        compares(&copies, &[], &run, page);
    }
    // 255 letters, 127 of them stored in one copy, and empty copies behind them: 263 and 7 x 14,248 entries.
    for empty in [14_248, 14_249] {
        let mut parts = vec![Part::Plain, Part::Doubled(127)];
        parts.extend(vec![Part::Doubled(0); empty]);
        let (letters, run, _) = run_of_parts(&parts);
        assert_eq!(run.len(), 99_999 + 7 * (empty - 14_248));
        compares(&plain_and_doubled(), &vec![1; letters], &run, None);
    }
    // With a letter that is not there, or a word that is too long: 9 of the run comes before 8.
    for (machine, entries) in [
        (&circle, 99_999),
        (&circle, 100_000),
        (&copies, 99_999),
        (&copies, 100_000),
    ] {
        let (record, list) = machine.record();
        let run = match machine.letters {
            0 => empty_copies_run(entries),
            _ => circle_run(0, entries),
        };
        for (word, of_word) in [
            (vec![0], 8),
            (vec![2], 8),
            (vec![1; 256], 9),
            (vec![0; 256], 9),
        ] {
            let refusal = if entries > MOST_ENTRIES { 9 } else { of_word };
            let case = Case::new(&record, &list, &word, &run);
            for length in [0, page_length(entries)] {
                assert_eq!(case.writes(length), (refusal, 0));
                cases += 1;
            }
        }
    }
    println!("page, runs of 99,996 to 100,006 entries: {cases} cases");
}

/// The columns of the longest pages are read back too.
#[test]
fn longest_runs_read_back() {
    for (machine, word, run) in [
        (
            epsilon_circle(),
            vec![1; 255],
            circle_run(255, MOST_ENTRIES),
        ),
        (empty_copies(), vec![], empty_copies_run(MOST_ENTRIES)),
    ] {
        let (record, list) = machine.record();
        let case = Case::new(&record, &list, &word, &run);
        assert_eq!(reads_back(&machine, &case), [word.len(), 0, word.len()]);
    }
    println!("page, the columns of two runs of 99,999 entries are read back");
}

/// The faults that a call is refused for, in the order of their refusals.
const FAULTS: [u8; 5] = [16, 9, 8, 14, 19];

/// What is wrong with a run on the epsilon circle, which then does not accept.
#[derive(Clone, Copy, PartialEq)]
enum RunFault {
    None,
    Empty,
    StartAbsent,
    StartNotInitial,
    NamesNothing,
    LetterLeft,
}

/// A run of at least so many entries on the epsilon circle for a word of so many letters, with the fault.
fn faulty_run(fault: RunFault, letters: usize, entries: usize) -> Vec<u16> {
    let read = match fault {
        RunFault::LetterLeft => letters - 1,
        _ => letters,
    };
    let mut run = circle_run(read, entries.max(read + 3));
    let last = run.len() - 1;
    match fault {
        RunFault::None | RunFault::LetterLeft => {}
        RunFault::Empty => run.clear(),
        RunFault::StartAbsent => run[0] = 65_534,
        // State 1, and from there to state 0.
        RunFault::StartNotInitial => drop(run.splice(..1, [1, 2])),
        RunFault::NamesNothing => run[last] = 3,
    }
    run
}

/// The refusals in their order, 16, 9 (word, run or both), 8, 14, 19: every combination of faults gives the first of them,
/// so every two at once do.
#[test]
fn order_of_refusals() {
    let (record, list) = epsilon_circle().record();
    let mut broken = record.clone();
    broken.marks[1] = 12;
    let mut empty = record.clone();
    empty.states = 0;
    let tables = [
        (&record, &list[..], false),
        (&broken, &list[..], true),
        (&empty, &list[..], true),
        (&record, &list[..8], true),
    ];
    let run_faults = [
        RunFault::None,
        RunFault::Empty,
        RunFault::StartAbsent,
        RunFault::StartNotInitial,
        RunFault::NamesNothing,
        RunFault::LetterLeft,
    ];
    let mut cases = 0;
    let mut pairs = BTreeSet::new();
    let sizes = [(3, 9), (255, 300), (256, 300), (3, 100_000), (256, 100_000)];
    for (letters, entries) in sizes {
        for bad in [None, Some(0), Some(2), Some(255)] {
            let mut word = vec![1; letters];
            word[letters / 2] = bad.unwrap_or(1);
            for fault in run_faults {
                if fault == RunFault::Empty && entries > MOST_ENTRIES {
                    continue;
                }
                let run = faulty_run(fault, letters, entries);
                let needed = page_length(run.len());
                for (record, list, is_broken) in tables {
                    let case = Case::new(record, list, &word, &run);
                    for (length, short) in [(0, true), (needed - 1, true), (needed, false)] {
                        // A slice for 100,000 entries is made for a few of the cases.
                        if entries > MOST_ENTRIES && length > 0 && (bad.is_some() || is_broken) {
                            continue;
                        }
                        let found = [
                            is_broken,
                            letters > MOST_LETTERS || entries > MOST_ENTRIES,
                            bad.is_some(),
                            fault != RunFault::None,
                            short,
                        ];
                        let there = FAULTS.iter().zip(found).filter(|&(_, found)| found);
                        let there: Vec<u8> = there.map(|(&fault, _)| fault).collect();
                        let first = there.first().copied().unwrap_or(0);
                        let expected = if first == 19 {
                            (19, needed)
                        } else {
                            (first, 0)
                        };
                        assert_eq!(case.writes(length), expected, "{there:?}");
                        if let [first, second] = there[..] {
                            pairs.insert((first, second));
                        }
                        cases += 1;
                    }
                }
            }
        }
    }
    println!(
        "page, order of refusals: {cases} cases, {} pairs of faults at once without a third",
        pairs.len()
    );
    assert_eq!(pairs.len(), 10);
}

#[test]
fn folders() {
    let (mut runs, mut cases) = (0, 0);
    for folder in folder::all() {
        let (record, list) = folder.machine.record();
        for (word, _) in &folder.words {
            if let Some(run) = published::find_run(&folder.machine, word) {
                let case = Case::new(&record, &list, word, &run);
                reads_back(&folder.machine, &case);
                cases += case.writes_in_all();
                runs += 1;
            }
        }
    }
    println!("page, machines of data/machines: {runs} runs, {cases} cases");
    assert!(runs > 100);
}

#[test]
fn c_program() {
    let printed = compare::c::program("page", env!("CARGO_TARGET_TMPDIR"));
    assert_eq!(printed, "pages are written right from C\n");
    print!("{printed}");
}
