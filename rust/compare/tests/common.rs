//! The common-word search: the record and the whole of the three slices of each call are compared with the reference.
//! Both runs go through the proved checker and through the reference's own.

use compare::calls::{check_run, common_word, common_word_record, find, Slices};
use compare::copy_chains::{begins_with, chain, cycles, every_word, short_copies};
use compare::dense::{dense, dense_plain, doubled, Kind};
use compare::many_copies::zones;
use compare::pairs::{random_chain, random_copying, random_plain, random_second};
use compare::{
    break_a_rule, filled, filled_bytes, in_threads, random_machine, record_of, tally, Rng,
};
use reference::common::{least_letters, shortest, shortest_by, Room};
use reference::families::{length_modulo, small_machines};
use reference::{folder, moves, product, Machine, Record, Refusal};
use reference::{BEGIN_BUFFERING, BEGIN_EMPTYING};
use zagvirk::common::{needed, CommonRecord, MOST_LETTERS};
use zagvirk::Table;

/// The stack of a thread in which the search is made.
const STACK: usize = 512 * 1024;

/// A record and its list.
type Input = (Record, Vec<u16>);

/// What was compared.
#[derive(Default)]
struct Counts {
    pairs: u64,
    calls: u64,
    none: u64,
    found: u64,
    /// Pairs whose first machine has a way from a state to itself by epsilon.
    epsilon_cycles: u64,
    /// Pairs whose run has a copy, a copy of no letters, and two such copies at one position.
    with_copies: u64,
    empty_copies: u64,
    empty_in_a_row: u64,
    most_letters: usize,
    most_entries: usize,
    /// The greatest part of its slice that the first run takes, in percent of what is needed.
    fullest: usize,
}

impl Counts {
    /// Adds what was compared elsewhere.
    fn add(&mut self, other: Counts) {
        self.pairs += other.pairs;
        self.calls += other.calls;
        self.none += other.none;
        self.found += other.found;
        self.epsilon_cycles += other.epsilon_cycles;
        self.with_copies += other.with_copies;
        self.empty_copies += other.empty_copies;
        self.empty_in_a_row += other.empty_in_a_row;
        self.most_letters = self.most_letters.max(other.most_letters);
        self.most_entries = self.most_entries.max(other.most_entries);
        self.fullest = self.fullest.max(other.fullest);
    }

    fn report(&self, name: &str) {
        println!(
            "common word, {name}: {} pairs, {} calls; {} without a common word, {} with one, {} of them with copies, \
             {} with empty copies, {} with two of these at one position; epsilon cycles in {}; most letters {}, \
             longest first run {} entries, fullest {} % of what is needed",
            self.pairs,
            self.calls,
            self.none,
            self.found,
            self.with_copies,
            self.empty_copies,
            self.empty_in_a_row,
            self.epsilon_cycles,
            self.most_letters,
            self.most_entries,
            self.fullest
        );
    }
}

/// Whether epsilon leads from some state back to it.
fn has_epsilon_cycle(machine: &Machine) -> bool {
    let mut leads = vec![0u64; machine.states()];
    for t in machine.transitions.iter().filter(|t| t.letter == 0) {
        leads[t.from] |= 1 << t.to;
    }
    // A state is done once epsilon leads from it to done states only.
    let mut done = 0u64;
    loop {
        let more = (0..leads.len()).filter(|&state| leads[state] & !done == 0);
        let more = more.fold(0, |set, state| set | 1 << state);
        if more == done {
            return done.count_ones() as usize != leads.len();
        }
        done = more;
    }
}

/// For each copy of an accepting run the position where it begins and the number of letters that it stores.
fn copies_of(machine: &Machine, run: &[u16]) -> Vec<(usize, usize)> {
    let (mut position, mut begin) = (0, 0);
    let mut copies = Vec::new();
    for &entry in &run[1..] {
        match entry {
            BEGIN_BUFFERING => begin = position,
            BEGIN_EMPTYING => copies.push((begin, position - begin)),
            _ => {
                let transition = machine.transitions.get(usize::from(entry));
                position += usize::from(transition.is_some_and(|t| t.letter != 0));
            }
        }
    }
    copies
}

/// The record of a refusal, or that there is no common word.
fn without_word(refusal: Option<Refusal>) -> CommonRecord {
    CommonRecord {
        refusal: refusal.map_or(0, |refusal| refusal.number),
        needed: refusal.map_or(0, |refusal| refusal.needed),
        found: 0,
        letters: 0,
        first_entries: 0,
        second_entries: 0,
    }
}

/// The three slices as they are lent.
struct Lending {
    word: Vec<u8>,
    first_run: Vec<u16>,
    second_run: Vec<u16>,
}

impl Lending {
    fn new(room: Room) -> Lending {
        Lending {
            word: filled_bytes(room.word),
            first_run: filled(room.first_run),
            second_run: filled(room.second_run),
        }
    }

    fn slices(&mut self) -> Slices<'_> {
        Slices {
            word: &mut self.word,
            first_run: &mut self.first_run,
            second_run: &mut self.second_run,
        }
    }
}

/// Two machines that meet no refusal, ready for many calls.
struct Ready<'a> {
    first: &'a Machine,
    second: &'a Machine,
    one: (zagvirk::Machine, Vec<u16>),
    two: (zagvirk::Machine, Vec<u16>),
    /// The number of letters of a shortest common word, if there is one.
    least: Option<usize>,
}

impl<'a> Ready<'a> {
    fn new(first: &'a Machine, second: &'a Machine, least: Option<usize>) -> Ready<'a> {
        let ((one, one_list), (two, two_list)) = (first.record(), second.record());
        let judged = product::operands(&one, &one_list, &two, &two_list);
        assert!(judged.is_ok(), "{judged:?}");
        Ready {
            first,
            second,
            one: (record_of(&one), one_list),
            two: (record_of(&two), two_list),
            least,
        }
    }

    fn lent(&self) -> (Table<'_>, Table<'_>) {
        (
            Table::new(&self.one.0, &self.one.1),
            Table::new(&self.two.0, &self.two.1),
        )
    }

    fn input(&self) -> String {
        format!("first {:?}\nsecond {:?}", self.first, self.second)
    }

    /// The lengths that the slices need, 0 if there is no common word.
    fn needed(&self) -> Room {
        match self.least {
            Some(letters) => Room::needed(self.first, letters),
            None => Room {
                word: 0,
                first_run: 0,
                second_run: 0,
            },
        }
    }

    /// Compares one call with slices of these lengths. Returns whether a word was written.
    fn call(&self, room: Room, counts: &mut Counts) -> bool {
        let mut lending = Lending::new(room);
        let (one, two) = self.lent();
        let found = common_word_record(one, two, lending.slices());
        counts.calls += 1;
        let refusal = self.least.and_then(|_| room.holds(self.needed()).err());
        let differs = |expected: &CommonRecord| {
            format!(
                "common_word differs\n{}\n{room:?}\nreference {expected:?}\nproved {found:?}",
                self.input()
            )
        };
        let Some(letters) = self.least.filter(|_| refusal.is_none()) else {
            // That the slices are as they were is compared at the call.
            let expected = without_word(refusal);
            assert!(found == expected, "{}", differs(&expected));
            return false;
        };
        let expected = CommonRecord {
            refusal: 0,
            needed: 0,
            found: 1,
            letters,
            first_entries: found.first_entries,
            second_entries: letters + 1,
        };
        assert!(found == expected, "{}", differs(&expected));
        assert!(
            (1..=self.needed().first_run).contains(&found.first_entries),
            "{}",
            differs(&expected)
        );
        let word = &lending.word[..letters];
        let first_run = &lending.first_run[..found.first_entries];
        let second_run = &lending.second_run[..found.second_entries];
        for (machine, (record, list), run) in [
            (self.first, &self.one, first_run),
            (self.second, &self.two, second_run),
        ] {
            let accepts = moves::accepting(machine, word, run)
                && check_run(record, list, word, run) == Ok(true);
            assert!(
                accepts,
                "a run does not accept\n{}\nword {word:?}\nrun {run:?}",
                self.input()
            );
        }
        let copies = copies_of(self.first, first_run);
        let empty = |copy: &&(usize, usize)| copy.1 == 0;
        let in_a_row = copies
            .windows(2)
            .any(|two| two[0] == two[1] && two[0].1 == 0);
        counts.with_copies += u64::from(!copies.is_empty());
        counts.empty_copies += u64::from(copies.iter().any(|copy| empty(&copy)));
        counts.empty_in_a_row += u64::from(in_a_row);
        counts.most_letters = counts.most_letters.max(letters);
        counts.most_entries = counts.most_entries.max(found.first_entries);
        let part = 100 * found.first_entries / self.needed().first_run;
        counts.fullest = counts.fullest.max(part);
        true
    }

    /// Compares calls with slices that are empty, that have what they need or a little more, and that have too little:
    /// each of them, and some of them.
    fn pair(&self, rng: &mut Rng, counts: &mut Counts) {
        counts.pairs += 1;
        counts.epsilon_cycles += u64::from(has_epsilon_cycle(self.first));
        match self.least {
            Some(_) => counts.found += 1,
            None => counts.none += 1,
        }
        let needed = self.needed();
        // What a call with enough room writes is counted once.
        self.call(needed, counts);
        let mut others = Counts::default();
        let more = Room {
            word: needed.word + rng.below(4),
            first_run: needed.first_run + rng.below(4),
            second_run: needed.second_run + rng.below(4),
        };
        self.call(more, &mut others);
        // Without a common word no slice is too short.
        let shortages = if self.least.is_some() { 1..8 } else { 0..0 };
        for short in shortages {
            // The slices that are too short, if they can be.
            let length = |needed: usize, slice: usize, rng: &mut Rng| match short >> slice & 1 {
                1 => rng.below(needed.max(1)),
                _ => needed + rng.below(2),
            };
            let room = Room {
                word: length(needed.word, 0, rng),
                first_run: length(needed.first_run, 1, rng),
                second_run: length(needed.second_run, 2, rng),
            };
            if short == 7 || rng.once_in(4) {
                self.call(room, &mut others);
            }
        }
        counts.calls += others.calls;
    }

    /// Compares calls with slices of every length up to `past` more than needed.
    fn every_length(&self, past: usize, counts: &mut Counts) {
        let needed = self.needed();
        for word in 0..=needed.word + past {
            for first_run in 0..=needed.first_run + past {
                for second_run in 0..=needed.second_run + past {
                    let room = Room {
                        word,
                        first_run,
                        second_run,
                    };
                    let enough = self.least.is_some() && room.holds(needed).is_ok();
                    assert_eq!(self.call(room, counts), enough);
                }
            }
        }
    }

    /// Compares the call with refusals as an enum, and the one with vectors of its own.
    fn wrappers(&self) {
        let (one, two) = self.lent();
        let least = zagvirk::common::letters(one, two);
        assert_eq!(least, Ok(self.least), "{}", self.input());
        let found = find(one, two).expect("no refusal");
        assert_eq!(found.is_some(), self.least.is_some(), "{}", self.input());
        let room = self.needed();
        let mut lending = Lending::new(room);
        let lengths = common_word(one, two, lending.slices()).expect("enough room");
        let Some(found) = found else {
            return assert_eq!(lengths, None);
        };
        let needed = needed(one.machine, found.word.len());
        let lent = Room {
            word: needed.word,
            first_run: needed.first_run,
            second_run: needed.second_run,
        };
        assert_eq!(room, lent);
        let written = lengths.expect("a common word");
        assert!(found.word == lending.word[..written.letters]);
        assert!(found.first_run == lending.first_run[..written.first_entries]);
        assert!(found.second_run == lending.second_run[..written.second_entries]);
        lending.first_run.pop();
        let refused = common_word(one, two, lending.slices()).unwrap_err();
        assert_eq!((refused.number(), refused.needed()), (17, room.first_run));
    }
}

/// The number of letters by trying every word of at most `longest` letters, with the quicker recognizer.
fn tried(first: &Machine, second: &Machine, longest: usize) -> Option<usize> {
    let accepts =
        |machine: &Machine, word: &[u8]| reference::shortest::find_run(machine, word).is_some();
    shortest_by(first, second, longest, accepts).map(|word| word.len())
}

/// The number of letters by the relations of strings. Every word of at most `longest` letters is tried too.
fn decided(first: &Machine, second: &Machine, longest: usize) -> Option<usize> {
    let least = least_letters(first, second);
    let shorter = least.filter(|&letters| letters <= longest);
    assert_eq!(
        tried(first, second, longest),
        shorter,
        "{first:?}\n{second:?}\n{least:?}"
    );
    least
}

/// The most letters of the words that are tried, by the number of letters of the machines.
const TRIED: [usize; 4] = [0, 10, 5, 3];

#[test]
fn random_pairs() {
    let parts: Vec<u64> = (0..64).collect();
    let each = in_threads(&parts, |part| {
        let mut rng = Rng::new(20_240_020 + part);
        let mut counts = Counts::default();
        let mut by_definition = 0;
        for number in 0..3_200 {
            let letters = rng.pick(&[0, 1, 1, 1, 2, 2, 2, 2, 2, 3]);
            let first = match number % 4 {
                0 => random_machine(&mut rng, 4, letters),
                1 => random_copying(&mut rng, 5, letters),
                _ => random_chain(&mut rng, letters),
            };
            let second = random_plain(&mut rng, 3, first.letters);
            let longest = TRIED[first.letters];
            let least = decided(&first, &second, longest);
            if number % 64 == 0 {
                // The definition itself.
                let word = shortest(&first, &second, longest);
                assert_eq!(word.map(|word| word.len()), least.filter(|&n| n <= longest));
                by_definition += 1;
            }
            let ready = Ready::new(&first, &second, least);
            ready.pair(&mut rng, &mut counts);
            if number % 16 == 0 {
                ready.wrappers();
            }
        }
        (counts, by_definition)
    });
    let (mut counts, mut by_definition) = (Counts::default(), 0);
    for (other, others) in each {
        counts.add(other);
        by_definition += others;
    }
    counts.report(&format!(
        "random, decided by the relations of strings and all words to {}, {} and {} letters of 1, 2 and 3 \
         ({by_definition} by the definition)",
        TRIED[1], TRIED[2], TRIED[3]
    ));
    assert!(counts.pairs >= 200_000 && counts.none > 20_000);
    assert!(counts.with_copies > 20_000 && counts.empty_copies > 5_000);
    assert!(counts.empty_in_a_row > 500 && counts.epsilon_cycles > 20_000);
    assert!(counts.most_letters > 12);
}

/// Every machine of two states over one letter, with two of four plain machines.
#[test]
fn two_states() {
    let machines = small_machines(2, 0..256);
    let seconds = [
        every_word(1),
        begins_with(1, &[1]),
        length_modulo(1, 2, 0),
        length_modulo(1, 3, 2),
    ];
    let parts: Vec<usize> = (0..64).collect();
    let each = in_threads(&parts, |part| {
        let mut rng = Rng::new(20_240_090 + *part as u64);
        let mut counts = Counts::default();
        let some = machines.iter().skip(*part).step_by(parts.len());
        for (number, machine) in some.enumerate() {
            for second in &seconds[number % 2 * 2..][..2] {
                let least = decided(machine, second, 4);
                Ready::new(machine, second, least).pair(&mut rng, &mut counts);
            }
        }
        counts
    });
    let mut counts = Counts::default();
    each.into_iter().for_each(|other| counts.add(other));
    counts.report("all machines of 2 states over 1 letter, all words to 4 letters");
    assert_eq!(counts.pairs, 2 * 36_864);
}

/// Machines with letters from all of 0 to 250. Most transitions have one of few letters, so that there are common words.
#[test]
fn many_letters() {
    let parts: Vec<u64> = (0..32).collect();
    let each = in_threads(&parts, |part| {
        let mut rng = Rng::new(20_240_036 + part);
        let mut counts = Counts::default();
        for number in 0..150 {
            let letters = rng.pick(&[65, 129, 193, 250]);
            let some = [63, 64, 65, 128, 192, 249].map(|letter| letter.min(letters));
            let (few, any) = (rng.pick(&[1, 2, 4]), rng.pick(&[0, 4, 40]));
            let place = |rng: &mut Rng, letter: usize| match letter {
                0 => 0,
                _ => some[rng.below(few)],
            };
            let small = match number % 3 {
                0 => random_copying(&mut rng, 5, 2),
                _ => random_chain(&mut rng, 2),
            };
            let mut one: Vec<_> = (small.transitions.iter())
                .map(|t| (t.from, place(&mut rng, t.letter), t.to))
                .collect();
            let plain = random_plain(&mut rng, 3, 2);
            let mut two: Vec<_> = (plain.transitions.iter())
                .map(|t| (t.from, place(&mut rng, t.letter), t.to))
                .collect();
            for _ in 0..any {
                let mut random = |states| {
                    let letter = 1 + rng.below(letters);
                    (rng.below(states), letter, rng.below(states))
                };
                one.push(random(small.states()));
                two.push(random(plain.states()));
            }
            let first = Machine::new(letters, &small.marks, &one);
            let second = Machine::new(letters, &plain.marks, &two);
            let least = decided(&first, &second, 1);
            Ready::new(&first, &second, least).pair(&mut rng, &mut counts);
        }
        counts
    });
    let mut counts = Counts::default();
    each.into_iter().for_each(|other| counts.add(other));
    counts.report("65 to 250 letters, all words to 1 letter");
    assert!(counts.with_copies > 500 && counts.most_letters > 4);
}

/// Machines with more states and copies, with plain machines that want a length or a front.
#[test]
fn larger_pairs() {
    let parts: Vec<u64> = (0..16).collect();
    let each = in_threads(&parts, |part| {
        let mut rng = Rng::new(20_240_021 + part);
        let mut counts = Counts::default();
        for _ in 0..60 {
            let letters = rng.pick(&[1, 1, 2]);
            let states = 6 + rng.below(7);
            let first = zones(&mut rng, states, letters);
            let second = match rng.below(3) {
                0 => length_modulo(letters, 2 + rng.below(3), 1),
                1 => {
                    let front: Vec<u8> = (0..1 + rng.below(4))
                        .map(|_| 1 + rng.below(letters) as u8)
                        .collect();
                    begins_with(letters, &front)
                }
                _ => random_plain(&mut rng, 4, letters),
            };
            let least = decided(&first, &second, if letters == 1 { 10 } else { 4 });
            let ready = Ready::new(&first, &second, least);
            ready.pair(&mut rng, &mut counts);
        }
        counts
    });
    let mut counts = Counts::default();
    each.into_iter().for_each(|other| counts.add(other));
    counts.report(
        "machines of zones, to 12 states and 5 plain ones, all words to 10 letters of 1 and 4 of 2",
    );
    assert!(counts.with_copies > 200);
}

#[test]
fn every_slice_length() {
    let mut counts = Counts::default();
    let table_t = folder::load("table-t").machine;
    let some_two = folder::load("some-two").machine;
    let odd = folder::load("odd-ones").machine;
    let mut pairs = vec![
        (table_t.clone(), some_two),
        (table_t.clone(), odd),
        (table_t.clone(), every_word(2)),
        (table_t.clone(), begins_with(2, &[1, 2, 1])),
        (cycles(1, 2).0, every_word(1)),
        (Machine::new(1, &[7], &[]), every_word(1)),
        (Machine::new(1, &[1, 2], &[(0, 1, 1)]), every_word(1)),
        (Machine::new(0, &[3], &[]), every_word(0)),
    ];
    let mut rng = Rng::new(20_240_022);
    while pairs.len() < 200 {
        let letters = 1 + rng.below(2);
        let first = random_chain(&mut rng, letters);
        let second = random_plain(&mut rng, 3, letters);
        let small = match least_letters(&first, &second) {
            Some(letters) => {
                let needed = Room::needed(&first, letters);
                (needed.word + 3) * (needed.first_run + 3) * (needed.second_run + 3) < 3_000
            }
            None => rng.once_in(10),
        };
        if small {
            pairs.push((first, second));
        }
    }
    for (first, second) in &pairs {
        let ready = Ready::new(first, second, decided(first, second, 4));
        counts.pairs += 1;
        match ready.least {
            Some(_) => counts.found += 1,
            None => counts.none += 1,
        }
        ready.every_length(2, &mut counts);
        ready.wrappers();
    }
    println!(
        "common word, slices of every length to 2 past the need, all three together: {} pairs, {} without a common \
         word, {} calls",
        counts.pairs, counts.none, counts.calls
    );
    assert!(counts.calls > 50_000);
}

#[test]
fn examples_of_document_01() {
    let table_t = folder::load("table-t").machine;
    let some_two = folder::load("some-two").machine;
    let odd = folder::load("odd-ones").machine;
    let ready = Ready::new(&table_t, &odd, None);
    let mut counts = Counts::default();
    for length in [0, 1, 2, 100] {
        let room = Room {
            word: length,
            first_run: length,
            second_run: length,
        };
        assert!(!ready.call(room, &mut counts));
    }
    let ready = Ready::new(&table_t, &some_two, Some(2));
    let mut lending = Lending::new(ready.needed());
    let (one, two) = ready.lent();
    let found = common_word(one, two, lending.slices()).expect("no refusal");
    let found = found.expect("a common word");
    assert_eq!(
        (found.letters, found.first_entries, found.second_entries),
        (2, 8, 3)
    );
    assert_eq!(lending.word, [2, 2]);
    let run = [0, 65_533, 0, 3, 1, 65_534, 5, 65_535];
    assert_eq!(lending.first_run[..8], run);
    assert_eq!(lending.second_run, [0, 1, 3]);
    let mut lending = Lending::new(Room {
        word: 1,
        first_run: 100,
        second_run: 100,
    });
    let refused = common_word(one, two, lending.slices());
    assert_eq!(refused, Err(zagvirk::Refusal::WordTooShort { needed: 2 }));
    // The word is the empty one: nothing is needed for it, and a run has an entry.
    let second = every_word(2);
    let ready = Ready::new(&table_t, &second, Some(0));
    let needed = ready.needed();
    assert_eq!(
        (needed.word, needed.first_run, needed.second_run),
        (0, 9, 1)
    );
    assert!(ready.call(needed, &mut counts));
    // Marks 1, 8, 0, 10 accept 1 2 2 with no copying; marks 1, 8, 10 no word.
    let first = folder::load("marks-1-8-0-10").machine;
    let second = every_word(first.letters);
    let ready = Ready::new(&first, &second, Some(3));
    assert!(ready.call(ready.needed(), &mut counts));
    assert_eq!(counts.with_copies, 1);
    let first = folder::load("marks-1-8-10").machine;
    let second = every_word(first.letters);
    let ready = Ready::new(&first, &second, None);
    assert!(!ready.call(ready.needed(), &mut counts));
}

/// Every machine of data/machines with plain ones.
#[test]
fn folders() {
    let mut rng = Rng::new(20_240_023);
    let mut counts = Counts::default();
    let all: Vec<Machine> = folder::all().into_iter().map(|f| f.machine).collect();
    for first in &all {
        let letters = first.letters;
        let mut seconds = vec![every_word(letters)];
        for (cycle, rest) in [(2, 0), (2, 1), (3, 1), (4, 3), (5, 4)] {
            seconds.push(length_modulo(letters, cycle, rest));
        }
        if letters > 1 {
            seconds.extend([
                begins_with(letters, &[1]),
                begins_with(letters, &[2, 2, 1]),
                begins_with(letters, &[1, 2, 1, 1]),
            ]);
        }
        seconds.extend(all.iter().filter(|second| second.is_plain()).cloned());
        for second in &seconds {
            if second.letters == letters && first.states() * second.states() <= 64 {
                let longest = if letters < 4 { 5 } else { 2 };
                let least = decided(first, second, longest);
                let ready = Ready::new(first, second, least);
                ready.pair(&mut rng, &mut counts);
                ready.wrappers();
            }
        }
    }
    counts.report("machines of data/machines, all words to 5 letters, with more than 3 to 2");
    assert!(counts.pairs > 200);
}

/// Doubled words with plain machines that want a length or a front.
#[test]
fn doubled_words() {
    let mut rng = Rng::new(20_240_024);
    let mut counts = Counts::default();
    let table_t = folder::load("table-t").machine;
    for cycle in 1..=21 {
        for rest in 0..cycle {
            // The least even number that is `rest` more than a multiple of the cycle.
            let numbers = (rest..2 * cycle).step_by(cycle);
            let least = numbers.into_iter().find(|number| number % 2 == 0);
            let second = length_modulo(2, cycle, rest);
            Ready::new(&table_t, &second, least).pair(&mut rng, &mut counts);
        }
    }
    for length in 0..=20 {
        for _ in 0..20 {
            let front: Vec<u8> = (0..length).map(|_| 1 + rng.below(2) as u8).collect();
            // The least half such that the letters of the front behind it are those of its beginning.
            let fits = |&half: &usize| (half..length).all(|i| front[i] == front[i - half]);
            let half = (length.div_ceil(2)..).find(fits);
            let second = begins_with(2, &front);
            Ready::new(&table_t, &second, half.map(|half| 2 * half)).pair(&mut rng, &mut counts);
        }
    }
    counts.report("table T with a length or a front");
}

#[test]
fn coprime_cycles() {
    let mut rng = Rng::new(20_240_025);
    let mut counts = Counts::default();
    for p in 1..=9 {
        for q in 1..=9 {
            let (first, letters) = cycles(p, q);
            let second = every_word(1);
            // The relations decide it too, and every word of a letter is tried.
            let least = decided(&first, &second, if p * q < 20 { letters } else { 20 });
            assert_eq!(least, Some(letters));
            Ready::new(&first, &second, least).pair(&mut rng, &mut counts);
            // A third cycle in the plain machine: the length is one more than a multiple of `cycle`, or a multiple.
            for cycle in 2..=3 {
                for rest in 0..2 {
                    let second = length_modulo(1, cycle, rest);
                    let least = decided(&first, &second, 8);
                    Ready::new(&first, &second, least).pair(&mut rng, &mut counts);
                }
            }
        }
    }
    counts.report("cycles to 9 and 9 states, decided by the relations");
    let mut counts = Counts::default();
    for (p, q) in [
        (31, 32),
        (32, 31),
        (30, 32),
        (1, 62),
        (62, 1),
        (21, 42),
        (13, 49),
    ] {
        let (first, letters) = cycles(p, q);
        Ready::new(&first, &every_word(1), Some(letters)).pair(&mut rng, &mut counts);
    }
    counts.report("cycles to 64 states");
    assert_eq!(counts.most_letters, 1_982);
}

#[test]
fn chains_of_copies() {
    let mut rng = Rng::new(20_240_026);
    let mut counts = Counts::default();
    for copies in 1..=3 {
        for (p, q) in [(1, 1), (1, 2), (2, 1), (2, 3), (4, 3), (3, 3), (4, 2)] {
            for through in [false, true] {
                if through && p % 2 == 1 {
                    continue;
                }
                let (first, letters) = chain(copies, p, q, through);
                let second = every_word(first.letters);
                let longest = if copies == 1 { 6 } else { 3 };
                assert_eq!(decided(&first, &second, longest), Some(letters));
                let ready = Ready::new(&first, &second, Some(letters));
                ready.pair(&mut rng, &mut counts);
                ready.wrappers();
                let second = length_modulo(first.letters, 2, 1);
                assert_eq!(decided(&first, &second, longest), None);
                Ready::new(&first, &second, None).pair(&mut rng, &mut counts);
            }
        }
    }
    for (copies, string) in [(1, 1), (2, 1), (2, 3), (3, 2), (4, 1)] {
        let (first, letters) = short_copies(copies, string);
        let second = every_word(3);
        assert_eq!(decided(&first, &second, 4), Some(letters));
        Ready::new(&first, &second, Some(letters)).pair(&mut rng, &mut counts);
    }
    counts.report("short chains of copies, decided by the relations");
    let mut counts = Counts::default();
    let large = [
        chain(21, 22, 21, false),
        chain(16, 32, 31, true),
        chain(8, 25, 31, false),
        chain(24, 12, 13, true),
        short_copies(32, 1),
        short_copies(21, 2),
        short_copies(12, 4),
    ];
    for (first, letters) in &large {
        let second = every_word(first.letters);
        Ready::new(first, &second, Some(*letters)).pair(&mut rng, &mut counts);
    }
    counts.report("long chains of copies");
    assert_eq!(counts.most_letters, 31_776);
    assert!(counts.most_letters <= MOST_LETTERS);
}

/// Tables whose only common word needs several empty copies in a row at one position, and the same without one of them.
#[test]
fn empty_copies_in_a_row() {
    let mut rng = Rng::new(20_240_027);
    let mut counts = Counts::default();
    for rounds in 1..=8 {
        // Rounds of a buffering and a matching state, epsilon from each to the next.
        let marks: Vec<u8> = (0..2 * rounds)
            .map(|state| if state % 2 == 0 { 4 } else { 8 })
            .collect();
        let path: Vec<_> = (1..2 * rounds).map(|state| (state - 1, 0, state)).collect();
        // Where letters are read: nowhere, before, behind, on both sides, in the first copy.
        for place in 0..5 {
            let (mut marks, mut path) = (marks.clone(), path.clone());
            let (mut begin, mut end) = (0, 2 * rounds - 1);
            if place == 1 || place == 3 {
                marks.push(0);
                path.push((marks.len() - 1, 1, begin));
                begin = marks.len() - 1;
            }
            if place == 2 || place == 3 {
                marks.push(0);
                path.push((end, 1, marks.len() - 1));
                end = marks.len() - 1;
            }
            if place == 4 {
                path.retain(|&step| step != (0, 0, 1));
                path.extend([(0, 1, 1), (1, 1, 1)]);
            }
            marks[begin] |= 1;
            marks[end] |= 2;
            let letters = [0, 1, 1, 2, 2][place];
            let first = Machine::new(1, &marks, &path);
            for second in [every_word(1), length_modulo(1, 3, letters % 3)] {
                assert_eq!(decided(&first, &second, 6), Some(letters));
                let ready = Ready::new(&first, &second, Some(letters));
                ready.pair(&mut rng, &mut counts);
                ready.wrappers();
            }
            let second = length_modulo(1, 3, (letters + 1) % 3);
            let least = decided(&first, &second, 6);
            Ready::new(&first, &second, least).pair(&mut rng, &mut counts);
            // Any step left out leaves no word.
            for left_out in 0..path.len() {
                let mut rest = path.clone();
                rest.remove(left_out);
                let first = Machine::new(1, &marks, &rest);
                let second = every_word(1);
                assert_eq!(decided(&first, &second, 4), None);
                Ready::new(&first, &second, None).pair(&mut rng, &mut counts);
            }
        }
    }
    counts.report("empty copies in a row");
    assert!(counts.empty_in_a_row > 50);
}

/// The kinds of machines with many transitions.
const KINDS: [Kind; 5] = [
    Kind::Any,
    Kind::NoFinal,
    Kind::NoWayOut,
    Kind::NeverMatched,
    Kind::Parity,
];

/// As many states and transitions as there can be. That no shorter word is common is tried; a small machine of each kind
/// is decided by the relations.
#[test]
fn dense_tables() {
    let mut rng = Rng::new(20_240_031);
    let mut counts = Counts::default();
    for kind in KINDS {
        for (states, letters, count) in [(4, 2, 10), (5, 2, 18), (6, 2, 20), (8, 2, 20)] {
            let first = dense(kind, states, letters, count);
            let second = every_word(letters);
            let least = decided(&first, &second, 4);
            assert!(kind == Kind::Any || least.is_none(), "{kind:?}");
            Ready::new(&first, &second, least).pair(&mut rng, &mut counts);
        }
        for (letters, count) in [(1, 1_500), (2, 3_000), (20, 4_000), (250, 4_000)] {
            let first = dense(kind, 64, letters, count);
            let second = every_word(letters);
            let least = match kind {
                Kind::Any => tried(&first, &second, 2),
                _ => None,
            };
            assert_eq!(least.is_some(), kind == Kind::Any);
            Ready::new(&first, &second, least).pair(&mut rng, &mut counts);
        }
    }
    // Nearly every transition over one letter that there can be.
    let first = dense(Kind::Any, 64, 1, 4_000);
    let second = every_word(1);
    Ready::new(&first, &second, tried(&first, &second, 3)).pair(&mut rng, &mut counts);
    // Doubled words with a plain machine: 63 joined states, 4,000 joined transitions.
    for ends in [false, true] {
        let first = doubled(6);
        let second = dense_plain(21, 6, 1_979, ends);
        let least = tried(&first, &second, 4);
        assert_eq!(least.is_some(), ends);
        Ready::new(&first, &second, least).pair(&mut rng, &mut counts);
    }
    counts.report("many transitions");
    assert!(counts.found > 5);
}

/// The empty word: the word slice needs nothing, the runs need 3 x states and 1.
#[test]
fn empty_word() {
    let mut rng = Rng::new(20_240_032);
    let mut counts = Counts::default();
    for states in [1, 2, 5, 64] {
        for marks in [[3, 0], [7, 4], [11, 8], [3, 3]] {
            let all: Vec<u8> = (0..states).map(|state| marks[state.min(1)]).collect();
            for letters in [0, 1, 250] {
                let first = Machine::new(letters, &all, &[]);
                let second = every_word(letters);
                let ready = Ready::new(&first, &second, Some(0));
                ready.pair(&mut rng, &mut counts);
                ready.wrappers();
                if states < 6 {
                    ready.every_length(2, &mut counts);
                }
                // No initial state in the second.
                let second = Machine::new(letters, &[2], &[]);
                Ready::new(&first, &second, None).pair(&mut rng, &mut counts);
            }
        }
    }
    counts.report("the empty word");
}

/// Compares a call on machines of any kind, with slices of these lengths. The number of letters is found if there is no
/// earlier refusal. Returns the refusal, or 100 for no common word and 101 for a word.
fn judged(first: &Input, second: &Input, room: Room) -> usize {
    let operands = product::operands(&first.0, &first.1, &second.0, &second.1);
    let least = operands.map(|(one, two)| least_letters(&one, &two).map(|n| (one, n)));
    let expected = match least {
        Err(refusal) => Err(refusal),
        Ok(None) => Ok(None),
        Ok(Some((one, letters))) => {
            let needed = Room::needed(&one, letters);
            room.holds(needed).map(|()| Some(letters))
        }
    };
    let (one, two) = (record_of(&first.0), record_of(&second.0));
    let lent = (Table::new(&one, &first.1), Table::new(&two, &second.1));
    let mut lending = Lending::new(room);
    let found = common_word_record(lent.0, lent.1, lending.slices());
    let message = || {
        format!("common_word differs\nfirst {first:?}\nsecond {second:?}\n{room:?}\nreference {expected:?}\nproved {found:?}")
    };
    let mut again = Lending::new(room);
    let typed = common_word(lent.0, lent.1, again.slices());
    let typed = typed.map_err(|refusal| (refusal.number(), refusal.needed()));
    match expected {
        Err(refusal) => {
            assert!(found == without_word(Some(refusal)), "{}", message());
            assert_eq!(typed, Err((refusal.number, refusal.needed)));
            usize::from(refusal.number)
        }
        Ok(None) => {
            assert!(found == without_word(None), "{}", message());
            assert_eq!(typed, Ok(None));
            100
        }
        Ok(Some(letters)) => {
            let good = (found.refusal, found.found, found.letters) == (0, 1, letters);
            assert!(good, "{}", message());
            let word = &lending.word[..letters];
            let first_run = &lending.first_run[..found.first_entries];
            let second_run = &lending.second_run[..found.second_entries];
            let checked = [
                check_run(&one, &first.1, word, first_run),
                check_run(&two, &second.1, word, second_run),
            ];
            assert_eq!(checked, [Ok(true); 2], "{}", message());
            101
        }
    }
}

/// Machines that break a rule, are not plain, differ in letters, have too many states, and slices too short, together
/// and alone. Rubbish past the count is not looked at.
#[test]
fn random_refusals() {
    let mut rng = Rng::new(20_240_033);
    let mut counts = [0u64; 102];
    let pairs = 40_000;
    for _ in 0..pairs {
        let letters = rng.below(4);
        let first = match rng.below(3) {
            0 => random_machine(&mut rng, 4, letters),
            _ => random_chain(&mut rng, letters),
        };
        let second = random_second(&mut rng, &first, 3);
        let (mut one, mut two) = (first.record(), second.record());
        match rng.below(16) {
            0 => one = break_a_rule(&mut rng, &first),
            1 => two = break_a_rule(&mut rng, &second),
            2 => {
                one = break_a_rule(&mut rng, &first);
                two = break_a_rule(&mut rng, &second);
            }
            3..6 => {
                one.1.extend([0, 65_535, 3]);
                two.1.push(7);
            }
            _ => {}
        }
        // Too many joined states would take the relations too long.
        let small = one.0.states.saturating_mul(two.0.states) <= 24;
        if !small && product::operands(&one.0, &one.1, &two.0, &two.1).is_ok() {
            continue;
        }
        let room = Room {
            word: rng.pick(&[0, 1, 2, 20]),
            first_run: rng.pick(&[0, 20, 60, 600]),
            second_run: rng.pick(&[0, 1, 4, 30]),
        };
        counts[judged(&one, &two, room)] += 1;
    }
    println!(
        "common word, machines of any kind: {} pairs (refusal: cases; {}; 100 is no common word, 101 a word)",
        counts.iter().sum::<u64>(),
        tally(&counts)
    );
    for number in [10, 11, 12, 16, 17, 18, 100, 101] {
        assert!(counts[number] > 100, "{number} is rare");
    }
}

/// Every two faults together: 16 (first, then second), 10, 11, 12, 13, 18, 17 (first run), 17 (second run). Faults of the
/// machines come before "no common word", and that comes before the slices.
#[test]
fn order_of_refusals() {
    let mut cases = 0;
    // Joined, 4,001 transitions: 64 x 62 + 33 x 1. All 64 states of the first are there, so 9 in the second are too many.
    let counted = |counts: [usize; 2], marks: &[u8]| {
        let mut transitions = Vec::new();
        for (letter, count) in counts.into_iter().enumerate() {
            transitions.extend((0..count).map(|i| (i / 8, 1 + letter, i % 8)));
        }
        let all: Vec<u8> = (0..8).map(|state| marks[state % marks.len()]).collect();
        Machine::new(2, &all, &transitions)
    };
    // With a common word, the empty one; and without, since the first or the second has no initial or no final state.
    let kinds: [(bool, &[u8], &[u8]); 5] = [
        (true, &[7, 8, 2], &[3, 2]),
        (false, &[6, 8, 2], &[3, 2]),
        (false, &[5, 8, 0], &[3, 2]),
        (false, &[7, 8, 2], &[2, 0]),
        (false, &[7, 8, 2], &[1, 0]),
    ];
    for (common, copying, plain) in kinds {
        for faults in 0..512u32 {
            let has = |fault: u32| faults >> fault & 1 == 1;
            let (mut one, mut two) = (
                counted([64, if has(0) { 33 } else { 32 }], copying).record(),
                counted([62, 1], plain).record(),
            );
            // The word is empty: its slice needs 0, the runs need 24 and 1.
            let mut expected = if common { (0, 0) } else { (100, 0) };
            let (mut first_run, mut second_run) = (24, 1);
            if has(8) {
                second_run = 0;
                expected = if common { (17, 1) } else { expected };
            }
            if has(7) {
                first_run = 23;
                expected = if common { (17, 24) } else { expected };
            }
            if has(0) {
                expected = (13, 0);
            }
            if has(1) {
                two.0.states = 9;
                expected = (12, 0);
            }
            if has(2) {
                two.0.letters = 3;
                expected = (11, 0);
            }
            if has(3) {
                two.0.marks[3] |= 4;
                expected = (10, 0);
            }
            if has(4) {
                two.0.marks[3] |= 8;
                expected = (10, 0);
            }
            if has(3) && has(4) {
                expected = (16, 0);
            }
            if has(5) {
                two.1[1] = 60_000;
                expected = (16, 0);
            }
            if has(6) {
                one.0.letters = 1;
                expected = (16, 0);
            }
            let room = Room {
                word: 0,
                first_run,
                second_run,
            };
            let (proved_one, proved_two) = (record_of(&one.0), record_of(&two.0));
            let mut lending = Lending::new(room);
            let found = common_word_record(
                Table::new(&proved_one, &one.1),
                Table::new(&proved_two, &two.1),
                lending.slices(),
            );
            let number = match found {
                CommonRecord { found: 1, .. } => 0,
                CommonRecord { refusal: 0, .. } => 100,
                _ => found.refusal,
            };
            assert_eq!((number, found.needed), expected, "{faults:b}");
            if number != 0 {
                assert!((found.found, found.letters) == (0, 0));
                assert!((found.first_entries, found.second_entries) == (0, 0));
            }
            cases += 1;
        }
    }
    // The word slice comes before the runs: every three lengths around what is needed.
    let (first, letters) = cycles(2, 3);
    let second = every_word(1);
    let ready = Ready::new(&first, &second, Some(letters));
    let mut counts = Counts::default();
    let needed = ready.needed();
    let around = |needed: usize| [0, 1, needed - 1, needed, needed + 1, needed + 1_000];
    for word in around(needed.word) {
        for first_run in around(needed.first_run) {
            for second_run in around(needed.second_run) {
                ready.call(
                    Room {
                        word,
                        first_run,
                        second_run,
                    },
                    &mut counts,
                );
            }
        }
    }
    println!(
        "common word, order of refusals: {cases} cases of faults together, {} of lengths",
        counts.calls
    );
}

/// The largest searches in a thread with a small stack.
#[test]
fn small_stack() {
    let search = || {
        let mut rng = Rng::new(20_240_034);
        let mut counts = Counts::default();
        let large = [
            cycles(31, 32),
            chain(21, 22, 21, false),
            chain(16, 32, 31, true),
        ];
        for (first, letters) in &large {
            let second = every_word(first.letters);
            Ready::new(first, &second, Some(*letters)).pair(&mut rng, &mut counts);
        }
        for kind in KINDS {
            for (letters, count) in [(2, 3_000), (250, 4_000)] {
                let first = dense(kind, 64, letters, count);
                let second = every_word(letters);
                let least = match kind {
                    Kind::Any => tried(&first, &second, 2),
                    _ => None,
                };
                Ready::new(&first, &second, least).pair(&mut rng, &mut counts);
            }
        }
        let first = doubled(6);
        let second = dense_plain(21, 6, 1_979, true);
        let least = tried(&first, &second, 4);
        Ready::new(&first, &second, least).pair(&mut rng, &mut counts);
        counts
    };
    let thread = std::thread::Builder::new().stack_size(STACK).spawn(search);
    let counts = thread.expect("a thread").join().expect("enough stack");
    counts.report(&format!("in a thread with {STACK} bytes of stack"));
}

#[test]
fn c_program() {
    let printed = compare::c::program("common", env!("CARGO_TARGET_TMPDIR"));
    assert_eq!(printed, "common words are found right from C\n");
    print!("{printed}");
}
