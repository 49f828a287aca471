//! The copy list: the whole result and the whole slice of each call are compared with the reference. Copies of no
//! letters are not listed; what is listed is compared with the list of all copies without them, and the total with that
//! of all copies taken from the first.

use compare::accepting_runs::{damaged, longer, walk};
use compare::calls::{list_copies, list_copies_record};
use compare::doubled_words::{
    plain_and_doubled, repeated, repeated_run, run_of_parts, Part, SEVERAL,
};
use compare::many_copies::{zone_circle, zones};
use compare::{break_a_rule, filled, random_machine, random_word, record_of, tally, Rng};
use reference::copies::all_copies;
use reference::{folder, moves, published, Machine, Record};
use zagvirk::copies::{Copies, CopiesRecord};

/// The number of copies and of letters stored.
fn counted(copies: Copies) -> (usize, usize) {
    (copies.count, copies.total)
}

/// Compares the copy list in a slice of the length. Returns the refusal or 0, and the length needed.
fn lists(record: &Record, list: &[u16], word: &[u8], run: &[u16], length: usize) -> (u8, usize) {
    let mut expected_copies = filled(length);
    let listed = reference::copies::copies(record, list, word, run, &mut expected_copies);
    let expected = match listed {
        Ok(listed) => CopiesRecord {
            refusal: 0,
            needed: 0,
            copies: listed.count,
            total: listed.total,
        },
        Err(refusal) => CopiesRecord {
            refusal: refusal.number,
            needed: refusal.needed,
            copies: 0,
            total: 0,
        },
    };
    let mut copies = filled(length);
    let proved = record_of(record);
    let found = list_copies_record(&proved, list, word, run, &mut copies);
    if found != expected || copies != expected_copies {
        panic!(
            "list_copies differs, slice of {length} elements, the same after the call: {}\n{record:?}\n\
             list {list:?}\nword {word:?}\nrun {:?}\nreference {expected:?}\nproved {found:?}",
            copies == expected_copies,
            &run[..run.len().min(300)]
        );
    }
    (expected.refusal, expected.needed)
}

/// The refusal and the length needed of a slice of the length, where so many elements are needed.
fn judged(length: usize, needed: usize) -> (u8, usize) {
    match length < needed {
        true => (20, needed),
        false => (0, 0),
    }
}

/// The copies as they are listed.
fn pairs(copies: &[(usize, usize)]) -> Vec<u16> {
    let pair = |&(begin, letters): &(usize, usize)| [begin as u16, letters as u16];
    copies.iter().flat_map(pair).collect()
}

/// How many random runs there are.
const RUNS: u64 = 300_000;
/// How many runs at most are made of one machine and word.
const OF_ONE_WORD: usize = 5;

/// What the random runs have.
#[derive(Default)]
struct Counts {
    runs: u64,
    with_copies: u64,
    with_letters: u64,
    with_empty: u64,
    with_both: u64,
    only_empty: u64,
    most: usize,
    most_listed: usize,
    refusals: [u64; 21],
}

impl Counts {
    /// Compares the copy list of a run that accepts, in slices of several lengths, with the list of all copies.
    fn compare(
        &mut self,
        rng: &mut Rng,
        machine: &Machine,
        list: &[u16],
        word: &[u8],
        run: &[u16],
    ) {
        let (record, _) = machine.record();
        let all = all_copies(machine, word, run).expect("a run that accepts");
        let kept: Vec<(usize, usize)> = all.iter().copied().filter(|copy| copy.1 > 0).collect();
        let empty = all.len() - kept.len();
        self.runs += 1;
        self.with_copies += u64::from(!all.is_empty());
        self.with_letters += u64::from(!kept.is_empty());
        self.with_empty += u64::from(empty > 0);
        self.with_both += u64::from(empty > 0 && !kept.is_empty());
        self.only_empty += u64::from(empty > 0 && kept.is_empty());
        self.most = self.most.max(all.len());
        self.most_listed = self.most_listed.max(kept.len());
        // The total of all copies, from the first.
        let total: usize = all.iter().map(|&(_, letters)| letters).sum();
        let needed = 2 * kept.len();
        let mut copies = filled(needed);
        let listed = list_copies(&record_of(&record), list, word, run, &mut copies);
        let input = || format!("{record:?}\nlist {list:?}\nword {word:?}\nrun {run:?}");
        let expected = Ok((kept.len(), total));
        assert_eq!(listed.map(counted), expected, "{}", input());
        assert_eq!(copies, pairs(&kept), "{}", input());
        // Plain letters of the run and twice the total make the word, so as many elements as it has letters are enough.
        let (rows, _) = moves::follow(machine, word, run);
        let plain = rows.windows(2).filter(|pair| {
            pair[0].mode == moves::NORMAL_MODE && pair[1].position > pair[0].position
        });
        assert_eq!(plain.count() + 2 * total, word.len(), "{}", input());
        assert!(needed <= word.len(), "{}", input());
        let some = rng.below(2 * all.len() + 2);
        let mut lengths = vec![0, needed, needed + 5, word.len(), some];
        lengths.extend(needed.checked_sub(1));
        for length in lengths {
            let found = lists(&record, list, word, run, length);
            self.refusals[usize::from(found.0)] += 1;
            assert_eq!(found, judged(length, needed));
        }
    }

    /// Compares the copy list of the run damaged, and now and then that of the run with a damaged machine and word.
    fn damaged(
        &mut self,
        rng: &mut Rng,
        machine: &Machine,
        list: &[u16],
        word: &[u8],
        run: &[u16],
    ) {
        let (record, _) = machine.record();
        let damaged = damaged(rng, run);
        let (refusal, _) = lists(&record, list, word, &damaged, rng.below(6));
        self.refusals[usize::from(refusal)] += 1;
        if rng.once_in(4) {
            let (broken, broken_list) = break_a_rule(rng, machine);
            let (refusal, _) = lists(&broken, &broken_list, word, run, 12);
            self.refusals[usize::from(refusal)] += 1;
            let mut other = word.to_vec();
            let bad = rng.pick(&[0, record.letters as u8 + 1, 1, 255]);
            other.insert(rng.below(word.len() + 1), bad);
            let (refusal, _) = lists(&record, list, &other, run, 12);
            self.refusals[usize::from(refusal)] += 1;
        }
    }
}

/// Machines of copy zones, in a circle or one after another, and random ones of up to 5 states. A word and a run of it
/// are made by random moves; a quarter of the machines gets a random word and a run of fewest entries. Of each word
/// there are up to five different runs: this one, and this one with moves put in that read nothing and lead back.
#[test]
fn random_runs() {
    let mut rng = Rng::new(20_240_011);
    let mut counts = Counts::default();
    let mut words = 0u64;
    while counts.runs < RUNS {
        let letters = 1 + rng.below(2);
        let (machine, walks) = match rng.below(4) {
            0 => (zone_circle(&mut rng, letters), true),
            1 => (zones(&mut rng, 12, letters), true),
            walks => (random_machine(&mut rng, 5, 2), walks == 2),
        };
        let first = match walks {
            true => walk(&mut rng, &machine),
            false => {
                let word = random_word(&mut rng, machine.letters, 9);
                published::find_run(&machine, &word).map(|run| (word, run))
            }
        };
        let Some((word, first)) = first else {
            continue;
        };
        words += 1;
        let mut list = machine.list();
        if rng.once_in(2) {
            list.push(65_535);
        }
        let mut different = vec![first.clone()];
        for _ in 1..OF_ONE_WORD {
            let run = longer(&mut rng, &machine, &word, &first);
            if !different.contains(&run) {
                different.push(run);
            }
        }
        for run in &different {
            if counts.runs == RUNS {
                break;
            }
            counts.compare(&mut rng, &machine, &list, &word, run);
            counts.damaged(&mut rng, &machine, &list, &word, run);
        }
    }
    let cases: u64 = counts.refusals.iter().sum();
    println!(
        "copies, random: {} accepting runs of {words} words ({} with copies, {} with letters copied, \
         {} with empty copies, {} with both, {} with empty copies alone; up to {} copies, {} listed), \
         {cases} cases (refusal: cases; {})",
        counts.runs,
        counts.with_copies,
        counts.with_letters,
        counts.with_empty,
        counts.with_both,
        counts.only_empty,
        counts.most,
        counts.most_listed,
        tally(&counts.refusals)
    );
    assert!(3 * counts.with_empty >= RUNS && counts.with_both >= 5_000);
    assert!(counts.with_letters >= 10_000 && counts.only_empty >= 10_000);
}

/// What is listed of these doubled words: the copies with letters.
fn listed_of(halves: &[usize]) -> Vec<u16> {
    let (mut listed, mut begin) = (Vec::new(), 0);
    for &half in halves {
        if half > 0 {
            listed.extend([begin as u16, half as u16]);
        }
        begin += 2 * half;
    }
    listed
}

/// Compares the copy list of the run in a slice that is just long enough with the numbers given.
fn is_listed(record: &Record, list: &[u16], word: &[u8], run: &[u16], expected: &[u16]) {
    let mut copies = filled(expected.len());
    let listed = list_copies(&record_of(record), list, word, run, &mut copies);
    let total = expected.chunks(2).map(|copy| usize::from(copy[1])).sum();
    assert_eq!(listed.map(counted), Ok((expected.len() / 2, total)));
    assert_eq!(copies, expected);
}

#[test]
fn several_copies() {
    let (record, list) = repeated().record();
    let mut cases = 0;
    for halves in SEVERAL {
        let (word, run) = repeated_run(halves);
        let expected = listed_of(halves);
        let needed = expected.len();
        is_listed(&record, &list, &word, &run, &expected);
        assert_eq!(word.len(), 2 * halves.iter().sum::<usize>());
        for length in 0..needed + 4 {
            let found = lists(&record, &list, &word, &run, length);
            assert_eq!(found, judged(length, needed));
            cases += 1;
        }
        for length in 0..run.len() {
            let (refusal, _) = lists(&record, &list, &word, &run[..length], needed);
            let accepts = moves::accepting(&record.machine(&list).unwrap(), &word, &run[..length]);
            assert_eq!(refusal == 14, !accepts);
            cases += 1;
        }
    }
    println!("copies, doubled words one after another, slices of every length: {cases} cases");
}

/// Empty copies alone, at the start of the word, at its end, and between two others, also several at one position: what
/// is listed stands here as numbers.
#[test]
fn empty_copies_are_left_out() {
    let (record, list) = repeated().record();
    let mut cases = 0;
    for (halves, expected) in [
        (&[0][..], &[][..]),
        (&[0, 0, 0], &[]),
        (&[0, 3], &[0, 3]),
        (&[3, 0], &[0, 3]),
        (&[0, 3, 0], &[0, 3]),
        (&[3, 0, 2], &[0, 3, 6, 2]),
        (&[0, 0, 3, 0, 0, 0, 2, 0, 0], &[0, 3, 6, 2]),
        (&[1, 0, 1, 0, 0, 1], &[0, 1, 2, 1, 4, 1]),
        (&[0, 127, 0], &[0, 127]),
        (&[126, 0, 1], &[0, 126, 252, 1]),
        (&[1, 0, 126], &[0, 1, 2, 126]),
    ] {
        let (word, run) = repeated_run(halves);
        is_listed(&record, &list, &word, &run, expected);
        assert!(expected.len() <= word.len());
        for length in 0..2 * halves.len() + 4 {
            let found = lists(&record, &list, &word, &run, length);
            assert_eq!(found, judged(length, expected.len()));
            cases += 1;
        }
    }
    println!("copies, empty ones left out: {cases} cases");
}

/// So many empty copies ahead of the copies of these numbers of letters, and behind each of them.
fn among(letters: &[usize], empty: usize) -> Vec<usize> {
    let mut halves = vec![0; empty];
    for &half in letters {
        halves.push(half);
        halves.extend(vec![0; empty]);
    }
    halves
}

/// Runs of very many empty copies: they need no element, whatever their number, also around others. All copies but 32,767
/// of them would need more elements than a 16-bit number says.
#[test]
fn many_empty_copies() {
    let (record, list) = repeated().record();
    let mut cases = 0;
    for count in [32_767, 32_768, 40_000, 100_000] {
        let (word, run) = repeated_run(&vec![0; count]);
        is_listed(&record, &list, &word, &run, &[]);
        for length in [
            0,
            1,
            2,
            2 * count - 65_536 * (count / 32_768),
            2 * count - 1,
            2 * count,
            2 * count + 3,
        ] {
            assert_eq!(lists(&record, &list, &word, &run, length), (0, 0));
            cases += 1;
        }
        let (refusal, _) = lists(&record, &list, &word, &run[..run.len() - 1], 0);
        assert_eq!(refusal, 14);
    }
    for (letters, empty) in [
        (&[1][..], 20_000),
        (&[127], 20_000),
        (&[1, 1], 12_000),
        (&[60, 67], 12_000),
        (&[1; 127], 260),
    ] {
        let (word, run) = repeated_run(&among(letters, empty));
        let expected = listed_of(letters);
        is_listed(&record, &list, &word, &run, &expected);
        for length in 0..expected.len() + 4 {
            let found = lists(&record, &list, &word, &run, length);
            assert_eq!(found, judged(length, expected.len()));
            cases += 1;
        }
    }
    println!(
        "copies, up to 100,000 empty copies, alone and around 1, 2 and 127 others: {cases} cases"
    );
}

/// Words of 255 letters, one of them plain and the others copied, or all plain; with one letter more they are refused.
#[test]
fn longest_words() {
    let machine = plain_and_doubled();
    let (record, list) = machine.record();
    let mut words = vec![
        vec![Part::Plain, Part::Doubled(127)],
        vec![Part::Doubled(127), Part::Plain],
        vec![Part::Doubled(63), Part::Plain, Part::Doubled(64)],
        vec![Part::Plain; 255],
    ];
    for place in 0..=127 {
        let mut parts = vec![Part::Doubled(1); 127];
        parts.insert(place, Part::Plain);
        words.push(parts);
    }
    let mut cases = 0;
    for parts in &words {
        let mut with_empty = vec![Part::Doubled(0)];
        with_empty.extend(parts.iter().flat_map(|&part| [part, Part::Doubled(0)]));
        for parts in [parts, &with_empty] {
            let (letters, run, expected) = run_of_parts(parts);
            let (word, needed) = (vec![1; letters], expected.len());
            assert_eq!(letters, 255);
            assert!(needed <= 254);
            is_listed(&record, &list, &word, &run, &expected);
            for length in [0, needed.saturating_sub(1), needed, needed + 3, 254, 600] {
                let found = lists(&record, &list, &word, &run, length);
                assert_eq!(found, judged(length, needed));
                cases += 1;
            }
            let mut longer = parts.clone();
            longer.push(Part::Plain);
            let (letters, run, _) = run_of_parts(&longer);
            let word = vec![1; letters];
            assert!(letters == 256 && moves::accepting(&machine, &word, &run));
            for length in [0, needed, 600] {
                assert_eq!(lists(&record, &list, &word, &run, length), (9, 0));
                cases += 1;
            }
        }
    }
    let (letters, run, _) = run_of_parts(&[Part::Doubled(1); 128]);
    let word = vec![1; letters];
    assert!(letters == 256 && moves::accepting(&machine, &word, &run));
    assert_eq!(lists(&record, &list, &word, &run, 256), (9, 0));
    println!("copies, words of 255 and of 256 letters: {cases} cases");
}

/// The refusals in their order: 16, 9, 8, 14, 20.
#[test]
fn order_of_refusals() {
    let (record, list) = repeated().record();
    let (word, run) = repeated_run(&[127]);
    assert_eq!(word.len(), 254);
    let mut longest = word.clone();
    longest.push(1);
    let mut cases = 0;
    let mut gives = |record: &Record, list: &[u16], word: &[u8], run: &[u16], length, refusal| {
        assert_eq!(lists(record, list, word, run, length), refusal);
        cases += 1;
    };
    gives(&record, &list, &word, &run, 2, (0, 0));
    gives(&record, &list, &word, &run, 1, (20, 2));
    gives(&record, &list, &word, &run, 0, (20, 2));
    for length in [0, 2] {
        gives(&record, &list, &longest, &run, length, (14, 0));
        gives(&record, &list, &word, &[], length, (14, 0));
        // The first entry is a state number.
        gives(&record, &list, &word, &[65_534], length, (14, 0));
        let mut absent = run.clone();
        absent[0] = 65_534;
        gives(&record, &list, &word, &absent, length, (14, 0));
        gives(&record, &list, &word, &[2], length, (14, 0));
        longest.push(1);
        assert_eq!(longest.len(), 256);
        gives(&record, &list, &longest, &run, length, (9, 0));
        longest[7] = 0;
        gives(&record, &list, &longest, &run, length, (9, 0));
        longest.pop();
        gives(&record, &list, &longest, &run, length, (8, 0));
        gives(&record, &list, &longest, &[], length, (8, 0));
        longest[7] = 3;
        gives(&record, &list, &longest, &[], length, (8, 0));
        let mut broken = record.clone();
        broken.marks[1] = 12;
        longest.push(0);
        gives(&broken, &list, &longest, &[], length, (16, 0));
        gives(&record, &list[..20], &longest, &[], length, (16, 0));
        longest.truncate(255);
        longest[7] = 1;
    }
    // An empty copy alone needs no element.
    let (empty, mut run) = repeated_run(&[0]);
    for length in [0, 1, 2] {
        gives(&record, &list, &empty, &run, length, (0, 0));
        gives(&record, &list, &[3], &run, length, (8, 0));
        gives(&record, &list, &[1], &run, length, (14, 0));
    }
    run.pop();
    for length in [0, 1, 2] {
        gives(&record, &list, &empty, &run, length, (14, 0));
    }
    // A plain word of 255 letters, and of 256.
    let (record, list) = Machine::new(1, &[3], &[(0, 1, 0)]).record();
    let mut run = vec![0; 256];
    gives(&record, &list, &[1; 255], &run, 0, (0, 0));
    run.push(0);
    gives(&record, &list, &[1; 256], &run, 0, (9, 0));
    println!("copies, order of refusals: {cases} cases");
}

#[test]
fn folders() {
    let (mut runs, mut with_empty, mut cases) = (0, 0, 0);
    for folder in folder::all() {
        let (record, list) = folder.machine.record();
        for (word, _) in &folder.words {
            if let Some(run) = published::find_run(&folder.machine, word) {
                let all = all_copies(&folder.machine, word, &run).expect("a run that accepts");
                let kept = all.iter().filter(|copy| copy.1 > 0).count();
                runs += 1;
                with_empty += u64::from(kept < all.len());
                for length in 0..2 * all.len() + 2 {
                    let found = lists(&record, &list, word, &run, length);
                    assert_eq!(found, judged(length, 2 * kept));
                    cases += 1;
                }
            }
        }
    }
    println!(
        "copies, machines of data/machines: {runs} runs, {with_empty} with empty copies, slices of every length, \
         {cases} cases"
    );
    assert!(with_empty > 0);
}

#[test]
fn c_program() {
    let printed = compare::c::program("copies", env!("CARGO_TARGET_TMPDIR"));
    assert_eq!(printed, "copies are listed right from C\n");
    print!("{printed}");
}
