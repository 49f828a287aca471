//! Yes or no without a run, for a word and for lists of words: the whole result and the whole slice of each call are
//! compared with the reference, and the answers with those of recognition. Which words are accepted is compared at length
//! in `recognize`.

use compare::calls::{accept_words, accept_words_record, accepts, accepts_record, answers};
use compare::calls::{recognize, Words};
use compare::{break_a_rule, filled, filled_bytes, random_machine, random_word, record_of};
use compare::{tally, Rng};
use reference::{accepts as by_reference, folder, Machine, Record};
use std::cell::Cell;
use zagvirk::accepts::{DecidedRecord, WordsAnsweredRecord};
use zagvirk::recognize::run_length;
use zagvirk::{Refusal, Table};

/// Compares the answer for one word. Returns the refusal or the answer as a list has it, 16 for a broken machine.
fn decided(record: &Record, list: &[u16], word: &[u8]) -> u8 {
    let judged = by_reference::accepts(record, list, word);
    let expected = DecidedRecord {
        refusal: judged.map_or_else(|refusal| refusal.number, |_| 0),
        accepted: u8::from(judged == Ok(true)),
    };
    let proved = record_of(record);
    let found = accepts_record(&proved, list, word);
    assert!(
        found == expected,
        "accepts differs\n{record:?}\nlist {list:?}\nword {word:?}\nreference {expected:?}\nproved {found:?}"
    );
    let typed = accepts(&proved, list, word).map_err(|refusal| refusal.number());
    assert_eq!(typed, judged.map_err(|refusal| refusal.number));
    expected.refusal + expected.accepted
}

/// Compares the answers for a list of words, in a slice of the length. Returns the refusal or 0, and the length needed.
fn answered(record: &Record, list: &[u16], words: &Words, length: usize) -> (u8, usize) {
    let mut expected_answers = filled_bytes(length);
    let Words { letters, ends } = words;
    let judged = by_reference::accept_words(record, list, letters, ends, &mut expected_answers);
    let expected = match judged {
        Ok(words) => WordsAnsweredRecord {
            refusal: 0,
            needed: 0,
            words,
        },
        Err(refusal) => WordsAnsweredRecord {
            refusal: refusal.number,
            needed: refusal.needed,
            words: 0,
        },
    };
    let proved = record_of(record);
    let mut found_answers = filled_bytes(length);
    let found = accept_words_record(&proved, list, words, &mut found_answers);
    let different = (0..length).find(|&i| found_answers[i] != expected_answers[i]);
    assert!(
        found == expected && different.is_none(),
        "accept_words differs, slice of {length}, different from answer {different:?} on\n{record:?}\n\
         list {list:?}\nends of {} words {:?}\n{} letters {:?}\nreference {expected:?}\nproved {found:?}",
        ends.len(),
        &ends[..ends.len().min(300)],
        letters.len(),
        &letters[..letters.len().min(300)],
    );
    let mut typed_answers = filled_bytes(length);
    let typed = accept_words(&proved, list, words, &mut typed_answers);
    assert_eq!(
        typed.map_err(|refusal| (refusal.number(), refusal.needed())),
        judged.map_err(|refusal| (refusal.number, refusal.needed))
    );
    assert!(typed_answers == expected_answers);
    (expected.refusal, expected.needed)
}

fn table_t() -> (Record, Vec<u16>) {
    folder::load("table-t").machine.record()
}

/// What an answer of the iterator is in a list.
fn byte(answer: &Result<bool, Refusal>) -> u8 {
    match answer {
        Ok(yes) => u8::from(*yes),
        Err(refusal) => refusal.number(),
    }
}

/// Lists of 0, 1 and many words, with empty words among them.
#[test]
fn numbers_of_words() {
    let mut rng = Rng::new(20_240_061);
    let (record, list) = table_t();
    let mut most = 0;
    for count in [0, 1, 2, 3, 15, 16, 17, 1000, 100_000] {
        for more in [0, 1, 100] {
            let mut words = Words::default();
            for number in 0..count {
                let word = match number % 7 {
                    0 | 4 | 5 => vec![],
                    _ => random_word(&mut rng, 2, 6),
                };
                words.push(&word);
            }
            assert_eq!(answered(&record, &list, &words, count + more), (0, 0));
            most = most.max(words.letters.len());
            if count == 100_000 {
                break;
            }
        }
    }
    // Nothing but empty words.
    let (none, none_list) = Machine::new(0, &[1], &[]).record();
    for count in [1, 2, 1000, 100_000] {
        let empty = Words {
            letters: vec![],
            ends: vec![0; count],
        };
        assert_eq!(answered(&record, &list, &empty, count), (0, 0));
        assert_eq!(answered(&none, &none_list, &empty, count + 1), (0, 0));
    }
    println!("accept_words, lists of 0 to 100,000 words: up to {most} letters");
}

/// Words at the limit and far past it stand between others; 9 comes before 8.
#[test]
fn long_words() {
    let (record, list) = table_t();
    let mut cases = 0;
    let mut words: Vec<Vec<u8>> = Vec::new();
    for length in [254, 255, 256, 257, 300, 511, 512, 65_536, 1_048_577] {
        for bad in [1, 0, 3, 255] {
            for at in [0, length / 2, length - 1] {
                let mut word = vec![1; length];
                word[at] = bad;
                let expected = match (length, bad) {
                    (256.., _) => 9,
                    (_, 1) => u8::from(length == 254),
                    _ => 8,
                };
                assert_eq!(decided(&record, &list, &word), expected);
                words.extend([vec![2, 2], word, vec![]]);
                cases += 1;
            }
        }
    }
    let words = Words::of(&words);
    let count = words.ends.len();
    assert_eq!(answered(&record, &list, &words, count + 3), (0, 0));
    println!("accepts, words of 254 letters and more: {cases} cases, and a list of {count} words");
}

/// Letter 0 and letters above the count, anywhere in a word.
#[test]
fn letters() {
    let mut cases = 0;
    for count in [0, 1, 2, 28, 249, 250] {
        let loops: Vec<_> = (1..=count).map(|letter| (0, letter, 0)).collect();
        let (record, list) = Machine::new(count, &[3], &loops).record();
        let mut words = Words::default();
        for letter in 0..=255 {
            for length in [1, 2, 9, 255] {
                for at in [0, length / 2, length - 1] {
                    let mut word = vec![1; length];
                    word[at] = letter;
                    let good = |&letter: &u8| letter != 0 && usize::from(letter) <= count;
                    let expected = if word.iter().all(good) { 1 } else { 8 };
                    assert_eq!(decided(&record, &list, &word), expected);
                    words.push(&word);
                    cases += 1;
                }
            }
        }
        assert_eq!(answered(&record, &list, &words, words.ends.len()), (0, 0));
    }
    println!("accepts, each letter with 0 to 250 letters in the machine: {cases} cases");
}

/// Machines that break a rule: 16 comes first of all.
#[test]
fn broken_machines() {
    let mut rng = Rng::new(20_240_062);
    let (mut cases, mut broken) = (0, 0);
    let lists = [
        Words::of(&[&[1, 1][..], &[], &[1, 2, 1]]),
        Words::of(&[&[0; 300][..], &[0], &[255]]),
        // Falling, and past the letters.
        Words {
            letters: vec![1, 1],
            ends: vec![2, 1, 2],
        },
        Words {
            letters: vec![1, 1],
            ends: vec![0, 1, 3],
        },
        Words::default(),
    ];
    for _ in 0..20_000 {
        let machine = random_machine(&mut rng, 6, 3);
        let (record, list) = break_a_rule(&mut rng, &machine);
        let breaks = record.machine(&list).is_err();
        broken += u64::from(breaks);
        for words in &lists {
            let (refusal, _) = answered(&record, &list, words, rng.below(6));
            assert!(!breaks || refusal == 16);
            cases += 1;
        }
        for word in [&[1, 1][..], &[0], &[0; 256]] {
            let refusal = decided(&record, &list, word);
            assert!(!breaks || refusal == 16);
            cases += 1;
        }
        assert!(!breaks || answers(&record_of(&record), &list, [[1]]).is_err());
    }
    println!("accepts, {broken} machines that break a rule: {cases} cases");
}

/// Ends that fall or lie past the letters, at the first, a middle and the last word; 34 comes before 35.
#[test]
fn damaged_ends() {
    let (record, list) = table_t();
    let mut cases = 0;
    for count in [1, 2, 3, 7, 300] {
        let good = Words {
            letters: (0..2 * count + 5).map(|i| [1, 1, 2, 0][i % 4]).collect(),
            ends: (1..=count).map(|number| 2 * number).collect(),
        };
        let mut gives = |words: &Words, refusal: u8| {
            for length in [0, count - 1, count, count + 9] {
                let expected = match refusal {
                    0 if length < count => (35, count),
                    _ => (refusal, 0),
                };
                assert_eq!(answered(&record, &list, words, length), expected);
                cases += 1;
            }
        };
        // Letters behind the last end, good or not, are not looked at.
        gives(&good, 0);
        let letters = good.letters.len();
        let last = count - 1;
        for at in [0, count / 2, last] {
            let mut words = good.clone();
            // Past the letters.
            for end in [
                letters + 1,
                letters + 2,
                256 * letters,
                1 << 32,
                (1 << 32) + 2 * at + 2,
                usize::MAX / 2 + 1,
                usize::MAX - 1,
                usize::MAX,
            ] {
                words.ends[at] = end;
                gives(&words, 34);
            }
            // Up to the letters' end: only the last word may do so.
            words.ends[at] = letters;
            gives(&words, if at == last { 0 } else { 34 });
            // Below the end before, or above the next one.
            if at > 0 {
                for end in [0, 1, good.ends[at - 1] - 1] {
                    words.ends[at] = end;
                    gives(&words, 34);
                }
                words.ends[at] = good.ends[at - 1];
                gives(&words, 0);
            }
            if at < last {
                words.ends[at] = good.ends[at + 1] + 1;
                gives(&words, 34);
                words.ends[at] = good.ends[at + 1];
                gives(&words, 0);
            }
            // The letters are cut so that the ends from here on lie past them.
            let mut words = good.clone();
            words.letters.truncate(good.ends[at] - 1);
            gives(&words, 34);
        }
        let mut words = good.clone();
        words.letters.truncate(good.ends[last]);
        gives(&words, 0);
        // All ends the other way round.
        words.ends.reverse();
        gives(&words, if count == 1 { 0 } else { 34 });
    }
    println!("accept_words, damaged ends: {cases} cases");
}

/// Every slice that is too short, and longer ones whose rest is kept.
#[test]
fn lengths_of_slices() {
    let (record, list) = table_t();
    let mut cases = 0;
    for count in [1, 2, 5, 64, 257, 1000] {
        let words: Vec<Vec<u8>> = (0..count).map(|number| vec![1; number % 5]).collect();
        let words = Words::of(&words);
        for length in 0..count + 5 {
            let expected = if length < count { (35, count) } else { (0, 0) };
            assert_eq!(answered(&record, &list, &words, length), expected);
            cases += 1;
        }
    }
    println!("accept_words, slices of every length: {cases} cases");
}

/// A word of any kind.
fn any_word(rng: &mut Rng, letters: usize) -> Vec<u8> {
    let longest = rng.pick(&[3, 5, 8]);
    let mut word = random_word(rng, letters, longest);
    if rng.once_in(10) {
        let bad = rng.pick(&[0, letters as u8 + 1, 255]);
        word.insert(rng.below(word.len() + 1), bad);
    }
    if rng.once_in(100) {
        word.resize(rng.pick(&[256, 257, 700]), rng.pick(&[0, 1]));
    }
    word
}

#[test]
fn random_lists() {
    let mut rng = Rng::new(20_240_063);
    let (mut refusals, mut bytes) = ([0; 36], [0; 10]);
    let lists = 12_000;
    for _ in 0..lists {
        let machine = random_machine(&mut rng, 5, 3);
        let (record, list) = match rng.below(12) {
            0 => break_a_rule(&mut rng, &machine),
            _ => machine.record(),
        };
        let count = rng.below(30);
        let all: Vec<_> = (0..count)
            .map(|_| any_word(&mut rng, machine.letters))
            .collect();
        let mut words = Words::of(&all);
        words.letters.extend(vec![7; rng.below(3)]);
        let length = match rng.below(6) {
            0 => rng.below(count + 1),
            1 => count + rng.below(9),
            _ => count,
        };
        if count > 0 && rng.once_in(8) {
            let at = rng.below(count);
            words.ends[at] = rng.below(words.letters.len() + 2);
        }
        let (refusal, _) = answered(&record, &list, &words, length);
        refusals[usize::from(refusal)] += 1;
        if refusal == 0 {
            // Each word alone has the same answer.
            let mut found = filled_bytes(length);
            let proved = record_of(&record);
            accept_words(&proved, &list, &words, &mut found).expect("no refusal");
            let split = by_reference::words(&words.letters, &words.ends).expect("good ends");
            for (word, &answer) in split.iter().zip(&found) {
                assert_eq!(decided(&record, &list, word), answer);
                bytes[usize::from(answer)] += 1;
            }
            let iterated = answers(&proved, &list, &split).expect("no refusal");
            assert!(iterated.iter().map(byte).eq(found[..count].iter().copied()));
        }
    }
    println!(
        "accept_words, random lists: {lists}, by refusal {}; answers {}",
        tally(&refusals),
        tally(&bytes)
    );
    for refusal in [0, 16, 34, 35] {
        assert!(refusals[refusal] > 100, "{refusal} is rare");
    }
    for answer in [0, 1, 8, 9] {
        assert!(bytes[answer] > 500, "{answer} is rare");
    }
}

/// With a run slice that is long enough recognition gives the same answer and the same refusal.
#[test]
fn agrees_with_recognize() {
    let mut rng = Rng::new(20_240_064);
    let mut counts = [0; 17];
    for _ in 0..40_000 {
        let machine = random_machine(&mut rng, 7, 3);
        let (record, list) = match rng.below(10) {
            0 => break_a_rule(&mut rng, &machine),
            _ => machine.record(),
        };
        let proved = record_of(&record);
        for longest in [4, 10, 30] {
            let mut word = any_word(&mut rng, machine.letters);
            if longest > 8 && word.len() < 9 {
                word.extend(random_word(&mut rng, machine.letters, longest));
            }
            let more = rng.below(3);
            let mut run = filled(run_length(&zagvirk_machine(&machine), word.len()) + more);
            let with_run = recognize(&proved, &list, &word, &mut run).map(|run| run.is_some());
            let without = accepts(&proved, &list, &word);
            assert_eq!(
                with_run, without,
                "{machine:?}\nlist {list:?}\nword {word:?}"
            );
            counts[usize::from(byte(&without))] += 1;
        }
    }
    println!(
        "accepts beside recognize: by answer or refusal {}",
        tally(&counts)
    );
    for number in [0, 1, 8, 9, 16] {
        assert!(counts[number] > 500, "{number} is rare");
    }
}

/// The record of a machine that keeps the rules.
fn zagvirk_machine(machine: &Machine) -> zagvirk::Machine {
    record_of(&machine.record().0)
}

/// The iterator gives what a list of all words gives, however many words and letters there are.
#[test]
fn iterator() {
    let mut rng = Rng::new(20_240_065);
    let (record, list) = table_t();
    let proved = record_of(&record);
    let table = Table::new(&proved, &list);
    let mut cases = 0;
    let mut same = |words: &[Vec<u8>]| {
        let list_of_all = Words::of(words);
        let mut expected = vec![0; words.len()];
        accept_words(&proved, &list, &list_of_all, &mut expected).expect("no refusal");
        let found = answers(&proved, &list, words).expect("no refusal");
        assert!(found.iter().map(byte).eq(expected));
        cases += 1;
    };
    same(&[]);
    same(&[vec![]]);
    for count in [1, 100, 65_535, 65_536, 65_537, 131_072, 140_001] {
        let words: Vec<_> = (0..count).map(|_| any_word(&mut rng, 2)).collect();
        same(&words);
    }
    // More letters than are asked for at once, also in words that are too long.
    let words: Vec<_> = (0..9_000)
        .map(|number| vec![1 + (number % 2) as u8; 255 - number % 7])
        .collect();
    same(&words);
    let words: Vec<_> = (0..12_000)
        .map(|number| vec![1; [256, 2, 400, 255, 0][number % 5]])
        .collect();
    same(&words);
    let words: Vec<_> = (0..9)
        .map(|number| vec![(number % 3) as u8; [3_000_000, 4][number % 2]])
        .collect();
    same(&words);
    // Nothing is taken from a broken machine's words, nor before the first answer; then no more than 65,536.
    let taken = Cell::new(0);
    let endless = || {
        std::iter::from_fn(|| {
            taken.set(taken.get() + 1);
            Some([1, 1])
        })
    };
    let broken = zagvirk::accepts::answers(Table::new(&proved, &list[..17]), endless());
    assert_eq!(broken.err(), Some(Refusal::MachineBroken));
    let mut some = zagvirk::accepts::answers(table, endless()).expect("no refusal");
    assert_eq!(taken.get(), 0);
    assert_eq!(some.next(), Some(Ok(true)));
    assert_eq!(taken.get(), 65_536);
    assert!(some.take(65_535).all(|answer| answer == Ok(true)));
    assert_eq!(taken.get(), 65_536);
    // How many are left, and that the end is the end, also if the words go on after it.
    let mut words = zagvirk::accepts::answers(table, vec![[1]; 3]).expect("no refusal");
    assert_eq!(words.size_hint(), (3, Some(3)));
    assert_eq!(words.next(), Some(Ok(false)));
    assert_eq!(words.size_hint(), (2, Some(2)));
    assert_eq!(words.by_ref().count(), 2);
    assert_eq!((words.next(), words.size_hint()), (None, (0, Some(0))));
    let mut turn = 0;
    let on_and_off = std::iter::from_fn(|| {
        turn += 1;
        (turn % 3 != 0).then_some([3])
    });
    let mut words = zagvirk::accepts::answers(table, on_and_off).expect("no refusal");
    let first: Vec<_> = words.by_ref().collect();
    assert_eq!(first, [Err(Refusal::WordLetter); 2]);
    assert_eq!((words.next(), words.next()), (None, None));
    println!("answers, iterator: {cases} lists");
}

/// What the two refusals of a list say.
#[test]
fn refusals_as_text() {
    let (record, list) = table_t();
    let proved = record_of(&record);
    let words = Words::of(&[[1], [2]]);
    let refusal = accept_words(&proved, &list, &words, &mut [0]).unwrap_err();
    assert_eq!(refusal, Refusal::AnswersTooShort { needed: 2 });
    assert_eq!(
        refusal.to_string(),
        "refusal 35: the slice for answers is too short, it needs 2 elements"
    );
    let falling = Words {
        letters: vec![1],
        ends: vec![1, 0],
    };
    let refusal = accept_words(&proved, &list, &falling, &mut [0]).unwrap_err();
    assert_eq!(refusal, Refusal::EndsBroken);
    assert_eq!(
        refusal.to_string(),
        "refusal 34: the ends of the words fall, or lie past the letters"
    );
}

#[test]
fn c_program() {
    let printed = compare::c::program("accepts", env!("CARGO_TARGET_TMPDIR"));
    assert_eq!(printed, "words are answered right from C\n");
    print!("{printed}");
}
