//! The examples of document 01 and the refusals of every call.

use reference::accepts::{accept_words, accepts};
use reference::common::{self, Common};
use reference::copies::{all_copies, copies, Copies};
use reference::listing::listing;
use reference::moves::{accepting, check_run_call, step, step_call};
use reference::page::{self, page_text};
use reference::product::join;
use reference::published::{find_run, recognize};
use reference::spelling::translate;
use reference::{sheet, Config, Machine, Record, Refusal};

const SHEET: &str = concat!(
    "    3    2    6\n",
    "    0    5\n",
    "    1    0\n",
    "    2   10\n",
    "    0    0    1\n",
    "    1    0    2\n",
    "    1    1    1\n",
    "    1    2    1\n",
    "    2    1    2\n",
    "    2    2    2\n",
);

/// Doubled words over letters 1 and 2.
fn table_t() -> Machine {
    Machine::new(
        2,
        &[5, 0, 10],
        &[
            (0, 0, 1),
            (1, 0, 2),
            (1, 1, 1),
            (1, 2, 1),
            (2, 1, 2),
            (2, 2, 2),
        ],
    )
}

fn odd_ones() -> Machine {
    Machine::new(2, &[1, 2], &[(0, 1, 1), (0, 2, 0), (1, 1, 0), (1, 2, 1)])
}

fn some_two() -> Machine {
    Machine::new(2, &[1, 2], &[(0, 1, 0), (0, 2, 1), (1, 1, 1), (1, 2, 1)])
}

/// Asserts that the result is a refusal with this number and needed length.
fn refused<T: std::fmt::Debug>(result: Result<T, Refusal>, number: u8, needed: usize) {
    assert_eq!(result.unwrap_err(), Refusal { number, needed });
}

fn read(text: &str) -> Result<Record, Refusal> {
    let mut list = vec![7; 12_000];
    let result = sheet::read(text.as_bytes(), &mut list);
    if result.is_err() {
        assert_eq!(list, vec![7; 12_000]);
    }
    result
}

#[test]
fn runs_of_table_t() {
    let t = table_t();
    let doubled = [0, 65533, 0, 2, 3, 1, 65534, 4, 5, 65535];
    assert!(accepting(&t, &[1, 2, 1, 2], &doubled));
    assert!(accepting(&t, &[], &[0, 65533, 0, 1, 65534, 65535]));
    assert!(!accepting(&t, &[], &[0, 65533, 0, 1, 65534]));
    assert_eq!(find_run(&t, &[1, 2, 1, 2]).unwrap(), doubled);
    assert_eq!(find_run(&t, &[]).unwrap(), [0, 65533, 0, 1, 65534, 65535]);
    for word in [&[1][..], &[1, 2, 2], &[1, 2, 2, 1]] {
        assert_eq!(find_run(&t, word), None);
        assert!(!accepting(&t, word, &doubled));
    }
    assert!(!accepting(&t, &[], &[]));
    assert!(!accepting(&t, &[], &[65534]));
    assert!(!accepting(&t, &[], &[1]));
    assert!(!accepting(&t, &[], &[3]));
    assert!(!accepting(&t, &[], &[0, 6]));
    assert!(!accepting(&t, &[], &[0, 65532]));
}

#[test]
fn other_machines() {
    let m = Machine::new(2, &[1, 8, 0, 10], &[(0, 1, 1), (1, 2, 2), (2, 2, 3)]);
    assert_eq!(find_run(&m, &[1, 2, 2]).unwrap(), [0, 0, 1, 2]);
    let m = Machine::new(2, &[1, 8, 10], &[(0, 1, 1), (1, 1, 2)]);
    let mut word = vec![];
    for length in 0..=6 {
        word = vec![1; length];
        loop {
            assert_eq!(find_run(&m, &word), None);
            if !common::next_word(&mut word, 2) {
                break;
            }
        }
    }
    assert_eq!(word.len(), 6);
    // A state with marks 1, 2 and 4 accepts the empty word.
    let m = Machine::new(0, &[7], &[]);
    assert_eq!(find_run(&m, &[]).unwrap(), [0]);
    // Two rounds of empty copies at one position.
    let m = Machine::new(1, &[5, 8, 4, 10], &[(0, 0, 1), (1, 0, 2), (2, 0, 3)]);
    assert_eq!(
        find_run(&m, &[]).unwrap(),
        [0, 65533, 0, 65534, 65535, 1, 65533, 2, 65534, 65535]
    );
    // Buffering mode passes through a matching state.
    let m = Machine::new(
        1,
        &[5, 8, 0, 10],
        &[(0, 1, 1), (1, 1, 2), (2, 0, 3), (3, 1, 3)],
    );
    assert!(find_run(&m, &[1, 1, 1, 1]).is_some());
}

#[test]
fn one_move() {
    let t = table_t();
    let word = [1, 2, 1, 2];
    let config = |position, state, mode, start, end| Config {
        position,
        state,
        mode,
        start,
        end,
    };
    let go = |c, entry| step(&t, &word, c, entry);
    let start = Config::initial(0);
    assert_eq!(go(start, 65533), Some(config(0, 0, 1, 0, 0)));
    assert_eq!(go(start, 0), None);
    assert_eq!(go(start, 65534), None);
    assert_eq!(go(start, 65535), None);
    assert_eq!(
        go(config(2, 0, 0, 1, 1), 65533),
        Some(config(2, 0, 1, 2, 2))
    );
    assert_eq!(go(config(0, 1, 1, 0, 0), 2), Some(config(1, 1, 1, 0, 1)));
    assert_eq!(go(config(0, 1, 1, 0, 0), 3), None);
    assert_eq!(go(config(2, 1, 1, 0, 2), 1), Some(config(2, 2, 1, 0, 2)));
    assert_eq!(
        go(config(2, 2, 1, 0, 2), 65534),
        Some(config(2, 2, 2, 0, 2))
    );
    assert_eq!(go(config(2, 2, 1, 0, 2), 4), None);
    assert_eq!(go(config(2, 2, 2, 0, 2), 4), Some(config(3, 2, 2, 1, 2)));
    assert_eq!(go(config(2, 2, 2, 0, 2), 65535), None);
    assert_eq!(go(config(2, 2, 2, 1, 2), 4), None);
    assert_eq!(
        go(config(4, 2, 2, 2, 2), 65535),
        Some(config(4, 2, 0, 2, 2))
    );
    assert_eq!(go(config(4, 2, 0, 2, 2), 4), None);
    // Normal mode may move at a state that is neither buffering nor matching.
    assert_eq!(go(config(2, 1, 0, 0, 0), 2), Some(config(3, 1, 0, 0, 0)));
    // Not configurations: position past the end, absent state, bad stretches, modes above 2.
    assert_eq!(go(config(5, 1, 0, 0, 0), 1), None);
    assert_eq!(go(config(0, 3, 0, 0, 0), 1), None);
    assert_eq!(go(config(3, 1, 0, 7, 7), 1), None);
    assert_eq!(go(config(3, 1, 0, 1, 2), 1), None);
    assert_eq!(go(config(2, 1, 1, 0, 0), 1), None);
    assert_eq!(go(config(2, 2, 1, 0, 1), 65534), None);
    assert_eq!(go(config(2, 2, 2, 2, 1), 65535), None);
    assert_eq!(go(config(2, 2, 2, 3, 3), 65535), None);
    assert_eq!(go(config(2, 1, 3, 0, 0), 1), None);
    assert_eq!(go(config(2, 1, 255, 0, 0), 1), None);
}

#[test]
fn refusals_of_checking() {
    let (record, list) = table_t().record();
    let check = |record: &Record, list: &[u16], word: &[u8]| {
        let step = step_call(record, list, word, Config::initial(0), 65533).map(|_| ());
        let check = check_run_call(record, list, word, &[]).map(|accepts| assert!(!accepts));
        assert_eq!(step, check);
        step
    };
    assert_eq!(check(&record, &list, &[]), Ok(()));
    refused(check(&record, &list, &[3]), 8, 0);
    refused(check(&record, &list, &[0]), 8, 0);
    assert_eq!(check(&record, &list, &vec![1; 1_048_576]), Ok(()));
    refused(check(&record, &list, &vec![0; 1_048_577]), 9, 0);
    refused(check(&record, &list[..17], &vec![0; 1_048_577]), 16, 0);
    let broken = |change: fn(&mut Record, &mut Vec<u16>)| {
        let (mut record, mut list) = table_t().record();
        change(&mut record, &mut list);
        refused(check(&record, &list, &[0]), 16, 0);
    };
    broken(|r, _| r.states = 0);
    broken(|r, _| r.states = 65);
    broken(|r, _| r.states = 2);
    broken(|r, _| r.letters = 251);
    broken(|r, _| r.letters = 1);
    broken(|r, _| r.transitions = 4001);
    broken(|r, _| r.transitions = 7);
    broken(|r, _| r.transitions = usize::MAX);
    broken(|r, _| r.marks[1] = 12);
    broken(|r, _| r.marks[1] = 16);
    broken(|r, _| r.marks[1] = 255);
    broken(|r, _| r.marks[3] = 1);
    broken(|r, _| r.marks[63] = 8);
    broken(|_, l| l[0] = 3);
    broken(|_, l| l[16] = 3);
    broken(|_, l| l[17] = 3);
    broken(|_, l| l[0] = 2);
    broken(|_, l| l.swap(7, 10));
    broken(|_, l| l[10] = 1);
    // Rubbish past the count does not matter.
    let mut long = list.clone();
    long.extend([65535; 5]);
    assert_eq!(check(&record, &long, &[]), Ok(()));
    // With no letters every word but the empty one is refused.
    let (record, list) = Machine::new(0, &[3], &[]).record();
    assert_eq!(check(&record, &list, &[]), Ok(()));
    refused(check(&record, &list, &[1]), 8, 0);
}

#[test]
fn sheets() {
    assert_eq!(SHEET.len(), 145);
    let (record, list) = table_t().record();
    let mut read_list = vec![9; 20];
    assert_eq!(
        sheet::read(SHEET.as_bytes(), &mut read_list),
        Ok(record.clone())
    );
    assert_eq!(read_list[..18], list);
    assert_eq!(read_list[18..], [9, 9]);
    let mut written = vec![b'?'; 150];
    assert_eq!(sheet::write(&record, &list, &mut written), Ok(145));
    assert_eq!(&written[..145], SHEET.as_bytes());
    assert_eq!(&written[145..], b"?????");
    let mut short = vec![b'?'; 144];
    refused(sheet::write(&record, &list, &mut short), 19, 145);
    refused(sheet::write(&record, &list[..17], &mut short), 16, 0);
    assert_eq!(short, vec![b'?'; 144]);
    refused(sheet::read(SHEET.as_bytes(), &mut [0; 17]), 15, 18);
}

#[test]
fn refusals_of_sheets() {
    let change = |from: &str, to: &str| read(&SHEET.replacen(from, to, 1)).map(|_| ());
    // 1 whatever the bytes are.
    for length in 0..145 {
        refused(read(&SHEET[..length]), 1, 0);
    }
    refused(read("???"), 1, 0);
    refused(read(&"x".repeat(16)), 2, 0);
    refused(change("    3    2    6", "  007    2    6"), 2, 0);
    refused(change("    3    2    6", "         2    6"), 3, 0);
    refused(change("    3    2    6", "    3    2   6 "), 2, 0);
    refused(change("    3    2    6", "   +3    2    6"), 2, 0);
    refused(change("    3    2    6", "    3    2  6 6"), 2, 0);
    refused(change("    3    2    6", "    3   00    6"), 2, 0);
    refused(change("    0    5\n", "    0    5\r\n"), 2, 0);
    refused(change("    3    2    6", "    0    2    6"), 3, 0);
    refused(change("    3    2    6", "   65    2    6"), 3, 0);
    refused(change("    3    2    6", "65537    2    6"), 3, 0);
    refused(change("    3    2    6", "    3  251    6"), 3, 0);
    refused(change("    3    2    6", "    3    2 4001"), 3, 0);
    refused(change("    1    0\n", "    2    0\n"), 4, 0);
    refused(change("    1    0\n", "    1   16\n"), 4, 0);
    refused(change("    1    0\n", "    1   12\n"), 4, 0);
    refused(change("    1    0\n", "    1   15\n"), 4, 0);
    refused(change("    1    0\n", "    1  256\n"), 4, 0);
    refused(change("    0    0    1\n", "    3    0    1\n"), 5, 0);
    refused(change("    0    0    1\n", "    0    3    1\n"), 5, 0);
    refused(change("    0    0    1\n", "    0    0    3\n"), 5, 0);
    refused(change("    0    0    1\n", "65536    0    1\n"), 5, 0);
    refused(change("    1    2    1\n", "    1    1    1\n"), 6, 0);
    refused(change("    1    2    1\n", "    0    2    1\n"), 6, 0);
    refused(change("    1    2    1\n", "    0    3    1\n"), 5, 0);
    refused(read(&(SHEET.to_string() + "\n")), 7, 0);
    // 7 before 15, 3 in line one before 1 in line two.
    refused(
        sheet::read((SHEET.to_string() + "x").as_bytes(), &mut []),
        7,
        0,
    );
    refused(read("   65    2    6\n"), 3, 0);
    refused(read("    3    2    6\n"), 1, 0);
    // 64 states pass, 65 do not.
    let many = |states: usize| {
        let mut text = format!("{states:5}    0    0\n");
        for state in 0..states {
            text += &format!("{state:5}    0\n");
        }
        read(&text).map(|record| record.states)
    };
    assert_eq!(many(64), Ok(64));
    assert_eq!(many(1), Ok(1));
    refused(many(65), 3, 0);
    refused(many(0), 3, 0);
}

/// A blank column is 0 wherever a column is read.
#[test]
fn blank_columns() {
    for width in 0..=20 {
        assert_eq!(sheet::column(&vec![b' '; width]), Some(0));
    }
    let (record, list) = table_t().record();
    let is_t = |text: &str| {
        let mut read_list = vec![9; 20];
        assert_eq!(
            sheet::read(text.as_bytes(), &mut read_list),
            Ok(record.clone())
        );
        assert_eq!(read_list[..18], list);
        assert_eq!(sheet::filled(text.as_bytes()), SHEET.as_bytes());
    };
    is_t(SHEET);
    is_t(&SHEET.replace("    0", "     "));
    is_t(&SHEET.replace("    1    0    2\n", "    1         2\n"));
    is_t(&SHEET.replace("    0    5\n", "         5\n"));
    is_t(&SHEET.replace("    1    0\n", "    1     \n"));
    let change = |from: &str, to: &str| read(&SHEET.replacen(from, to, 1)).map(|_| ());
    refused(change("    3    2    6", "    3         6"), 5, 0);
    refused(change("    3    2    6", "    3    2     "), 7, 0);
    refused(change("    1    0\n", "         0\n"), 4, 0);
    refused(change("    1    0    2\n", "    0         1\n"), 6, 0);
    assert_eq!(change("    2    2    2\n", "    2    2     \n"), Ok(()));
    // Five spaces are filled where a column stands, and nowhere else.
    let filled = |text: &str| String::from_utf8(sheet::filled(text.as_bytes())).unwrap();
    assert_eq!(filled(""), "");
    assert_eq!(filled("    "), "    ");
    assert_eq!(filled("     "), "    0");
    assert_eq!(filled("         "), "    0    ");
    assert_eq!(filled("\n     \n\n     "), "\n    0\n\n    0");
    assert_eq!(filled("    1     \n"), "    1    0\n");
    assert_eq!(filled("x         y"), "x        0y");
    assert_eq!(filled("  x     y  "), "  x     y  ");
    assert_eq!(filled("    \n     \n"), "    \n    0\n");
}

#[test]
fn recognition() {
    let (record, list) = table_t().record();
    let mut run = vec![9; 2304];
    assert_eq!(
        recognize(&record, &list, &[1, 2, 1, 2], &mut run),
        Ok(Some(10))
    );
    assert_eq!(run[..10], [0, 65533, 0, 2, 3, 1, 65534, 4, 5, 65535]);
    assert!(run[10..].iter().all(|&entry| entry == 9));
    assert_eq!(recognize(&record, &list, &[1; 255], &mut run), Ok(None));
    assert_eq!(
        recognize(&record, &list, &[1; 254], &mut run),
        Ok(Some(254 + 6))
    );
    refused(recognize(&record, &list, &[0; 256], &mut run), 9, 0);
    refused(recognize(&record, &list, &[0; 255], &mut run), 8, 0);
    refused(recognize(&record, &list, &[1], &mut run[..17]), 17, 18);
    refused(recognize(&record, &list[1..], &[0], &mut []), 16, 0);
    assert_eq!(recognize(&record, &list, &[1], &mut run[..18]), Ok(None));
}

#[test]
fn written_words() {
    let mut word = vec![0; 255];
    assert_eq!(translate(b"az-'", &mut word), Ok(4));
    assert_eq!(word[..5], [1, 26, 27, 28, 0]);
    assert_eq!(translate(&[b'q'; 255], &mut word), Ok(255));
    assert_eq!(translate(b"", &mut []), Ok(0));
    refused(translate(&[b'A'; 256], &mut word), 9, 0);
    refused(translate(b"aA", &mut []), 8, 0);
    refused(translate(b"ab", &mut [0]), 18, 2);
}

#[test]
fn joining() {
    let (t, t_list) = table_t().record();
    let (odd, odd_list) = odd_ones().record();
    let mut list = vec![9; 40];
    let joined = join(&t, &t_list, &odd, &odd_list, &mut list).unwrap();
    assert_eq!(
        (joined.states, joined.letters, joined.transitions),
        (6, 2, 12)
    );
    assert_eq!(joined.marks[..6], [5, 4, 0, 0, 8, 10]);
    assert!(joined.machine(&list).is_ok());
    assert_eq!(list[..6], [0, 0, 2, 1, 0, 3]);
    assert_eq!(list[36..], [9; 4]);
    refused(join(&t, &t_list, &odd, &odd_list, &mut [0; 35]), 15, 36);
    refused(join(&t, &t_list[1..], &odd, &odd_list, &mut []), 16, 0);
    refused(join(&t, &t_list, &odd, &odd_list[1..], &mut []), 16, 0);
    refused(join(&t, &t_list, &t, &t_list, &mut []), 10, 0);
    let epsilon = Machine::new(2, &[1, 2], &[(0, 0, 1)]);
    let (epsilon, epsilon_list) = epsilon.record();
    refused(join(&t, &t_list, &epsilon, &epsilon_list, &mut []), 10, 0);
    let (other, other_list) = Machine::new(3, &[1; 64], &[]).record();
    refused(join(&t, &t_list, &other, &other_list, &mut []), 11, 0);
    let (large, large_list) = Machine::new(2, &[1; 22], &[]).record();
    refused(join(&t, &t_list, &large, &large_list, &mut []), 12, 0);
    let (large, large_list) = Machine::new(2, &[1; 21], &[]).record();
    assert!(join(&t, &t_list, &large, &large_list, &mut [0; 126]).is_ok());
    // 8 states with every transition on one letter: 64 x 64 joined transitions.
    let mut all = Vec::new();
    for from in 0..8 {
        for to in 0..8 {
            all.push((from, 1, to));
        }
    }
    let (full, full_list) = Machine::new(1, &[3; 8], &all).record();
    refused(join(&full, &full_list, &full, &full_list, &mut []), 13, 0);
}

#[test]
fn copy_lists() {
    let (record, list) = table_t().record();
    let mut out = vec![9; 4];
    let run = [0, 65533, 0, 2, 3, 1, 65534, 4, 5, 65535];
    let word = [1, 2, 1, 2];
    let call = |word: &[u8], run: &[u16], out: &mut [u16]| copies(&record, &list, word, run, out);
    assert_eq!(
        call(&word, &run, &mut out),
        Ok(Copies { count: 1, total: 2 })
    );
    assert_eq!(out, [0, 2, 9, 9]);
    refused(call(&word, &run, &mut [0]), 20, 2);
    refused(call(&word, &run[..9], &mut []), 14, 0);
    refused(call(&[], &[], &mut []), 14, 0);
    refused(call(&[3], &[], &mut []), 8, 0);
    refused(call(&[3; 256], &[], &mut []), 9, 0);
    refused(copies(&record, &list[1..], &[3; 256], &[], &mut []), 16, 0);
    // An empty copy alone: nothing is listed, and no element is needed.
    let run = [0, 65533, 0, 1, 65534, 65535];
    assert_eq!(all_copies(&table_t(), &[], &run), Some(vec![(0, 0)]));
    let answer = call(&[], &run, &mut []);
    assert_eq!(answer, Ok(Copies { count: 0, total: 0 }));
    refused(call(&[], &run[..5], &mut []), 14, 0);
    assert_eq!(all_copies(&table_t(), &[], &run[..5]), None);
    // Two copies, the second one empty.
    let m = Machine::new(1, &[5, 10], &[(0, 1, 1), (0, 0, 1), (1, 1, 1), (1, 0, 0)]);
    let (record, list) = m.record();
    let run = [0, 65533, 1, 65534, 3, 65535, 2, 65533, 0, 65534, 65535];
    assert!(accepting(&m, &[1, 1], &run));
    assert_eq!(all_copies(&m, &[1, 1], &run), Some(vec![(0, 1), (2, 0)]));
    let mut out = vec![9; 4];
    let answer = copies(&record, &list, &[1, 1], &run, &mut out);
    assert_eq!(answer, Ok(Copies { count: 1, total: 1 }));
    assert_eq!(out, [0, 1, 9, 9]);
    refused(copies(&record, &list, &[1, 1], &run, &mut [9]), 20, 2);
    // Empty copies at the start, twice in a row between two others, and at the end.
    let empty = [65533, 0, 65534, 65535, 2];
    let one = [65533, 1, 65534, 3, 65535, 2];
    let mut run = vec![0];
    for part in [&empty[..], &one, &empty, &empty, &one, &empty] {
        run.extend(part);
    }
    // It ends in state 1.
    run.pop();
    let word = [1; 4];
    assert_eq!(
        all_copies(&m, &word, &run),
        Some(vec![(0, 0), (0, 1), (2, 0), (2, 0), (2, 1), (4, 0)])
    );
    out.push(9);
    let answer = copies(&record, &list, &word, &run, &mut out);
    assert_eq!(answer, Ok(Copies { count: 2, total: 2 }));
    assert_eq!(out, [0, 1, 2, 1, 9]);
    refused(copies(&record, &list, &word, &run, &mut out[..3]), 20, 4);
    assert_eq!(out, [0, 1, 2, 1, 9]);
    // A run without copies has an empty copy list.
    let (record, list) = some_two().record();
    let answer = copies(&record, &list, &[2], &[0, 1], &mut []);
    assert_eq!(answer, Ok(Copies { count: 0, total: 0 }));
}

/// The page of T and 1 2 1 2.
const PAGE: &str = concat!(
    "     0     0     0     0     0\n",
    "     1     0     1     0     0\n",
    "     2     1     1     0     0\n",
    "     3     1     1     1     1\n",
    "     4     1     1     2     2\n",
    "     5     2     1     2     2\n",
    "     6     2     2     2     2\n",
    "     7     2     2     3     1\n",
    "     8     2     2     4     0\n",
    "     9     2     0     4     0\n",
    "     0     2     4\n",
);

#[test]
fn pages() {
    let (record, list) = table_t().record();
    let run = [0, 65533, 0, 2, 3, 1, 65534, 4, 5, 65535];
    let word = [1, 2, 1, 2];
    let call =
        |word: &[u8], run: &[u16], out: &mut [u8]| page::write(&record, &list, word, run, out);
    assert_eq!(PAGE.len(), 31 * 10 + 19);
    let mut out = vec![7; 331];
    assert_eq!(call(&word, &run, &mut out), Ok(329));
    assert_eq!(out, [PAGE.as_bytes(), &[7, 7]].concat());
    refused(call(&word, &run, &mut out[..328]), 19, 329);
    assert_eq!(out, [PAGE.as_bytes(), &[7, 7]].concat());
    refused(call(&word, &run[..9], &mut []), 14, 0);
    refused(call(&word, &[], &mut []), 14, 0);
    assert_eq!(page_text(&table_t(), &word, &run[..9]), None);
    refused(call(&[3], &[], &mut []), 8, 0);
    refused(call(&[3; 256], &[], &mut []), 9, 0);
    refused(call(&[3], &[0; 100_000], &mut []), 9, 0);
    refused(call(&[3], &[0; 99_999], &mut []), 8, 0);
    refused(
        page::write(&record, &list[1..], &[3; 256], &[], &mut []),
        16,
        0,
    );
    // A copy of no letters: its two changes of mode have lines, and nothing is read or stored.
    let page = concat!(
        "     0     0     0     0     0\n",
        "     1     0     1     0     0\n",
        "     2     1     1     0     0\n",
        "     3     2     1     0     0\n",
        "     4     2     2     0     0\n",
        "     5     2     0     0     0\n",
        "     0     0     0\n",
    );
    let run = [0, 65533, 0, 1, 65534, 65535];
    assert_eq!(page_text(&table_t(), &[], &run).as_deref(), Some(page));
    // Plain letters alone.
    let page = concat!(
        "     0     0     0     0     0\n",
        "     1     0     0     1     0\n",
        "     2     1     0     2     0\n",
        "     2     0     2\n",
    );
    let run = [0, 0, 1];
    assert_eq!(page_text(&some_two(), &[1, 2], &run).as_deref(), Some(page));
    // A plain letter, two letters copied, a letter copied: 1 + 2 x 3 letters. A copy begins behind letters that are read.
    let m = Machine::new(
        2,
        &[1, 4, 0, 10],
        &[
            (0, 2, 1),
            (1, 0, 2),
            (2, 0, 3),
            (2, 1, 2),
            (2, 2, 2),
            (3, 0, 1),
            (3, 1, 3),
            (3, 2, 3),
        ],
    );
    let run = [
        0, 0, 65533, 1, 3, 4, 2, 65534, 6, 7, 65535, 5, 65533, 1, 4, 2, 65534, 7, 65535,
    ];
    let page = concat!(
        "     0     0     0     0     0\n",
        "     1     1     0     1     0\n",
        "     2     1     1     1     0\n",
        "     3     2     1     1     0\n",
        "     4     2     1     2     1\n",
        "     5     2     1     3     2\n",
        "     6     3     1     3     2\n",
        "     7     3     2     3     2\n",
        "     8     3     2     4     1\n",
        "     9     3     2     5     0\n",
        "    10     3     0     5     0\n",
        "    11     1     0     5     0\n",
        "    12     1     1     5     0\n",
        "    13     2     1     5     0\n",
        "    14     2     1     6     1\n",
        "    15     3     1     6     1\n",
        "    16     3     2     6     1\n",
        "    17     3     2     7     0\n",
        "    18     3     0     7     0\n",
        "     1     3     7\n",
    );
    let word = [2, 1, 2, 1, 2, 2, 2];
    assert_eq!(page_text(&m, &word, &run).as_deref(), Some(page));
    // The start alone, and the longest run: an epsilon circle of one state.
    let m = Machine::new(0, &[3], &[(0, 0, 0)]);
    let start = "     0     0     0     0     0\n     0     0     0\n";
    assert_eq!(page_text(&m, &[], &[0]).as_deref(), Some(start));
    let (record, list) = m.record();
    let mut out = vec![7; 31 * 99_999 + 19];
    assert_eq!(
        page::write(&record, &list, &[], &[0; 99_999], &mut out),
        Ok(3_099_988)
    );
    let end = " 99998     0     0     0     0\n     0     0     0\n";
    assert!(out.ends_with(end.as_bytes()));
    refused(
        page::write(&record, &list, &[], &[0; 100_000], &mut out),
        9,
        0,
    );
}

#[test]
fn common_words() {
    let (t, t_list) = table_t().record();
    let (odd, odd_list) = odd_ones().record();
    let (two, two_list) = some_two().record();
    let (mut word, mut first, mut second) = ([9; 4], [9; 30], [9; 5]);
    let answer = common::search(
        &t,
        &t_list,
        &odd,
        &odd_list,
        &mut word,
        &mut first,
        &mut second,
        9,
    );
    assert_eq!(answer, Ok(None));
    let answer = common::search(
        &t,
        &t_list,
        &two,
        &two_list,
        &mut word,
        &mut first,
        &mut second,
        9,
    );
    let counts = Common {
        letters: 2,
        first_entries: 8,
        second_entries: 3,
    };
    assert_eq!(answer, Ok(Some(counts)));
    assert_eq!(word, [2, 2, 9, 9]);
    assert_eq!(first[..8], [0, 65533, 0, 3, 1, 65534, 5, 65535]);
    assert_eq!(second, [0, 1, 3, 9, 9]);
    let short = |word: &mut [u8], first: &mut [u16], second: &mut [u16]| {
        common::search(&t, &t_list, &two, &two_list, word, first, second, 9)
    };
    refused(short(&mut [0], &mut [], &mut []), 18, 2);
    refused(short(&mut [0; 2], &mut [0; 26], &mut []), 17, 27);
    refused(short(&mut [0; 2], &mut [0; 27], &mut [0; 2]), 17, 3);
    assert!(short(&mut [0; 2], &mut [0; 27], &mut [0; 3]).is_ok());
}

#[test]
fn yes_or_no() {
    let (record, list) = table_t().record();
    assert_eq!(accepts(&record, &list, &[]), Ok(true));
    assert_eq!(accepts(&record, &list, &[1, 2, 1, 2]), Ok(true));
    assert_eq!(accepts(&record, &list, &[1, 2, 2, 1]), Ok(false));
    assert_eq!(accepts(&record, &list, &[1; 254]), Ok(true));
    assert_eq!(accepts(&record, &list, &[1; 255]), Ok(false));
    refused(accepts(&record, &list, &[1; 256]), 9, 0);
    refused(accepts(&record, &list, &[0; 256]), 9, 0);
    refused(accepts(&record, &list, &[1, 0]), 8, 0);
    refused(accepts(&record, &list, &[3; 255]), 8, 0);
    refused(accepts(&record, &list[..17], &[0; 256]), 16, 0);
    // 1 2 1 2, the empty word, 1 2 2 1, 3, 256 letters 0, 1 1; a letter behind the last end.
    let letters = [&[1, 2, 1, 2, 1, 2, 2, 1, 3][..], &[0; 256], &[1, 1, 9]].concat();
    let ends = [4, 4, 8, 9, 265, 267];
    let mut answers = [7; 8];
    let words = accept_words(&record, &list, &letters, &ends, &mut answers);
    assert_eq!(words, Ok(6));
    assert_eq!(answers, [1, 1, 0, 8, 9, 1, 7, 7]);
    assert_eq!(accept_words(&record, &list, &[], &[], &mut []), Ok(0));
    // 16, then 34, then 35.
    let refuses = |list: &[u16], ends: &[usize], length: usize, number, needed| {
        let mut answers = vec![7; length];
        let answered = accept_words(&record, list, &letters, ends, &mut answers);
        refused(answered, number, needed);
        assert_eq!(answers, vec![7; length]);
    };
    refuses(&list, &ends, 5, 35, 6);
    refuses(&list, &[0], 0, 35, 1);
    for ends in [
        &[4, 3][..],
        &[269],
        &[0, 268, 269],
        &[usize::MAX],
        &[268, 0, 268],
    ] {
        for length in [0, 10] {
            refuses(&list, ends, length, 34, 0);
            refuses(&list[..17], ends, length, 16, 0);
        }
    }
}

#[test]
fn listings() {
    let list = |input: &[u8]| {
        let output = listing(Some(SHEET.as_bytes()), input);
        String::from_utf8(output).unwrap()
    };
    let header = "  NO.  ANS  REF\n";
    let expected = concat!(
        "  NO.  ANS  REF\n",
        "    1    1    0\n",
        "    2    1    0\n",
        "    3    0    0\n",
        "    4    2    8\n",
    );
    let words = "\n    1    2    1    2\n    1    2    2    1\n    3\n";
    assert_eq!(list(words.as_bytes()), expected);
    assert_eq!(list(words.trim_end().as_bytes()), expected);
    assert_eq!(list(b""), header);
    assert_eq!(list(b"\n"), format!("{header}    1    1    0\n"));
    let one = |line: &str| {
        let text = list(line.as_bytes());
        text.strip_prefix(header).unwrap().to_string()
    };
    let ones = "    1".repeat(254);
    assert_eq!(one(&ones), "    1    1    0\n");
    assert_eq!(one(&(ones.clone() + "\n")), "    1    1    0\n");
    let ones = ones + "    1";
    assert_eq!(ones.len(), 1_275);
    assert_eq!(one(&ones), "    1    0    0\n");
    assert_eq!(one(&(ones.clone() + "\n")), "    1    0    0\n");
    assert_eq!(one(&(ones.clone() + " ")), "    1    2    9\n");
    assert_eq!(one(&(ones + "    1")), "    1    2    9\n");
    assert_eq!(one(&"?".repeat(1_276)), "    1    2    9\n");
    assert_eq!(one(&"?".repeat(1_275)), "    1    2    2\n");
    assert_eq!(one(&"?".repeat(801)), "    1    2    2\n");
    assert_eq!(one("    3    x"), "    1    2    2\n");
    assert_eq!(one("    3    "), "    1    2    2\n");
    assert_eq!(one("    1\r\n"), "    1    2    2\n");
    assert_eq!(one("    \t"), "    1    2    2\n");
    assert_eq!(one("    \0"), "    1    2    2\n");
    assert_eq!(one("  257"), "    1    2    8\n");
    assert_eq!(one("    0"), "    1    2    8\n");
    assert_eq!(one("     "), "    1    2    8\n");
    assert_eq!(one("    1     "), "    1    2    8\n");
    assert_eq!(one("         x"), "    1    2    2\n");
    assert_eq!(one("    "), "    1    2    2\n");
    assert_eq!(one("      "), "    1    2    2\n");
    assert_eq!(one(&" ".repeat(1_275)), "    1    2    8\n");
    assert_eq!(one(&" ".repeat(1_276)), "    1    2    9\n");
    assert_eq!(listing(None, b"\n"), b"SHEET REFUSED    1\n");
    assert_eq!(listing(Some(b""), b"\n"), b"SHEET REFUSED    1\n");
    assert_eq!(listing(Some(&[b'x'; 16]), b"\n"), b"SHEET REFUSED    2\n");
    let many = list(&vec![b'\n'; 100_001]);
    assert_eq!(many.len(), 16 * 100_000);
    assert!(many.ends_with("99999    1    0\n"));
}
