//! `zagvirk why` as a process.

mod common;

use common::{zagvirk, Place};

const ABBA: &str = "no: the whole word is read, but no run accepts: some are still storing in states 1, 2; some have letters \
                    left to match in state 2\n";

#[test]
fn why_not() {
    let place = Place::with_table_t();
    place.file("two.txt", common::SOME_TWO);
    place.file("no-start.txt", "    1    1    0\n    0    2\n");
    place.file(
        "one.txt",
        "    2    2    1\n    0    1\n    1    2\n    0    1    1\n",
    );
    let why = |table: &str, word: &str| zagvirk(["why", table, word]).inside(&place).run();
    why("table.txt", "abab").is(0, "yes\n", "");
    why("table.txt", "").is(0, "yes\n", "");
    why("table.txt", "abba").is(1, ABBA, "");
    why("table.txt", "1 2 2 1").is(1, ABBA, "");
    let ends =
        "no: the whole word is read, but no run accepts: some end in state 0, which is not final\n";
    why("two.txt", "aaa").is(1, ends, "");
    why("no-start.txt", "a").is(1, "no: no run starts: no state is initial\n", "");
    // Letters as the word is written.
    let stuck = |letter: &str| {
        format!(
            "no: no run reads past letter 1 of the word, and the next one is {letter}: in normal mode no transition by \
             {letter} leaves state 1\n"
        )
    };
    why("one.txt", "ab").is(1, &stuck("b"), "");
    why("one.txt", "1 2").is(1, &stuck("2"), "");
}

#[test]
fn the_states_as_a_table() {
    let place = Place::with_table_t();
    let rows = "\
read  letter  normal  storing  matching
   0          0 2     0 1 2    2
   1  a       -       1 2      2
   2  b       -       1 2      2
   3  b       -       1 2      2
   4  a       -       1 2      2
";
    zagvirk(["why", "--table", "table.txt", "abba"])
        .inside(&place)
        .run()
        .is(1, &format!("{ABBA}{rows}"), "");
    let rows = "\
read  letter  normal  storing  matching
   0          0 2     0 1 2    2
   1  2       -       1 2      2
   2  2       2       1 2      2
";
    zagvirk(["why", "table.txt", "2 2", "--table"])
        .inside(&place)
        .run()
        .is(0, &format!("yes\n{rows}"), "");
}

/// The largest table of states: 64 states, 255 letters. Its rows are as wide as they need to be.
#[test]
fn a_large_table() {
    let place = Place::new();
    let mut sheet = format!("{:>5}{:>5}{:>5}\n", 64, 1, 64 * 62);
    for state in 0..64 {
        sheet.push_str(&format!("{state:>5}{:>5}\n", 1));
    }
    for from in 0..64 {
        for to in 0..62 {
            sheet.push_str(&format!("{from:>5}{:>5}{to:>5}\n", 1));
        }
    }
    place.file("table.txt", sheet);
    let ran = zagvirk(["why", "--table", "table.txt", &"a".repeat(255)])
        .inside(&place)
        .run();
    assert_eq!((ran.status, ran.out.lines().count()), (1, 258));
    let last = ran.out.lines().last().expect("a row");
    assert!(last.starts_with(" 255  a       0 1 2 3 "), "{last}");
}
