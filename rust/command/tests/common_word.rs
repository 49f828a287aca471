//! `zagvirk common` as a process. (The folder `common` has the helpers of all tests.)

mod common;

use common::{zagvirk, Place};

/// T with "some 2" and with "odd number of 1".
fn tables() -> Place {
    let place = Place::with_table_t();
    place.file("two.txt", common::SOME_TWO);
    place.file("odd.txt", common::ODD_ONES);
    place
}

#[test]
fn a_shortest_word_with_both_runs() {
    let place = tables();
    let expected = "\
common word: bb (2 letters)
run of table.txt:
0  start in state 0
1  begin storing in state 0
2  nothing read by transition 0: 0 → 1, storing, nothing yet
3  read b by transition 3: 1 → 1, storing \"b\"
4  nothing read by transition 1: 1 → 2, storing \"b\"
5  begin matching in state 2, still to match \"b\"
6  read b by transition 5: 2 → 2, nothing left to match
7  back to normal in state 2
run of two.txt:
0  start in state 0
1  read b by transition 1: 0 → 1, normal
2  read b by transition 3: 1 → 1, normal
";
    let common = |arguments: &[&str]| zagvirk(arguments).inside(&place).run();
    common(&["common", "table.txt", "two.txt"]).is(0, expected, "");
    let numbers = common(&["common", "--letters", "table.txt", "two.txt"]);
    assert!(numbers.out.starts_with("common word: 2 2 (2 letters)\n"));
    common(&["common", "table.txt", "two.txt", "--raw"]).is(
        0,
        "2 2\n0 65533 0 3 1 65534 5 65535\n0 1 3\n",
        "",
    );
    for raw in [&[][..], &["--raw"]] {
        let arguments = [&["common", "table.txt", "odd.txt"], raw].concat();
        common(&arguments).is(1, "no common word\n", "");
    }
    zagvirk(["common", "-", "two.txt"])
        .inside(&place)
        .input(common::TABLE_T)
        .run()
        .is(0, &expected.replace("table.txt", "(standard input)"), "");
}

#[test]
fn the_empty_word() {
    let place = tables();
    place.file(
        "all.txt",
        "    1    2    2\n    0    3\n    0    1    0\n    0    2    0\n",
    );
    let common = |arguments: &[&str]| zagvirk(arguments).inside(&place).run();
    let ran = common(&["common", "table.txt", "all.txt"]);
    assert!(ran
        .out
        .starts_with("common word: the empty word\nrun of table.txt:\n0  start"));
    assert_eq!(ran.status, 0);
    common(&["common", "--raw", "table.txt", "all.txt"]).is(
        0,
        "\n0 65533 0 1 65534 65535\n0\n",
        "",
    );
}

/// One copy over letter 1: storing goes round 31 states and matching round 32, each to one letter before its begin. So
/// the copy has 31 x 32 - 1 letters, which is more than 255, and the word twice as many.
#[test]
fn a_long_word() {
    let (p, q) = (31, 32);
    let mut transitions = vec![(0, 0, 1), (p, 0, 1 + p)];
    transitions.extend((0..p).map(|i| (1 + i, 1, 1 + (i + 1) % p)));
    transitions.extend((0..q).map(|i| (1 + p + i, 1, 1 + p + (i + 1) % q)));
    transitions.sort_unstable();
    let mut sheet = format!(
        "{:>5}{:>5}{:>5}\n    0    5\n",
        1 + p + q,
        1,
        transitions.len()
    );
    for state in 1..=p + q {
        let mark = match state {
            state if state == p + q => 10,
            state if state > p => 8,
            _ => 0,
        };
        sheet.push_str(&format!("{state:>5}{mark:>5}\n"));
    }
    for (from, letter, to) in &transitions {
        sheet.push_str(&format!("{from:>5}{letter:>5}{to:>5}\n"));
    }
    let place = Place::new();
    place.file("table.txt", sheet);
    place.file("all.txt", "    1    1    1\n    0    3\n    0    1    0\n");
    let letters = 2 * (p * q - 1);
    let raw = zagvirk(["common", "--raw", "table.txt", "all.txt"])
        .inside(&place)
        .run();
    let lines: Vec<&str> = raw.out.lines().collect();
    assert_eq!((raw.status, lines.len()), (0, 3));
    assert_eq!(lines[0].split(' ').count(), letters);
    let ran = zagvirk(["common", "table.txt", "all.txt"])
        .inside(&place)
        .run();
    assert_eq!(ran.status, 0);
    let word = "a".repeat(letters);
    assert!(ran
        .out
        .starts_with(&format!("common word: {word} ({letters} letters)\n")));
    let entries: usize = lines[1..].iter().map(|run| run.split(' ').count()).sum();
    assert_eq!(ran.out.lines().count(), 3 + entries);
    assert!(ran
        .out
        .contains("storing \"aaaaaaaaaaaa…aaaaaaaaaaaa\" (991 letters)\n"));
    // The same word and run are good for the run checker, from a file.
    place.file("run", lines[1]);
    zagvirk(["check-run", "table.txt", &word, "@run"])
        .inside(&place)
        .run()
        .is(0, "yes\n", "");
    place.file("run", lines[1].trim_end_matches(" 65535"));
    let ran = zagvirk(["check-run", "table.txt", lines[0], "@run"])
        .inside(&place)
        .run();
    let sentence =
        "every entry is allowed, but the run does not accept where it ends: it is still matching";
    ran.is(1, &format!("no: {sentence}\n"), "");
}

/// A table of one state and so many letters, each of which leads to itself.
fn all_words(letters: usize) -> String {
    let mut sheet = format!("    1{letters:>5}{letters:>5}\n    0    3\n");
    for letter in 1..=letters {
        sheet.push_str(&format!("    0{letter:>5}    0\n"));
    }
    sheet
}

#[test]
fn letters_without_a_sign() {
    let place = Place::new();
    // The word 29 29 by a copy.
    place.file(
        "table.txt",
        "    2   29    2\n    0    5\n    1   10\n    0   29    1\n    1   29    1\n",
    );
    place.file("all.txt", all_words(29));
    let ran = zagvirk(["common", "table.txt", "all.txt"])
        .inside(&place)
        .run();
    assert!(
        ran.out.starts_with("common word: 29 29 (2 letters)\n"),
        "{ran:?}"
    );
    assert!(ran
        .out
        .contains("2  read letter 29 by transition 0: 0 → 1, storing 29\n"));
}

#[test]
fn tables_that_are_refused() {
    let place = tables();
    place.file("three.txt", all_words(3));
    place.file(
        "epsilon.txt",
        "    2    2    2\n    0    1\n    1    2\n    0    0    1\n    0    1    1\n",
    );
    place.file("eight.txt", complete(8, 2));
    place.file("nine.txt", complete(9, 2));
    for command in ["common", "join"] {
        let ask =
            |first: &str, second: &str| zagvirk([command, first, second]).inside(&place).run();
        ask("table.txt", "table.txt").is(
            2,
            "",
            "table.txt:2: column 2: state 0 has mark 5 (4, buffering), and the second table must be plain (refusal 10)\n",
        );
        ask("two.txt", "table.txt").is(
            2,
            "",
            "table.txt:2: column 2: state 0 has mark 5 (4, buffering), and the second table must be plain; two.txt is \
             plain, so give the two in the other order (refusal 10)\n",
        );
        ask("table.txt", "epsilon.txt").is(
            2,
            "",
            "epsilon.txt:4: column 2: transition 0 (0 → 1) reads nothing, and the second table must be plain (refusal 10)\n",
        );
        ask("table.txt", "three.txt").is(
            2,
            "",
            "three.txt:1: column 2: 3 letters, and table.txt has 2; both tables must have the same letters (refusal 11)\n",
        );
        ask("eight.txt", "nine.txt").is(
            2,
            "",
            "eight.txt, nine.txt: 8 x 9 = 72 joined states, at most 64 are allowed; use smaller tables (refusal 12)\n",
        );
        ask("eight.txt", "eight.txt").is(
            2,
            "",
            "eight.txt, eight.txt: 8192 joined transitions, at most 4000 are allowed; use smaller tables (refusal 13)\n",
        );
    }
}

/// The table with a transition from each state by each letter to each state.
fn complete(states: usize, letters: usize) -> String {
    let count = states * letters * states;
    let mut sheet = format!("{states:>5}{letters:>5}{count:>5}\n");
    for state in 0..states {
        sheet.push_str(&format!("{state:>5}    3\n"));
    }
    for from in 0..states {
        for letter in 1..=letters {
            for to in 0..states {
                sheet.push_str(&format!("{from:>5}{letter:>5}{to:>5}\n"));
            }
        }
    }
    sheet
}
