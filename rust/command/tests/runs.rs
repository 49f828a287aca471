//! `zagvirk run` and `zagvirk check-run` as processes; the examples of the help texts.

mod common;

use common::{ends_quietly_when_closed, fails_on_full_device, zagvirk, Place};
use std::path::Path;
use std::process::Command;

const RUN_OF_ABAB: &str = "0 65533 0 2 3 1 65534 4 5 65535";

const ABAB_IN_WORDS: &str = "\
0  start in state 0
1  begin storing in state 0
2  nothing read by transition 0: 0 → 1, storing, nothing yet
3  read a by transition 2: 1 → 1, storing \"a\"
4  read b by transition 3: 1 → 1, storing \"ab\"
5  nothing read by transition 1: 1 → 2, storing \"ab\"
6  begin matching in state 2, still to match \"ab\"
7  read a by transition 4: 2 → 2, still to match \"b\"
8  read b by transition 5: 2 → 2, nothing left to match
9  back to normal in state 2
1 copy, 2 letters:
  letters 1 to 2: \"ab\"
";

const NOTHING_IN_WORDS: &str = "\
0  start in state 0
1  begin storing in state 0
2  nothing read by transition 0: 0 → 1, storing, nothing yet
3  nothing read by transition 1: 1 → 2, storing, nothing yet
4  begin matching in state 2, nothing left to match
5  back to normal in state 2
no copy
";

const WHY: &str = "zagvirk: 'zagvirk why' with the same arguments says why not\n";

#[test]
fn a_run_in_words() {
    let place = Place::with_table_t();
    let run = |arguments: &[&str]| zagvirk(arguments).inside(&place).run();
    run(&["run", "table.txt", "abab"]).is(0, ABAB_IN_WORDS, "");
    run(&["run", "table.txt", "abba"]).is(1, "no\n", WHY);
    run(&["run", "--raw", "table.txt", "abab"]).is(0, &format!("{RUN_OF_ABAB}\n"), "");
    run(&["run", "table.txt", "1 2 1 2", "--raw"]).is(0, &format!("{RUN_OF_ABAB}\n"), "");
    run(&["run", "--raw", "table.txt", "abba"]).is(1, "no\n", "");
    run(&["run", "--raw", "table.txt", ""]).is(0, "0 65533 0 1 65534 65535\n", "");
    run(&["run", "table.txt", ""]).is(0, NOTHING_IN_WORDS, "");
    let table = place.read("table.txt");
    zagvirk(["run", "-", "abab"])
        .input(table)
        .run()
        .is(0, ABAB_IN_WORDS, "");
}

#[test]
fn a_run_with_numbers() {
    let place = Place::with_table_t();
    let ran = zagvirk(["run", "table.txt", "2 2"]).inside(&place).run();
    assert_eq!(ran.status, 0);
    let lines: Vec<&str> = ran.out.lines().collect();
    assert_eq!(
        lines[3],
        "3  read letter 2 by transition 3: 1 → 1, storing 2"
    );
    assert_eq!(lines[lines.len() - 1], "  letter 1: 2");
}

/// Every word of every folder of `data/machines`: the run is there exactly if the answer is yes, `check-run` takes it, and
/// without its last entry it does not.
#[test]
fn runs_of_the_machines() {
    let mut runs = 0;
    for (table, word, accepted) in &common::words_of_the_machines(25) {
        let ran = zagvirk(["run", "--raw", table, word]).run();
        assert_eq!(ran.status, i32::from(!accepted), "{table} {word}");
        if !accepted {
            continue;
        }
        let run = ran.out.trim_end();
        zagvirk(["check-run", table, word, run])
            .run()
            .is(0, "yes\n", "");
        let shorter = run.rsplit_once(' ').map_or("", |(front, _)| front);
        let ran = zagvirk(["check-run", table, word, shorter]).run();
        // A run of the empty word may accept and go on.
        let accepts = ran.status == 0 && ran.out == "yes\n";
        assert!(
            accepts || (ran.status == 1 && ran.out.starts_with("no: ")),
            "{ran:?}"
        );
        runs += 1;
    }
    println!("{runs} runs checked");
    assert!(runs > 100);
}

#[test]
fn runs_are_checked() {
    let place = Place::with_table_t();
    place.file("run", "0 65533\n0 2 3\t1\r\n65534 4 5 65535\n");
    let check = |word: &str, run: &str| {
        let call = zagvirk(["check-run", "table.txt", word, run]);
        call.inside(&place)
            .input("0 65533 0 2 3 1 65534 4 5 65535")
            .run()
    };
    check("abab", RUN_OF_ABAB).is(0, "yes\n", "");
    check("abab", "@run").is(0, "yes\n", "");
    check("abab", "-").is(0, "yes\n", "");
    for (run, sentence) in [
        ("", "the run is empty: it has no start state"),
        ("1", "entry 0 names start state 1, which is not initial"),
        ("3", "entry 0 names start state 3, and there are 3 states, numbered from 0"),
        (
            "0 65533 0 2 3 1 65534 65535",
            "entry 7, back to normal, is not allowed: 2 letters are left to match",
        ),
        (
            "0 0",
            "entry 1, transition 0 (0 → 1, reads nothing), is not allowed: it leaves a buffering state, where a run in \
             normal mode must begin storing first",
        ),
        (
            "0 65533 0 3",
            "entry 3, transition 3 (1 → 1, reads b), is not allowed: the next letter of the word, number 1, is a",
        ),
        (
            "0 65533 0 2 3 1 65534 4 5",
            "every entry is allowed, but the run does not accept where it ends: it is still matching",
        ),
    ] {
        check("abab", run).is(1, &format!("no: {sentence}\n"), "");
    }
    check("1 2 2 1", "@run").is(
        1,
        "no: entry 7, transition 4 (2 → 2, reads letter 1), is not allowed: the next letter of the word, number 3, is \
         letter 2\n",
        "",
    );
}

#[test]
fn copies_of_a_run_and_refusal_14() {
    let place = Place::with_table_t();
    let copies = |word: &str, run: &str| {
        zagvirk(["check-run", "--copies", "table.txt", word, run])
            .inside(&place)
            .run()
    };
    copies("abab", RUN_OF_ABAB).is(0, "yes\n1 copy, 2 letters:\n  letters 1 to 2: \"ab\"\n", "");
    // A copy of no letters is not listed.
    copies("", "0 65533 0 1 65534 65535").is(0, "yes\nno copy\n", "");
    copies("abab", "0").is(
        2,
        "",
        "run: it has no copy list, for it does not accept: every entry is allowed, but the run does not accept where it \
         ends: state 0 is not final; it has read 0 of 4 letters (refusal 14)\n",
    );
    copies(&"a".repeat(256), "0").fails_with("256 letters, at most 255 are allowed (refusal 9)");
}

/// Doubled words one after another: copies of no letters stand in the run and not among the copies.
#[test]
fn copies_of_no_letters() {
    let place = Place::new();
    let back = "    2    0    0\n    2    1    2\n";
    let sheet = common::TABLE_T
        .replace("    6\n", "    7\n")
        .replace("    2    1    2\n", back);
    place.file("table.txt", sheet);
    let nothing = "65533 0 1 65534 65535";
    let (ab, b) = ("65533 0 2 3 1 65534 5 6 65535", "65533 0 3 1 65534 6 65535");
    let copies = |word: &str, parts: &[&str]| {
        let run = format!("0 {}", parts.join(" 4 "));
        zagvirk(["check-run", "--copies", "table.txt", word, &run])
            .inside(&place)
            .run()
    };
    copies("", &[nothing; 3]).is(0, "yes\nno copy\n", "");
    copies("abab", &[nothing, ab]).is(0, "yes\n1 copy, 2 letters:\n  letters 1 to 2: \"ab\"\n", "");
    copies("ababbb", &[ab, nothing, nothing, b, nothing]).is(
        0,
        "yes\n2 copies, 3 letters in all:\n  letters 1 to 2: \"ab\"\n  letter 5: \"b\"\n",
        "",
    );
}

#[test]
fn what_is_no_run() {
    let place = Place::with_table_t();
    place.file("rubbish", [0xff; 100_000]);
    let check = |run: &str| {
        zagvirk(["check-run", "table.txt", "abab", run])
            .inside(&place)
            .run()
    };
    for run in ["0 65536", "0, 65533", "x", "0 -1", "@rubbish", "\u{1b}[31m"] {
        check(run).fails_with("is not a number from 0 to 65535");
        assert!(!check(run).err.contains('\u{1b}'));
        assert!(check(run).err.len() < 400);
    }
    check("0 65533 x").fails_with("run: entry 2: 'x'");
    check("@missing").fails_with("missing: No such file");
    check("@.").fails_with(".: Is a directory");
    check("@").fails_with("No such file");
    let both = zagvirk(["check-run", "-", "abab", "-"]).run();
    both.fails_with("only one of the files can be standard input");
}

#[test]
fn words_that_are_refused() {
    let place = Place::with_table_t();
    for command in ["run", "why", "dot", "page", "check-run"] {
        let ask = |word: &str| {
            let mut arguments = vec![command, "table.txt", word];
            if command == "check-run" {
                arguments.push("0");
            }
            zagvirk(arguments).inside(&place).run()
        };
        for word in ["abc", "aBa", "ä", "a b", "1 3", "0", "1 x", "999999999999"] {
            ask(word).fails_with("(refusal 8)");
            ask(word).fails_with("word '");
        }
        let long = ask(&"a".repeat(256));
        match command {
            "check-run" => assert_eq!(long.status, 1),
            _ => long.fails_with("256 letters, at most 255 are allowed (refusal 9)"),
        }
        assert_ne!(ask(&"a".repeat(255)).status, 2);
    }
}

/// A file that is no sheet: the same message of each command, and no output.
#[test]
fn sheets_that_are_refused() {
    let place = Place::with_table_t();
    place.file("empty", "");
    place.file("rubbish", vec![b'x'; 200_000]);
    place.file("cut", &common::TABLE_T.as_bytes()[..50]);
    place.file("wrong", common::TABLE_T.replace("    2   10", "    2   12"));
    for arguments in [
        &["run", "FILE", "abab"][..],
        &["check-run", "FILE", "abab", "0"],
        &["page", "FILE", "abab"],
        &["page", "FILE", "abab", "0"],
        &["why", "FILE", "abab"],
        &["common", "FILE", "table.txt"],
        &["common", "table.txt", "FILE"],
        &["join", "FILE", "table.txt"],
        &["join", "table.txt", "FILE"],
        &["show", "FILE"],
        &["dot", "FILE"],
        &["dot", "FILE", "abab"],
    ] {
        for (file, message) in [
            ("missing", "missing: No such file"),
            (".", ".: Is a directory"),
            ("", "No such file"),
            ("empty", "(refusal 1)"),
            ("cut", "(refusal 1)"),
            ("rubbish", "(refusal 2)"),
            ("wrong", "wrong:4: "),
        ] {
            let arguments = arguments.iter().map(|&text| match text {
                "FILE" => file,
                text => text,
            });
            let ran = zagvirk(arguments).inside(&place).run();
            ran.fails_with(message);
        }
    }
}

/// T with some of its bytes changed, left out or doubled: every command ends with a status of its own and no panic, and
/// says something on one of its outputs.
#[test]
fn damaged_sheets() {
    let calls = [
        &["run", "-", "abab"][..],
        &["check-run", "-", "abab", RUN_OF_ABAB],
        &["page", "-", "abab"],
        &["page", "-", "abab", RUN_OF_ABAB],
        &["why", "--table", "-", "abab"],
        &["common", "-", "two.txt"],
        &["common", "table.txt", "-"],
        &["join", "-", "two.txt"],
        &["join", "table.txt", "-"],
        &["show", "-"],
        &["dot", "-", "abab"],
    ];
    let place = Place::with_table_t();
    place.file("two.txt", common::SOME_TWO);
    let mut seed: usize = 1;
    let mut random = |below: usize| {
        seed = seed
            .wrapping_mul(6_364_136_223_846_793_005)
            .wrapping_add(1_442_695_040_888_963_407);
        (seed >> 33) % below
    };
    let mut statuses = [0; 3];
    for number in 0..600 {
        let original = [common::TABLE_T, common::SOME_TWO][random(2)];
        let mut sheet = original.as_bytes().to_vec();
        for _ in 0..1 + random(2) {
            let at = random(sheet.len());
            match random(4) {
                0 => drop(sheet.remove(at)),
                1 => sheet.insert(at, sheet[at]),
                // A digit or a sign of the same length, so that some stay good.
                _ => sheet[at] = b"0123456789 \n\xff"[random(13)],
            }
        }
        let call = calls[number % calls.len()];
        let ran = zagvirk(call).inside(&place).input(&sheet).run();
        assert!((0..=2).contains(&ran.status), "{ran:?} {sheet:?}");
        assert!(!ran.err.contains("panicked"), "{ran:?} {sheet:?}");
        assert!(
            !(ran.out.is_empty() && ran.err.is_empty()),
            "{ran:?} {sheet:?}"
        );
        statuses[ran.status as usize] += 1;
    }
    println!("damaged sheets by status: {statuses:?}");
    assert!(statuses.iter().all(|&count| count > 0));
}

#[test]
fn command_lines_that_are_wrong() {
    let place = Place::with_table_t();
    for (arguments, message) in [
        (&["run"][..], "run: TABLE is missing"),
        (&["run", "table.txt"], "run: WORD is missing"),
        (
            &["run", "table.txt", "a", "b"],
            "run: 'b' is one argument too many",
        ),
        (
            &["run", "--rare", "table.txt", "a"],
            "run: there is no option --rare",
        ),
        (
            &["check-run", "table.txt", "abab"],
            "check-run: RUN is missing",
        ),
        (
            &["check-run", "table.txt", "abab", "0", "1"],
            "one argument too many",
        ),
        (&["page"], "page: TABLE is missing"),
        (&["page", "table.txt"], "page: WORD is missing"),
        (
            &["page", "table.txt", "abab", "0", "1"],
            "page: '1' is one argument too many",
        ),
        (
            &["page", "--raw", "table.txt", "abab"],
            "page: there is no option --raw",
        ),
        (
            &["page", "-", "abab", "-"],
            "only one of the files can be standard input",
        ),
        (
            &["page", "-", "abab", "@-"],
            "only one of the files can be standard input",
        ),
        (&["why", "table.txt"], "why: WORD is missing"),
        (&["common", "table.txt"], "common: PLAIN is missing"),
        (&["join", "table.txt"], "join: PLAIN is missing"),
        (
            &["join", "table.txt", "table.txt", "-o"],
            "option -o needs a value",
        ),
        (&["show"], "show: TABLE is missing"),
        (
            &["show", "table.txt", "abab"],
            "show: 'abab' is one argument too many",
        ),
        (&["dot"], "dot: TABLE is missing"),
        (
            &["dot", "table.txt", "abab", "x"],
            "dot: 'x' is one argument too many",
        ),
        (
            &["common", "-", "-"],
            "only one of the files can be standard input",
        ),
        (
            &["join", "-", "-"],
            "only one of the files can be standard input",
        ),
    ] {
        let ran = zagvirk(arguments).inside(&place).run();
        ran.fails_with(message);
        assert!(ran.err.contains("Try 'zagvirk help "), "{ran:?}");
    }
}

/// A word that begins with a hyphen, and one with an apostrophe.
#[test]
fn hyphen_and_apostrophe() {
    let place = Place::new();
    // All words over 28 letters, from state 0 to itself.
    let mut sheet = "    1   28   28\n    0    3\n".to_string();
    for letter in 1..=28 {
        sheet.push_str(&format!("    0{letter:>5}    0\n"));
    }
    place.file("table.txt", sheet);
    let ran = zagvirk(["run", "table.txt", "--", "-'z"])
        .inside(&place)
        .run();
    ran.is(
        0,
        "0  start in state 0\n\
         1  read - by transition 26: 0 → 0, normal\n\
         2  read ' by transition 27: 0 → 0, normal\n\
         3  read z by transition 25: 0 → 0, normal\n\
         no copy\n",
        "",
    );
    let ran = zagvirk(["run", "table.txt", "-'z"]).inside(&place).run();
    ran.fails_with("behind -- an argument may begin with a hyphen");
}

#[test]
fn a_closed_pipe_and_a_full_device() {
    let place = Place::with_table_t();
    place.file("two.txt", common::SOME_TWO);
    for arguments in [
        &["run", "table.txt", "abab"][..],
        &["run", "table.txt", "abba"],
        &["run", "--raw", "table.txt", "abab"],
        &["check-run", "table.txt", "abab", RUN_OF_ABAB],
        &["check-run", "table.txt", "abab", "0"],
        &["page", "table.txt", "abab"],
        &["page", "table.txt", "abba"],
        &["page", "table.txt", "abab", RUN_OF_ABAB],
        &["why", "table.txt", "abba"],
        &["why", "--table", "table.txt", "abab"],
        &["common", "table.txt", "two.txt"],
        &["join", "table.txt", "two.txt"],
        &["show", "table.txt"],
        &["dot", "table.txt", "abab"],
    ] {
        ends_quietly_when_closed(zagvirk(arguments).inside(&place));
        fails_on_full_device(zagvirk(arguments).inside(&place));
    }
}

/// The examples of the help texts print what stands below them.
#[test]
fn examples_of_the_help_texts() {
    let place = Place::with_table_t();
    place.file("some-two.txt", common::SOME_TWO);
    place.file("odd-ones.txt", common::ODD_ONES);
    // Words with an even number of letters.
    place.file(
        "even.txt",
        "    2    2    4\n    0    3\n    1    0\n    0    1    1\n    0    2    1\n    1    1    0\n    1    2    0\n",
    );
    let folder = Path::new(env!("CARGO_BIN_EXE_zagvirk")).parent();
    let folder = folder
        .and_then(Path::to_str)
        .expect("the folder of the command");
    let path = format!("{folder}:{}", std::env::var("PATH").unwrap_or_default());
    for command in [
        "run",
        "check-run",
        "page",
        "why",
        "common",
        "join",
        "show",
        "dot",
    ] {
        let help = zagvirk(["help", command]).run();
        assert_eq!((help.status, help.err.as_str()), (0, ""));
        assert!(help.out.starts_with(&format!("Usage: zagvirk {command} ")));
        let (_, example) = help.out.split_once("\nExample:\n").expect("an example");
        let mut lines = example.lines();
        let line = lines.next().and_then(|line| line.strip_prefix("  $ "));
        let expected: String = lines
            .map(|line| format!("{}\n", line.strip_prefix("  ").expect("an indent")))
            .collect();
        let line = line.expect("a call");
        if line.contains("| dot ") && !has_graphviz() {
            println!("{command}: Graphviz is not installed, the example is skipped");
            continue;
        }
        let ran = Command::new("sh")
            .args(["-c", line])
            .env("PATH", &path)
            .current_dir(place.path())
            .output()
            .expect("a shell");
        let err = String::from_utf8_lossy(&ran.stderr);
        assert_eq!(
            (String::from_utf8_lossy(&ran.stdout), err),
            (expected.into(), "".into()),
            "{line}"
        );
    }
}

fn has_graphviz() -> bool {
    Command::new("dot")
        .arg("-V")
        .output()
        .is_ok_and(|ran| ran.status.success())
}
