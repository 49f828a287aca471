//! `zagvirk check`, run as a process.

mod common;

use common::{
    ends_quietly_when_closed, fails_on_full_device, repository, wait, zagvirk, Place, SOME_TWO,
    TABLE_T,
};
use std::fs;
use std::io::{Read, Write};
use std::os::unix::fs::PermissionsExt;
use std::process::{Command, Stdio};

const GOOD: &str = "table.txt: good: 3 states, 2 letters, 6 transitions\n";

#[test]
fn good() {
    let place = Place::with_table_t();
    zagvirk(["check", "table.txt"])
        .inside(&place)
        .run()
        .is(0, GOOD, "");
    place.file("some two", SOME_TWO);
    place.file("-x", "    1    1    1\n    0    3\n    0    1    0\n");
    zagvirk(["check", "--", "table.txt", "some two", "-x", "-"])
        .inside(&place)
        .input(TABLE_T)
        .run()
        .is(
            0,
            &format!(
                "{GOOD}some two: good: 2 states, 2 letters, 4 transitions\n\
                 -x: good: 1 state, 1 letter, 1 transition\n\
                 (standard input): good: 3 states, 2 letters, 6 transitions\n"
            ),
            "",
        );
}

/// A sheet whose zeros are left out is good, and is asked and joined as the one that has them.
#[test]
fn blank_columns() {
    let place = Place::with_table_t();
    place.file("blank.txt", TABLE_T.replace("    0", "     "));
    place.file("least.txt", "    1          \n          \n");
    zagvirk(["check", "blank.txt", "least.txt"])
        .inside(&place)
        .run()
        .is(
            0,
            "blank.txt: good: 3 states, 2 letters, 6 transitions\n\
             least.txt: good: 1 state, 0 letters, 0 transitions\n",
            "",
        );
    zagvirk(["words", "blank.txt"])
        .inside(&place)
        .input("abab\nabba\n\n")
        .run()
        .is(1, "yes\tabab\nno\tabba\nyes\t\n", "");
    place.file("some two", SOME_TWO.replace("    0", "     "));
    let joined = zagvirk(["join", "blank.txt", "some two"])
        .inside(&place)
        .run();
    place.file("some two", SOME_TWO);
    zagvirk(["join", "table.txt", "some two"])
        .inside(&place)
        .run()
        .is(0, &joined.out, "");
    assert!(joined.out.contains("    0"), "{}", joined.out);
}

/// All sheets of data/machines are good.
#[test]
fn machines() {
    let folder = repository().join("data/machines");
    let mut paths: Vec<_> = fs::read_dir(folder)
        .expect("the folder data/machines")
        .map(|entry| entry.expect("an entry").path().join("table.txt"))
        .collect();
    paths.sort();
    let mut arguments = vec!["check".into()];
    arguments.extend(paths.clone());
    let ran = zagvirk(arguments).run();
    assert_eq!((ran.status, ran.err.as_str()), (0, ""));
    for (line, path) in ran.out.lines().zip(&paths) {
        assert!(
            line.starts_with(&format!("{}: good: ", path.display())),
            "{line}"
        );
    }
    assert_eq!(ran.out.lines().count(), paths.len());
    println!("check, data/machines: {} sheets", paths.len());
}

/// T's sheet with the line (from 1) in the place of its own.
fn with_line(number: usize, line: &str) -> String {
    let mut lines: Vec<&str> = TABLE_T.lines().collect();
    lines[number - 1] = line;
    lines.join("\n") + "\n"
}

/// Every refusal of a sheet, with its message.
#[test]
fn refusals() {
    let place = Place::new();
    let cases: Vec<(String, &str)> = vec![
        (
            String::new(),
            "1: the sheet ends here, line one is wanted: the numbers of states, letters and transitions (refusal 1)",
        ),
        (
            TABLE_T[..27].to_string(),
            "3: the sheet ends here, state 1 and its mark are wanted; 2 of 3 states and 6 of 6 transitions are missing: \
             add them, or correct line 1 (refusal 1)",
        ),
        (
            TABLE_T[..129].to_string(),
            "10: the sheet ends here, transition 5 is wanted; 1 of 6 transitions are missing: add them, or correct line 1 \
             (refusal 1)",
        ),
        (
            TABLE_T[..144].to_string(),
            "10: the last line has no end, wanted byte 10 (refusal 1)",
        ),
        (
            with_line(10, "    2    2"),
            "10: the sheet ends with '    2    2', wanted 15 bytes and byte 10 in this line (refusal 1)",
        ),
        (
            with_line(6, "             00"),
            "6: column 3: '   00' has a zero ahead of the number, wanted spaces (refusal 2)",
        ),
        (
            with_line(6, "    1    \x0c    2"),
            "6: column 2: '    \\u{c}' is no number right-justified in 5 bytes (refusal 2)",
        ),
        (
            with_line(6, "    1  1 1    2"),
            "6: column 2: '  1 1' is no number right-justified in 5 bytes (refusal 2)",
        ),
        (
            with_line(6, "    1   00    2"),
            "6: column 2: '   00' has a zero ahead of the number, wanted spaces (refusal 2)",
        ),
        (
            with_line(6, "1    0    2    "),
            "6: column 1: '1    ' is not right-justified in its 5 bytes (refusal 2)",
        ),
        (
            with_line(6, "\t1\t0\t2          "),
            "6: column 1: '\\t1\\t0\\t' has a tab, wanted spaces (refusal 2)",
        ),
        (
            with_line(6, "    1    b    2"),
            "6: column 2: '    b' is no number right-justified in 5 bytes (refusal 2)",
        ),
        (
            with_line(6, "    1   -1    2"),
            "6: column 2: '   -1' is no number right-justified in 5 bytes (refusal 2)",
        ),
        (
            with_line(6, "    1    2"),
            "6: column 3: the line ends after 10 bytes, wanted 15 (3 columns of 5) (refusal 2)",
        ),
        (
            with_line(4, "    2   10    7"),
            "4: '    7' stands behind the 10 bytes of this line, wanted its end, byte 10 (refusal 2)",
        ),
        (
            TABLE_T.replace('\n', "\r\n"),
            "1: a carriage return stands behind the 15 bytes of this line, wanted byte 10 alone at its end (refusal 2)",
        ),
        (
            with_line(1, "   65    2    6"),
            "1: column 1: 65 states, wanted 1 to 64 (refusal 3)",
        ),
        (
            with_line(1, "    0    2    6"),
            "1: column 1: 0 states, wanted 1 to 64 (refusal 3)",
        ),
        (
            with_line(1, "         2    6"),
            "1: column 1: 0 states (a blank column is 0), wanted 1 to 64 (refusal 3)",
        ),
        (
            with_line(1, "    3  251    6"),
            "1: column 2: 251 letters, wanted 0 to 250 (refusal 3)",
        ),
        (
            with_line(1, "    3    2 4001"),
            "1: column 3: 4001 transitions, wanted 0 to 4000 (refusal 3)",
        ),
        (
            with_line(3, "    2    0"),
            "3: column 1: state 2, wanted 1: states stand in turn from 0 (refusal 4)",
        ),
        (
            with_line(3, "         0"),
            "3: column 1: state 0 (a blank column is 0), wanted 1: states stand in turn from 0 (refusal 4)",
        ),
        (
            with_line(3, "    1   16"),
            "3: column 2: mark 16, wanted at most 15, a sum of 1, 2, 4 and 8 (refusal 4)",
        ),
        (
            with_line(3, "    1   13"),
            "3: column 2: mark 13 has both 4 (buffering) and 8 (matching), wanted one of them at most (refusal 4)",
        ),
        (
            with_line(7, "    9    1    1"),
            "7: column 1: names state 9, there are 3 (refusal 5)",
        ),
        (
            with_line(7, "    1    3    1"),
            "7: column 2: names letter 3, there are 2 (refusal 5)",
        ),
        (
            with_line(1, "    3         6"),
            "7: column 2: names letter 1, there are 0 (a blank column is 0) (refusal 5)",
        ),
        (
            with_line(7, "    1    1    3"),
            "7: column 3: names state 3, there are 3, numbered from 0 (refusal 5)",
        ),
        (
            with_line(7, "    1    0    2"),
            "7: transition 1 0 2 stands twice: remove one (refusal 6)",
        ),
        (
            with_line(6, "              1"),
            "6: transition 0 0 1 stands twice (a blank column is 0): remove one (refusal 6)",
        ),
        (
            with_line(7, "         2    2"),
            "7: transition 0 2 2 stands behind 1 0 2 (a blank column is 0): sort them by from, letter, to (refusal 6)",
        ),
        (
            with_line(7, "    0    2    2"),
            "7: transition 0 2 2 stands behind 1 0 2: sort them by from, letter, to (refusal 6)",
        ),
        (
            with_line(1, "    3    2     "),
            "5: '    0    0    1' stands behind the last line of 3 states and 0 transitions (a blank column is 0): \
             remove it, or correct line 1 (refusal 7)",
        ),
        (
            format!("{TABLE_T}    2    2    2\n"),
            "11: '    2    2    2' stands behind the last line of 3 states and 6 transitions: remove it, or correct line 1 \
             (refusal 7)",
        ),
        (
            format!("{TABLE_T}\n"),
            "11: '\\n' stands behind the last line of 3 states and 6 transitions: remove it, or correct line 1 (refusal 7)",
        ),
    ];
    for (sheet, message) in &cases {
        place.file("bad.txt", sheet);
        let ran = zagvirk(["check", "bad.txt"]).inside(&place).run();
        ran.is(2, "", &format!("bad.txt:{message}\n"));
        // The same message where another command reads the sheet.
        let ran = zagvirk(["words", "bad.txt"]).inside(&place).run();
        ran.is(2, "", &format!("bad.txt:{message}\n"));
        let ran = zagvirk(["check", "-"]).input(sheet).run();
        ran.is(2, "", &format!("(standard input):{message}\n"));
    }
    println!("check, refusals: {} sheets", cases.len());
}

/// The good sheets are said to be good beside those that are not.
#[test]
fn some_are_good() {
    let place = Place::with_table_t();
    place.file("empty.txt", "");
    let ran = zagvirk([
        "check",
        "none.txt",
        "table.txt",
        "empty.txt",
        ".",
        "table.txt",
    ])
    .inside(&place)
    .run();
    assert_eq!((ran.status, ran.out), (2, GOOD.repeat(2)));
    let messages: Vec<&str> = ran.err.lines().collect();
    assert_eq!(messages.len(), 3, "{messages:?}");
    assert_eq!(
        messages[0],
        "zagvirk: none.txt: No such file or directory (os error 2)"
    );
    assert!(messages[1].starts_with("empty.txt:1: the sheet ends here"));
    assert_eq!(messages[2], "zagvirk: .: Is a directory (os error 21)");
}

#[test]
fn no_permission() {
    let place = Place::with_table_t();
    let path = place.path().join("table.txt");
    fs::set_permissions(&path, fs::Permissions::from_mode(0o000)).expect("permissions");
    if fs::read(&path).is_ok() {
        println!("check, no permission: skipped, this user may read everything");
        return;
    }
    zagvirk(["check", "table.txt"])
        .inside(&place)
        .run()
        .fails_with("zagvirk: table.txt: Permission denied");
}

#[test]
fn arguments() {
    zagvirk(["check"]).run().is(
        2,
        "",
        "zagvirk: check: TABLE is missing\nTry 'zagvirk help check' for how it is used.\n",
    );
    zagvirk(["check", "-", "-"])
        .input(TABLE_T)
        .run()
        .fails_with("zagvirk: check: only one of the files can be standard input\n");
    zagvirk(["check", "--all", "table.txt"])
        .run()
        .fails_with("zagvirk: check: there is no option --all");
}

#[test]
fn output_that_takes_nothing() {
    let place = Place::with_table_t();
    ends_quietly_when_closed(zagvirk(["check", "table.txt"]).inside(&place));
    fails_on_full_device(zagvirk(["check", "table.txt"]).inside(&place));
}

/// 1 GB that is no sheet, and 1 GB behind a sheet, in 64 MB of memory at most.
#[test]
fn rubbish() {
    let behind = format!(
        "11: '{}...' stands behind the last line of 3 states and 6 transitions: remove it, or correct line 1 (refusal 7)",
        "x".repeat(40)
    );
    for (front, message) in [
        (
            "",
            "1: column 1: 'xxxxx' is no number right-justified in 5 bytes (refusal 2)",
        ),
        (TABLE_T, &behind),
    ] {
        let mut child = Command::new("sh")
            .args([
                "-c",
                "ulimit -v 65536 && exec \"$0\" check -",
                env!("CARGO_BIN_EXE_zagvirk"),
            ])
            .stdin(Stdio::piped())
            .stdout(Stdio::null())
            .stderr(Stdio::piped())
            .spawn()
            .expect("sh");
        let mut stdin = child.stdin.take().expect("a pipe");
        let piece = vec![b'x'; 1 << 20];
        // The command has read enough when the pipe breaks.
        let mut fed = stdin.write_all(front.as_bytes());
        let mut pieces = 0;
        while fed.is_ok() && pieces < 1_024 {
            fed = stdin.write_all(&piece);
            pieces += 1;
        }
        drop(stdin);
        let mut err = String::new();
        let mut stderr = child.stderr.take().expect("a pipe");
        stderr.read_to_string(&mut err).expect("the messages");
        let message = format!("(standard input):{message}\n");
        assert_eq!((wait(&mut child), err), (2, message));
        println!("check, rubbish: done after {pieces} MB of 1 GB");
    }
}
