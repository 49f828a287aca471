//! `zagvirk page` as a process: the page of the run that is found, and of one that is given.

mod common;

use common::{ends_quietly_when_closed, fails_on_full_device, zagvirk, Place};

const RUN_OF_ABAB: &str = "0 65533 0 2 3 1 65534 4 5 65535";

const PAGE_OF_ABAB: &str = "     0     0     0     0     0
     1     0     1     0     0
     2     1     1     0     0
     3     1     1     1     1
     4     1     1     2     2
     5     2     1     2     2
     6     2     2     2     2
     7     2     2     3     1
     8     2     2     4     0
     9     2     0     4     0
     0     2     4
";

const PAGE_OF_NOTHING: &str = "     0     0     0     0     0
     1     0     1     0     0
     2     1     1     0     0
     3     2     1     0     0
     4     2     2     0     0
     5     2     0     0     0
     0     0     0
";

const WHY: &str = "zagvirk: 'zagvirk why' with the same arguments says why not\n";

/// One state, initial and final, with an epsilon transition to itself, number 0: the empty word alone.
const CIRCLE: &str = "    1    0    1\n    0    3\n    0    0    0\n";

/// A run round the circle.
fn circle_run(entries: usize) -> String {
    "0\n".repeat(entries)
}

#[test]
fn a_page() {
    let place = Place::with_table_t();
    let page = |arguments: &[&str]| {
        let arguments = ["page"].iter().chain(arguments);
        zagvirk(arguments).inside(&place).run()
    };
    page(&["table.txt", "abab"]).is(0, PAGE_OF_ABAB, "");
    page(&["table.txt", "1 2 1 2"]).is(0, PAGE_OF_ABAB, "");
    page(&["table.txt", ""]).is(0, PAGE_OF_NOTHING, "");
    page(&["table.txt", "abba"]).is(1, "no\n", WHY);
    page(&["table.txt", "a"]).is(1, "no\n", WHY);
    let table = place.read("table.txt");
    zagvirk(["page", "-", "abab"])
        .input(table)
        .run()
        .is(0, PAGE_OF_ABAB, "");
}

#[test]
fn a_page_of_a_run() {
    let place = Place::with_table_t();
    place.file("run", "0 65533\n0 2 3\t1\r\n65534 4 5 65535\n");
    let page = |word: &str, run: &str| {
        let call = zagvirk(["page", "table.txt", word, run]);
        call.inside(&place).input(RUN_OF_ABAB).run()
    };
    page("abab", RUN_OF_ABAB).is(0, PAGE_OF_ABAB, "");
    page("abab", "@run").is(0, PAGE_OF_ABAB, "");
    page("abab", "-").is(0, PAGE_OF_ABAB, "");
    page("", "0 65533 0 1 65534 65535").is(0, PAGE_OF_NOTHING, "");
    let table = place.read("table.txt");
    zagvirk(["page", "-", "abab", "@run"])
        .inside(&place)
        .input(table)
        .run()
        .is(0, PAGE_OF_ABAB, "");
}

/// Of two runs of a word the page is that of the one which is given.
#[test]
fn a_longer_run() {
    let place = Place::new();
    place.file("table.txt", CIRCLE);
    let page = |run: &[&str]| {
        let arguments = ["page", "table.txt", ""];
        zagvirk(arguments.iter().chain(run)).inside(&place).run()
    };
    let start = "     0     0     0     0     0\n";
    let last = "     0     0     0\n";
    page(&[]).is(0, &format!("{start}{last}"), "");
    page(&["0"]).is(0, &format!("{start}{last}"), "");
    let second = "     1     0     0     0     0\n";
    page(&["0 0"]).is(0, &format!("{start}{second}{last}"), "");
}

/// Every word of every folder of `data/machines`: there is a page exactly if the answer is yes, it is the page of the run
/// that `run` prints, it has a line for each entry and one more, and its last line adds up.
#[test]
fn pages_of_the_machines() {
    let mut pages = 0;
    for (table, word, accepted) in &common::words_of_the_machines(15) {
        let page = zagvirk(["page", table, word]).run();
        assert_eq!(page.status, i32::from(!accepted), "{table} {word}");
        if !accepted {
            page.is(1, "no\n", WHY);
            continue;
        }
        let run = zagvirk(["run", "--raw", table, word]).run();
        let run = run.out.trim_end();
        zagvirk(["page", table, word, run])
            .run()
            .is(0, &page.out, "");
        let lines: Vec<&str> = page.out.lines().collect();
        assert_eq!(lines.len(), run.split(' ').count() + 1);
        let last: Vec<usize> = lines[lines.len() - 1]
            .split_whitespace()
            .map(|number| number.parse().expect("a number"))
            .collect();
        assert_eq!(last[0] + 2 * last[1], last[2]);
        pages += 1;
    }
    println!("{pages} pages");
    assert!(pages > 80);
}

#[test]
fn refusal_14() {
    let place = Place::with_table_t();
    let page = |word: &str, run: &str| {
        let call = zagvirk(["page", "table.txt", word, run]);
        call.inside(&place).run()
    };
    for (run, sentence) in [
        ("", "the run is empty: it has no start state"),
        ("1", "entry 0 names start state 1, which is not initial"),
        (
            "0",
            "every entry is allowed, but the run does not accept where it ends: state 0 is not final; it has read 0 of 4 \
             letters",
        ),
        (
            "0 65533 0 2 3 1 65534 65535",
            "entry 7, back to normal, is not allowed: 2 letters are left to match",
        ),
    ] {
        let message = format!("run: it has no page, for it does not accept: {sentence} (refusal 14)\n");
        page("abab", run).is(2, "", &message);
    }
    // The run of another word, whether the table accepts this one or not.
    page("baba", RUN_OF_ABAB).fails_with("(refusal 14)");
    page("abba", RUN_OF_ABAB).fails_with("(refusal 14)");
    // Empty input, from a pipe and from a file.
    page("abab", "-").fails_with("the run is empty: it has no start state (refusal 14)");
    place.file("empty", "");
    page("abab", "@empty").fails_with("the run is empty: it has no start state (refusal 14)");
}

/// Words to 255 letters and runs to 99,999 entries; a run that is too long comes before a letter that is not there.
#[test]
fn limits() {
    let place = Place::with_table_t();
    place.file("circle.txt", CIRCLE);
    let page = |arguments: &[&str], input: &str| {
        let arguments = ["page"].iter().chain(arguments);
        zagvirk(arguments).inside(&place).input(input).run()
    };
    let longest = page(&["table.txt", &"a".repeat(254)], "");
    assert_eq!(longest.status, 0);
    assert!(
        longest.out.ends_with("\n     0   127   254\n"),
        "{longest:?}"
    );
    page(&["table.txt", &"a".repeat(255)], "").is(1, "no\n", WHY);
    let too_long = "256 letters, at most 255 are allowed (refusal 9)";
    page(&["table.txt", &"a".repeat(256)], "").fails_with(too_long);
    page(&["table.txt", &"a".repeat(256), "0"], "").fails_with(too_long);

    place.file("run", circle_run(99_999));
    let from_file = page(&["circle.txt", "", "@run"], "");
    assert_eq!((from_file.status, from_file.err.as_str()), (0, ""));
    assert_eq!(from_file.out.len(), 31 * 99_999 + 19);
    let end = "\n 99998     0     0     0     0\n     0     0     0\n";
    assert!(from_file.out.ends_with(end));
    let piped = page(&["circle.txt", "", "-"], &circle_run(99_999));
    assert!(piped.status == 0 && piped.out == from_file.out);

    let too_long = "more than 99999 entries, a page takes no more (refusal 9)\n";
    place.file("run", circle_run(100_000));
    page(&["circle.txt", "", "@run"], "").is(2, "", &format!("run: {too_long}"));
    let piped = page(&["circle.txt", "", "-"], &circle_run(100_000));
    piped.is(2, "", &format!("(standard input): {too_long}"));
    page(&["circle.txt", "a", "@run"], "").fails_with(too_long);
    page(&["circle.txt", &"a".repeat(256), "@run"], "").fails_with("(refusal 9)");
    page(&["circle.txt", "a", "0"], "").fails_with("(refusal 8)");
    // What stands behind so many entries is not read.
    let endless = circle_run(100_000) + &"x".repeat(1_000_000);
    page(&["circle.txt", "", "-"], &endless).fails_with(too_long);
}

#[test]
fn what_is_no_run() {
    let place = Place::with_table_t();
    place.file("rubbish", [0xff; 100_000]);
    let page = |run: &str| {
        let call = zagvirk(["page", "table.txt", "abab", run]);
        call.inside(&place).run()
    };
    for run in ["0 65536", "0, 65533", "x", "0 -1", "@rubbish", "\u{1b}[31m"] {
        page(run).fails_with("is not a number from 0 to 65535");
        assert!(!page(run).err.contains('\u{1b}'));
        assert!(page(run).err.len() < 400);
    }
    page("0 65533 x").fails_with("run: entry 2: 'x'");
    page("@missing").fails_with("missing: No such file");
    page("@.").fails_with(".: Is a directory");
    page("@").fails_with("No such file");
}

#[test]
fn a_long_page_to_a_closed_pipe() {
    let place = Place::new();
    place.file("circle.txt", CIRCLE);
    place.file("run", circle_run(99_999));
    let call = || zagvirk(["page", "circle.txt", "", "@run"]).inside(&place);
    ends_quietly_when_closed(call());
    fails_on_full_device(call());
}
