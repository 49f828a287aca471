//! `zagvirk show` as a process.

mod common;

use common::{zagvirk, Place, TABLE_T};
use std::fs;

const SHOWN: &str = "\
3 states, 2 letters, 6 transitions.
State 0 is initial and stores letters from here (mark 5).
State 1 has no mark.
State 2 is final and matches stored letters here (mark 10).
From state 0, reading nothing leads to state 1, only while storing.
From state 1, letters 1 (a) and 2 (b) lead to state 1.
From state 1, reading nothing leads to state 2.
From state 2, letters 1 (a) and 2 (b) lead to state 2, each if it is the next stored letter.
";

#[test]
fn a_sheet_as_sentences() {
    let place = Place::with_table_t();
    let show = |arguments: &[&str]| zagvirk(arguments).inside(&place).input(TABLE_T).run();
    show(&["show", "table.txt"]).is(0, SHOWN, "");
    show(&["show", "-"]).is(0, SHOWN, "");
    let numbers = SHOWN.replace(" (a)", "").replace(" (b)", "");
    show(&["show", "--letters", "table.txt"]).is(0, &numbers, "");
}

/// Each machine is shown, with a line for each state, and each transition in one of the lines.
#[test]
fn all_machines() {
    let folders = fs::read_dir(common::repository().join("data/machines")).expect("the machines");
    let mut shown = 0;
    for folder in folders {
        let table = folder.expect("a folder").path().join("table.txt");
        let ran = zagvirk([std::ffi::OsStr::new("show"), table.as_os_str()]).run();
        assert_eq!((ran.status, ran.err.as_str()), (0, ""), "{ran:?}");
        let states = ran
            .out
            .lines()
            .filter(|line| line.starts_with("State "))
            .count();
        let counted = ran
            .out
            .split(' ')
            .next()
            .and_then(|count| count.parse().ok());
        assert_eq!(Some(states), counted, "{ran:?}");
        assert!(ran.out.lines().all(|line| line.ends_with('.')), "{ran:?}");
        shown += 1;
    }
    println!("{shown} machines shown");
    assert!(shown > 20);
}
