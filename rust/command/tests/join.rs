//! `zagvirk join` as a process. Refusals 10 to 13 are in `common_word`, for both commands.

mod common;

use common::{zagvirk, Place};
use std::fs;

/// T joined with "odd number of 1": 6 states and 12 transitions.
const JOINED: &str = "    6    2   12
    0    5
    1    4
    2    0
    3    0
    4    8
    5   10
    0    0    2
    1    0    3
    2    0    4
    2    1    3
    2    2    2
    3    0    5
    3    1    2
    3    2    3
    4    1    5
    4    2    4
    5    1    4
    5    2    5
";

fn tables() -> Place {
    let place = Place::with_table_t();
    place.file("odd.txt", common::ODD_ONES);
    place
}

#[test]
fn the_joined_sheet() {
    let place = tables();
    let join = |arguments: &[&str]| zagvirk(arguments).inside(&place).run();
    join(&["join", "table.txt", "odd.txt"]).is(0, JOINED, "");
    join(&["join", "table.txt", "odd.txt", "-o", "-"]).is(0, JOINED, "");
    zagvirk(["join", "table.txt", "-"])
        .inside(&place)
        .input(common::ODD_ONES)
        .run()
        .is(0, JOINED, "");
    // It is a good sheet for the other commands. With two 1, an even number, abab ends in the pair of 2 and 0.
    zagvirk(["why", "-", "abab"]).input(JOINED).run().is(
        1,
        "no: the whole word is read, but no run accepts: some end in state 4, which is not final; some are still storing in \
         states 2, 4\n",
        "",
    );
}

#[test]
fn into_a_file() {
    let place = tables();
    for option in [&["-o", "joined.txt"][..], &["--output=joined.txt"]] {
        place.file("joined.txt", "old");
        let arguments = [&["join", "table.txt", "odd.txt"], option].concat();
        zagvirk(arguments).inside(&place).run().is(0, "", "");
        assert_eq!(place.read("joined.txt"), JOINED.as_bytes());
    }
    // Onto one of the tables, which is read before.
    zagvirk(["join", "table.txt", "odd.txt", "-o", "odd.txt"])
        .inside(&place)
        .run()
        .is(0, "", "");
    assert_eq!(place.read("odd.txt"), JOINED.as_bytes());
    assert_eq!(place.names(), ["joined.txt", "odd.txt", "table.txt"]);
}

#[test]
fn nothing_is_written_half() {
    let place = tables();
    place.file("joined.txt", "old");
    let join = |plain: &str, file: &str| {
        zagvirk(["join", "table.txt", plain, "-o", file])
            .inside(&place)
            .run()
    };
    join("table.txt", "joined.txt").fails_with("(refusal 10)");
    assert_eq!(place.read("joined.txt"), b"old");
    join("odd.txt", "absent/joined.txt").fails_with("absent/joined.txt: No such file");
    join("odd.txt", ".").fails_with(".: Is a directory");
    join("odd.txt", "").fails_with("zagvirk: ");
    if fs::metadata("/dev/full").is_ok() {
        join("odd.txt", "/dev/full").fails_with("/dev/full: No space left on device");
    }
    assert_eq!(place.names(), ["joined.txt", "odd.txt", "table.txt"]);
}
