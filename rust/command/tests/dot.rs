//! `zagvirk dot` as a process, and what Graphviz says to its graphs where it is installed.

mod common;

use common::{zagvirk, Place};
use std::fs;
use std::io::Write;
use std::path::PathBuf;
use std::process::{Command, Stdio};

#[test]
fn the_picture_of_table_t() {
    let pictures = common::repository().join("docs/pictures");
    let kept = fs::read_to_string(pictures.join("table-t.dot")).expect("the graph");
    let place = Place::with_table_t();
    zagvirk(["dot", "table.txt", "abab"])
        .inside(&place)
        .run()
        .is(0, &kept, "");
    // The picture has what the graph has.
    let picture = fs::read_to_string(pictures.join("table-t.svg")).expect("the picture");
    for text in [
        "(0)",
        "(1) begin storing",
        "(2)",
        "(3) a, (4) b",
        "(5)",
        "(6) begin matching",
        "(7) a, (8) b",
        "(9) back to normal",
        "stores",
        "matches",
        "red: a run of &quot;abab&quot;, its entries by their numbers",
    ] {
        assert!(picture.contains(&format!(">{text}</text>")), "{text}");
    }
}

#[test]
fn graphs_without_a_run() {
    let place = Place::with_table_t();
    let dot = |arguments: &[&str]| zagvirk(arguments).inside(&place).run();
    let plain = dot(&["dot", "table.txt"]);
    assert_eq!((plain.status, plain.err.as_str()), (0, ""));
    assert!(plain.out.contains("  1 -> 1 [label=\"a, b\"];\n"));
    assert!(plain
        .out
        .contains("  2 -> 2 [label=\"a, b\", style=dashed];\n"));
    assert!(!plain.out.contains("#b3261e"));
    let numbers = dot(&["dot", "--letters", "table.txt"]);
    assert!(numbers.out.contains("  1 -> 1 [label=\"1, 2\"];\n"));
    let numbers = dot(&["dot", "table.txt", "1 2 1 2"]);
    assert!(numbers
        .out
        .contains("  1 -> 1 [label=\"1, 2\\n(3) 1, (4) 2\", color"));
}

#[test]
fn a_word_that_is_not_accepted() {
    let place = Place::with_table_t();
    place.file("graph.dot", "old");
    let message = "zagvirk: table.txt does not accept the word, so there is no run to draw; 'zagvirk why' says why not\n";
    for arguments in [
        &["dot", "table.txt", "abba"][..],
        &["dot", "table.txt", "abba", "-o", "graph.dot"],
    ] {
        zagvirk(arguments).inside(&place).run().is(1, "", message);
    }
    assert_eq!(place.read("graph.dot"), b"old");
}

#[test]
fn into_a_file() {
    let place = Place::with_table_t();
    let printed = zagvirk(["dot", "table.txt", "abab"])
        .inside(&place)
        .run()
        .out;
    zagvirk(["dot", "-o", "graph.dot", "table.txt", "abab"])
        .inside(&place)
        .run()
        .is(0, "", "");
    assert_eq!(place.read("graph.dot"), printed.as_bytes());
    zagvirk(["dot", "-o", "absent/graph.dot", "table.txt"])
        .inside(&place)
        .run()
        .fails_with("absent/graph.dot: No such file");
    assert_eq!(place.names(), ["graph.dot", "table.txt"]);
}

/// What Graphviz makes of the graph, or none where it is not installed.
fn draw(graph: &str) -> Option<String> {
    let mut child = Command::new("dot")
        .arg("-Tsvg")
        .stdin(Stdio::piped())
        .stdout(Stdio::piped())
        .stderr(Stdio::piped())
        .spawn()
        .ok()?;
    let mut stdin = child.stdin.take().expect("a pipe");
    let graph = graph.to_string();
    let writer = std::thread::spawn(move || stdin.write_all(graph.as_bytes()));
    let ran = child.wait_with_output().expect("its end");
    writer
        .join()
        .expect("the writer")
        .expect("all of the graph");
    let err = String::from_utf8_lossy(&ran.stderr);
    assert!(ran.status.success() && err.is_empty(), "dot: {err}");
    Some(String::from_utf8_lossy(&ran.stdout).into_owned())
}

/// The folders of the machines.
fn folders() -> Vec<PathBuf> {
    let folders = fs::read_dir(common::repository().join("data/machines")).expect("the machines");
    let mut folders: Vec<PathBuf> = folders
        .map(|folder| folder.expect("a folder").path())
        .collect();
    folders.sort();
    folders
}

/// Each machine alone and with the run of its first word that is accepted.
#[test]
fn graphviz_draws_each_machine() {
    let mut drawn = 0;
    for folder in folders() {
        let table = folder.join("table.txt");
        let table = table.to_str().expect("a path");
        let text = |name: &str| fs::read_to_string(folder.join(name)).expect("a file");
        let (words, expected) = (text("words.txt"), text("expected.txt"));
        let accepted = words.lines().zip(expected.lines());
        let accepted = accepted
            .filter(|(_, answer)| *answer == "1")
            .map(|(word, _)| word.trim());
        let longest = accepted.max_by_key(|word| word.len());
        let mut calls = vec![vec!["dot", table], vec!["dot", "--letters", table]];
        calls.extend(longest.map(|word| vec!["dot", table, word]));
        for call in calls {
            let ran = zagvirk(&call).run();
            assert_eq!((ran.status, ran.err.as_str()), (0, ""), "{call:?}");
            let Some(picture) = draw(&ran.out) else {
                println!("Graphviz is not installed: skipped");
                return;
            };
            assert!(picture.contains("</svg>"), "{call:?}");
            drawn += 1;
        }
    }
    println!("{drawn} graphs drawn");
    assert!(drawn > 60);
}

/// The largest tables: 64 states, 250 letters on one arrow, 4,000 transitions.
#[test]
fn graphviz_draws_large_tables() {
    let mut many = "    1  250  250\n    0    3\n".to_string();
    for letter in 1..=250 {
        many.push_str(&format!("    0{letter:>5}    0\n"));
    }
    let mut full = format!("{:>5}{:>5}{:>5}\n", 4, 250, 4000);
    for state in 0..4 {
        full.push_str(&format!("{state:>5}{:>5}\n", [7, 11, 8, 4][state]));
    }
    for from in 0..4 {
        for letter in 1..=250 {
            for to in 0..4 {
                full.push_str(&format!("{from:>5}{letter:>5}{to:>5}\n"));
            }
        }
    }
    let mut ring = format!("{:>5}{:>5}{:>5}\n", 64, 0, 64);
    for state in 0..64 {
        ring.push_str(&format!("{state:>5}{:>5}\n", state % 12));
    }
    for state in 0..64 {
        ring.push_str(&format!("{state:>5}{:>5}{:>5}\n", 0, (state + 1) % 64));
    }
    for (sheet, arrows) in [(many, 1), (full, 16), (ring, 64)] {
        let ran = zagvirk(["dot", "-"]).input(&sheet).run();
        assert_eq!((ran.status, ran.err.as_str()), (0, ""));
        let edges = ran
            .out
            .lines()
            .filter(|line| line.contains(" -> ") && !line.trim_start().starts_with("start"));
        assert_eq!(edges.count(), arrows);
        match draw(&ran.out) {
            Some(picture) => assert!(picture.contains("</svg>")),
            None => println!("Graphviz is not installed: skipped"),
        }
    }
}
