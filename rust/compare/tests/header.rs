//! The C header: it compiles as it is, and a C program that includes it links the archive and gets the right answers. The
//! stack that it says is enough, its version is that of the crates, and the README's examples are the ones that are
//! compiled here and among the examples of `zagvirk`.

use compare::c::{program, repository, run, STRICT};
use std::fs;
use std::process::Command;

#[test]
fn header_alone() {
    let header = repository().join("include/zagvirk.h");
    run(Command::new("cc")
        .args(["-std=c99", "-fsyntax-only", "-x", "c"])
        .args(STRICT)
        .arg(&header));
    if Command::new("c++").arg("--version").output().is_ok() {
        run(Command::new("c++")
            .args(["-std=c++11", "-fsyntax-only", "-x", "c++"])
            .args(STRICT)
            .arg(&header));
    } else {
        println!("c++ is not installed: the header was compiled as C only");
    }
}

#[test]
fn c_program() {
    let printed = program("table_t", env!("CARGO_TARGET_TMPDIR"));
    assert_eq!(printed, "both calls answer right from C\n");
    print!("{printed}");
}

/// The text of a file of the repository.
fn text(name: &str) -> String {
    let path = repository().join(name);
    fs::read_to_string(&path).unwrap_or_else(|e| panic!("{}: {e}", path.display()))
}

#[test]
fn version() {
    let header = text("include/zagvirk.h");
    for (part, number) in [
        ("MAJOR", env!("CARGO_PKG_VERSION_MAJOR")),
        ("MINOR", env!("CARGO_PKG_VERSION_MINOR")),
        ("PATCH", env!("CARGO_PKG_VERSION_PATCH")),
    ] {
        let line = format!("#define ZAGVIRK_VERSION_{part} {number}\n");
        assert!(header.contains(&line), "the header has {line}");
    }
}

#[test]
fn stack() {
    let printed = program("stack", env!("CARGO_TARGET_TMPDIR"));
    print!("{printed}");
}

#[test]
fn readme_examples() {
    let readme = text("README.md");
    for example in [
        "rust/compare/tests/c/readme.c",
        "rust/zagvirk/examples/readme.rs",
        "rust/zagvirk/examples/why_not.rs",
    ] {
        assert!(readme.contains(&text(example)), "README.md shows {example}");
    }
    let printed = program("readme", env!("CARGO_TARGET_TMPDIR"));
    assert!(printed.starts_with("refusal 0, accepted 1, "), "{printed}");
    print!("{printed}");
}
