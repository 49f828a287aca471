//! The help texts, and the manual page and the completion that have the same commands and options.

mod common;

use command::{COMMANDS, HELP};
use common::{
    ends_quietly_when_closed, fails_on_full_device, repository, zagvirk, Place, ODD_ONES, SOME_TWO,
};
use std::collections::BTreeSet;
use std::fs;
use std::process::{Command, Stdio};

/// The plain table of the words of even length over letters 1 and 2.
const EVEN: &str = "    2    2    4
    0    3
    1    0
    0    1    1
    0    2    1
    1    1    0
    1    2    0
";

#[test]
fn texts() {
    for arguments in [
        &["help"][..],
        &["--help"],
        &["-h"],
        &["help", "help"],
        &["help", "--help"],
    ] {
        zagvirk(arguments).run().is(0, HELP, "");
    }
    for command in &COMMANDS {
        let (name, help) = (command.name, command.help);
        zagvirk(["help", name]).run().is(0, help, "");
        zagvirk([name, "--help"]).run().is(0, help, "");
        zagvirk([name, "-h"]).run().is(0, help, "");
        zagvirk([name, "--nothing", "x", "--help"])
            .run()
            .is(0, help, "");
        assert!(
            help.starts_with(&format!("Usage: zagvirk {name} ")),
            "{name}"
        );
        for part in ["\n  -h, --help ", "\nExit status: ", "\nExample:\n  $ "] {
            assert!(help.contains(part), "{name}: {part:?}");
        }
        assert!(HELP.contains(&format!("\n  {name} ")), "{name} is listed");
    }
}

#[test]
fn version() {
    let version = concat!("zagvirk ", env!("CARGO_PKG_VERSION"), "\n");
    zagvirk(["--version"]).run().is(0, version, "");
    zagvirk(["-V"]).run().is(0, version, "");
    let title = format!(".TH ZAGVIRK 1 \"\" \"{}\" ", version.trim_end());
    assert!(manual().contains(&title), "the manual page has {title}");
}

#[test]
fn wrong_commands() {
    let try_help = "Try 'zagvirk help' for the commands.\n";
    for (arguments, message) in [
        (&[][..], "a command is missing"),
        (&["chekc", "table.txt"], "there is no command 'chekc'"),
        (&[""], "there is no command ''"),
        (&["--all"], "there is no option --all"),
        (&["-"], "there is no option -"),
        (&["help", "chekc"], "there is no command 'chekc'"),
        (
            &["help", "check", "words"],
            "help: 'words' is one argument too many",
        ),
    ] {
        zagvirk(arguments)
            .run()
            .is(2, "", &format!("zagvirk: {message}\n{try_help}"));
    }
}

#[test]
fn output_that_takes_nothing() {
    for arguments in [
        &["help"][..],
        &["--version"],
        &["help", "words"],
        &["check", "--help"],
    ] {
        ends_quietly_when_closed(zagvirk(arguments));
        fails_on_full_device(zagvirk(arguments));
    }
}

/// Arguments that are no text in UTF-8.
#[test]
fn any_bytes() {
    use std::ffi::OsStr;
    use std::os::unix::ffi::OsStrExt;
    let place = Place::with_table_t();
    let bytes = OsStr::from_bytes(b"\xff\xfe");
    zagvirk([bytes])
        .run()
        .fails_with("zagvirk: there is no command ");
    zagvirk([OsStr::new("check"), bytes])
        .run()
        .fails_with("No such file or directory");
    let option = OsStr::from_bytes(b"--\xff");
    zagvirk([OsStr::new("words"), option])
        .run()
        .fails_with("there is no option --");
    zagvirk(["run", "table.txt"].map(OsStr::new).iter().chain([&bytes]))
        .inside(&place)
        .run()
        .fails_with("(refusal 8)");
}

/// What a terminal would obey is shown as an escape.
#[test]
fn control_characters() {
    zagvirk(["a\x1b[1mb"])
        .run()
        .fails_with("there is no command 'a\\u{1b}[1mb'\n");
    zagvirk(["check", "a\nb", ""]).run().is(
        2,
        "",
        "zagvirk: a\\nb: No such file or directory (os error 2)\n\
         zagvirk: '': No such file or directory (os error 2)\n",
    );
    zagvirk(["check", "--\r"])
        .run()
        .fails_with("there is no option --\\r ");
}

/// The example of each help text prints what stands there.
#[test]
fn examples() {
    let folder = std::path::Path::new(env!("CARGO_BIN_EXE_zagvirk"))
        .parent()
        .unwrap();
    let path = format!(
        "{}:{}",
        folder.display(),
        std::env::var("PATH").unwrap_or_default()
    );
    for command in &COMMANDS {
        let place = Place::with_table_t();
        place.file("some-two.txt", SOME_TWO);
        place.file("odd-ones.txt", ODD_ONES);
        place.file("even.txt", EVEN);
        let (_, example) = command
            .help
            .split_once("\nExample:\n  $ ")
            .expect("an example");
        let (line, expected) = example.split_once('\n').expect("a line");
        if line.contains("| dot ") && Command::new("dot").arg("-V").output().is_err() {
            println!(
                "help, example of {}: skipped, Graphviz is not installed",
                command.name
            );
            continue;
        }
        let expected: String = expected
            .lines()
            .map(|line| format!("{}\n", line.strip_prefix("  ").unwrap_or(line)))
            .collect();
        let ran = Command::new("sh")
            .args(["-c", line])
            .env("PATH", &path)
            .current_dir(place.path())
            .stdin(Stdio::null())
            .output()
            .expect("sh");
        let printed = String::from_utf8_lossy(&ran.stdout);
        assert_eq!(printed, expected, "{}: {line}\n{ran:?}", command.name);
        assert!(ran.stderr.is_empty(), "{}: {line}\n{ran:?}", command.name);
    }
}

/// The options of a help text: what begins with a hyphen at the beginning of a line.
fn options(help: &str) -> BTreeSet<String> {
    let lines = help.lines().filter_map(|line| line.strip_prefix("  "));
    lines
        .map(str::trim_start)
        .filter(|line| line.starts_with('-'))
        .flat_map(|line| {
            line.split([' ', ','])
                .take_while(|part| part.is_empty() || part.starts_with('-'))
        })
        .filter(|part| !part.is_empty())
        .map(str::to_string)
        .collect()
}

/// The source of the manual page, with hyphens as they are printed.
fn manual() -> String {
    let path = repository().join("man/zagvirk.1");
    let text = fs::read_to_string(&path).unwrap_or_else(|e| panic!("{}: {e}", path.display()));
    text.replace("\\-", "-")
}

/// Each command has a section with its usage and all of its options, and no others.
#[test]
fn manual_has_commands_and_options() {
    let manual = manual();
    for command in &COMMANDS {
        let usage = command.help.lines().next().expect("a line");
        let usage = usage
            .strip_prefix("Usage: zagvirk ")
            .expect("a usage")
            .replace("..", "...");
        let heading = format!("\n.SS {usage}\n");
        let (_, section) = manual
            .split_once(&heading)
            .unwrap_or_else(|| panic!("{heading:?}"));
        let section = section.split("\n.S").next().expect("a section");
        let named: BTreeSet<String> = section
            .lines()
            .filter(|line| line.starts_with(".B -") || line.starts_with(".BR -"))
            .flat_map(|line| line.split([' ', ',', '"']))
            .filter(|part| part.len() > 1 && part.starts_with('-'))
            .map(str::to_string)
            .collect();
        assert_eq!(named, options(command.help), "{}", command.name);
    }
    for option in options(HELP) {
        assert!(manual.contains(&format!("zagvirk {option}")), "{option}");
    }
    assert!(manual.contains("\n.SS help [COMMAND]\n"));
}

/// `man` and `groff` print the page without a warning.
#[test]
fn manual_renders() {
    let page = repository().join("man/zagvirk.1");
    for (program, arguments) in [
        ("man", &["--warnings=w", "-E", "UTF-8", "-l"][..]),
        ("groff", &["-man", "-ww", "-z", "-Tutf8"]),
    ] {
        if Command::new(program).arg("--version").output().is_err() {
            println!("help, manual page: skipped, {program} is not installed");
            continue;
        }
        let ran = Command::new(program)
            .args(arguments)
            .arg(&page)
            .env("MANWIDTH", "80")
            .env("LC_ALL", "C.UTF-8")
            .stdin(Stdio::null())
            .output()
            .expect("the page");
        let warnings = String::from_utf8_lossy(&ran.stderr);
        assert!(
            ran.status.success() && warnings.is_empty(),
            "{program}: {warnings}"
        );
        if program == "man" {
            let text = String::from_utf8_lossy(&ran.stdout);
            if text.contains("has been minimized") {
                println!("help, manual page: skipped, this system has a man that shows nothing");
                continue;
            }
            for heading in ["NAME", "SYNOPSIS", "COMMANDS", "EXIT STATUS", "EXAMPLES"] {
                assert!(text.contains(heading), "{heading}: {text}");
            }
        }
    }
}

/// What bash completes, for these words of which the last is completed.
fn completed(words: &[&str]) -> Option<BTreeSet<String>> {
    let script = repository().join("completion/zagvirk.bash");
    let line = r#"source "$0" && COMP_WORDS=("$@") && COMP_CWORD=$(($# - 1)) && _zagvirk && printf '%s\n' "${COMPREPLY[@]}""#;
    let place = Place::with_table_t();
    let ran = Command::new("bash")
        .args(["--norc", "-c", line])
        .arg(&script)
        .args(words)
        .current_dir(place.path())
        .output()
        .ok()?;
    let warnings = String::from_utf8_lossy(&ran.stderr);
    assert!(
        ran.status.success() && warnings.is_empty(),
        "{words:?}: {warnings}"
    );
    let text = String::from_utf8_lossy(&ran.stdout);
    Some(
        text.lines()
            .filter(|line| !line.is_empty())
            .map(str::to_string)
            .collect(),
    )
}

/// The completion knows each command and its options, and no others; other arguments are files.
#[test]
fn completion() {
    let Some(first) = completed(&["zagvirk", ""]) else {
        println!("help, completion: skipped, bash is not installed");
        return;
    };
    let mut names: BTreeSet<String> = COMMANDS
        .iter()
        .map(|command| command.name.to_string())
        .collect();
    names.insert("help".to_string());
    assert_eq!(completed(&["zagvirk", "help", ""]), Some(names.clone()));
    let all: BTreeSet<String> = names.union(&options(HELP)).cloned().collect();
    assert_eq!(first, all);
    let table = BTreeSet::from(["table.txt".to_string()]);
    for command in &COMMANDS {
        let name = command.name;
        assert_eq!(
            completed(&["zagvirk", name, "-"]),
            Some(options(command.help)),
            "{name}"
        );
        assert_eq!(
            completed(&["zagvirk", name, "t"]),
            Some(table.clone()),
            "{name}"
        );
        assert_eq!(
            completed(&["zagvirk", name, "--", "-"]),
            Some(BTreeSet::new()),
            "{name}"
        );
        if options(command.help).contains("-o") {
            assert_eq!(
                completed(&["zagvirk", name, "-o", ""]),
                Some(table.clone()),
                "{name}"
            );
        }
    }
    assert_eq!(completed(&["zagvirk", "chekc", ""]), Some(BTreeSet::new()));
}
