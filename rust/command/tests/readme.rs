//! The terminal lines of the README and of the board's example: each command that they show prints what they show.

use std::path::{Path, PathBuf};
use std::process::Command;

/// The repository.
fn root() -> PathBuf {
    Path::new(env!("CARGO_MANIFEST_DIR")).join("../..")
}

/// The commands that stand behind `$ ` in fenced blocks, each with the lines that follow it. A line of two dots stands for
/// the rest.
fn shown(text: &str) -> Vec<(String, Vec<String>)> {
    let mut commands: Vec<(String, Vec<String>)> = Vec::new();
    let (mut fenced, mut open) = (false, false);
    for line in text.lines() {
        if line.starts_with("```") {
            (fenced, open) = (!fenced, false);
        } else if let Some(command) = line.strip_prefix("$ ").filter(|_| fenced) {
            commands.push((command.to_string(), Vec::new()));
            open = true;
        } else if open {
            let (_, lines) = commands.last_mut().expect("a command");
            lines.push(line.to_string());
        }
    }
    commands
}

/// What a command prints, run by the shell with `zagvirk` on its path: in the repository's root if it names a file of
/// `data`, else in the folder of table T.
fn printed(command: &str) -> String {
    let root = root();
    let folder = match command.contains("data/") {
        true => root,
        false => root.join("data/machines/table-t"),
    };
    let program = Path::new(env!("CARGO_BIN_EXE_zagvirk"));
    let own = program.parent().expect("a folder").to_path_buf();
    let path = std::env::var_os("PATH").unwrap_or_default();
    let path = std::env::join_paths([own].into_iter().chain(std::env::split_paths(&path)));
    let output = Command::new("sh")
        .args(["-c", command])
        .current_dir(folder)
        .env("PATH", path.expect("a path"))
        .output()
        .expect("sh runs");
    String::from_utf8(output.stdout).expect("text")
}

/// Runs the commands that a file of the repository shows; `least` of them at least.
fn compare(file: &str, least: usize) {
    let text = std::fs::read_to_string(root().join(file)).expect("the file");
    let commands = shown(&text);
    let of_ours = |(command, _): &&(String, Vec<String>)| command.contains("zagvirk ");
    let mut count = 0;
    for (command, lines) in commands.iter().filter(of_ours) {
        let printed = printed(command);
        let mut rest = printed.lines();
        let whole = lines.iter().all(|line| line != "..");
        for line in lines.iter().take_while(|line| *line != "..") {
            assert_eq!(rest.next(), Some(line.as_str()), "{command}");
        }
        assert!(!whole || rest.next().is_none(), "{command} prints more");
        count += 1;
    }
    assert!(count >= least, "{count} commands of {file}");
    println!("{count} commands of {file} print what it shows");
}

#[test]
fn readme() {
    compare("README.md", 6);
}

#[test]
fn board() {
    compare("data/board/README.md", 2);
}
