//! C programs of `tests/c`, compiled with the header and linked with the archive.

use std::path::{Path, PathBuf};
use std::process::Command;

/// Warnings of the C compiler, all of them errors.
pub const STRICT: [&str; 4] = ["-Wall", "-Wextra", "-Werror", "-pedantic"];

/// The repository's folder.
pub fn repository() -> PathBuf {
    Path::new(env!("CARGO_MANIFEST_DIR")).join("../..")
}

/// Runs the command and asserts that it succeeds without a word on standard error.
pub fn run(command: &mut Command) -> String {
    let output = command
        .output()
        .unwrap_or_else(|e| panic!("{command:?}: {e}"));
    let errors = String::from_utf8_lossy(&output.stderr);
    assert!(
        output.status.success(),
        "{command:?}: {}\n{errors}",
        output.status
    );
    assert!(errors.is_empty(), "{errors}");
    String::from_utf8_lossy(&output.stdout).into_owned()
}

/// Compiles the program `tests/c/NAME.c` into the folder, runs it and returns what it prints.
pub fn program(name: &str, folder: &str) -> String {
    let program = Path::new(folder).join(name);
    run(Command::new("cc")
        .args(["-std=c99", "-pthread"])
        .args(STRICT)
        .arg("-I")
        .arg(repository().join("include"))
        .arg(Path::new(env!("CARGO_MANIFEST_DIR")).join(format!("tests/c/{name}.c")))
        .arg(Path::new(env!("EXPORTS_FOLDER")).join("libexports.a"))
        .arg("-o")
        .arg(&program));
    run(&mut Command::new(&program))
}
