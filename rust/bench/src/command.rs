//! The command `zagvirk words` beside `pcre2grep`, which is what a table writer would take else: a regular expression with
//! back references for the same language.

use crate::measure::{best_of_both, REPETITIONS};
use crate::recognize::{table_t, zones, Numbers, Table};
use std::fs::{self, File};
use std::path::{Path, PathBuf};
use std::process::Command;

/// The words of a list, and their letters.
const WORDS: usize = 1_000_000;
const LETTERS: usize = 8;

/// The command, which is built into the folder of this program.
fn command() -> Option<PathBuf> {
    let path = match std::env::var_os("ZAGVIRK_COMMAND") {
        Some(path) => PathBuf::from(path),
        None => std::env::current_exe().ok()?.with_file_name("zagvirk"),
    };
    path.canonicalize().ok()
}

/// The expression for the words of T: a part twice.
fn doubled() -> String {
    r"^([ab]*)\1$".to_string()
}

/// The expression for the words of the table of ten zones: in each zone a part twice, then some of six letters.
fn ten_zones() -> String {
    let zone = |number: u8| {
        let letter = |place: u8| char::from(b'a' + number + place);
        format!(r"([a-t]*)\{}[{}-{}]*", number + 1, letter(0), letter(5))
    };
    let zones: String = (0..10).map(zone).collect();
    format!("^{zones}$")
}

/// Spelled words, one a line: a part twice, and any letters, in turn.
fn list(letters: usize) -> Vec<u8> {
    let mut numbers = Numbers(88_172_645_463_325_252);
    let mut text = Vec::with_capacity(WORDS * (LETTERS + 1));
    for number in 0..WORDS {
        let start = text.len();
        let new = if number % 2 == 0 {
            LETTERS / 2
        } else {
            LETTERS
        };
        text.extend((0..new).map(|_| b'a' + numbers.below(letters) as u8));
        text.extend_from_within(start..start + LETTERS - new);
        text.push(b'\n');
    }
    text
}

/// A folder with a table and words. It is removed at the end.
struct Place(PathBuf);

impl Place {
    fn new(table: &Table) -> Place {
        let name = format!("zagvirk-bench-command-{}", std::process::id());
        let folder = std::env::temp_dir().join(name);
        fs::create_dir_all(&folder).expect("a folder");
        fs::write(folder.join("table.txt"), table.sheet()).expect("table.txt");
        fs::write(folder.join("words.txt"), list(table.letters)).expect("words.txt");
        Place(folder)
    }

    /// Runs a program in the folder, its output in a file there; the status is that of a search with an answer.
    fn run(&self, program: &Path, arguments: &[&str], output: &str) {
        let status = Command::new(program)
            .args(arguments)
            .current_dir(&self.0)
            .stdout(File::create(self.0.join(output)).expect("an output"))
            .status()
            .expect("the program runs");
        assert!(matches!(status.code(), Some(0 | 1)), "{status}");
    }
}

impl Drop for Place {
    fn drop(&mut self) {
        let _ = fs::remove_dir_all(&self.0);
    }
}

/// Measures a table and prints its row.
fn row(command: &Path, table: &Table, expression: &str) {
    let place = Place::new(table);
    let proved = || {
        place.run(
            command,
            &["words", "--yes", "table.txt", "words.txt"],
            "proved",
        )
    };
    let grep = || place.run(Path::new("pcre2grep"), &[expression, "words.txt"], "grep");
    let (proved, grep) = best_of_both(proved, grep);
    let [first, second] =
        ["proved", "grep"].map(|name| fs::read(place.0.join(name)).expect("an output"));
    assert!(first == second, "the two find the same words");
    let yes = first.len() / (LETTERS + 1);
    let rate = |time: f64| WORDS as f64 / time / 1e6;
    println!(
        "| {} | {yes} | {:.1} | {:.1} | {:.2} |",
        table.name,
        rate(proved),
        rate(grep),
        proved / grep
    );
}

/// Prints the times of the command.
pub fn section() {
    let Some(command) = command() else {
        println!("The command is not built: `cargo build --release -p command`.");
        return;
    };
    if Command::new("pcre2grep").arg("--version").output().is_err() {
        println!(
            "pcre2grep is not installed (Debian package pcre2-utils): the command is not measured."
        );
        return;
    }
    println!(
        "The command `zagvirk words --yes` on a file of {WORDS} words of {LETTERS} letters beside pcre2grep with an expression for the same words; both"
    );
    println!(
        "write the words that they find to a file, which are the same. Million words per second, wall time, best of {REPETITIONS}. Ratio: time of the"
    );
    println!("command / time of pcre2grep.");
    println!();
    println!("| table | yes | zagvirk words | pcre2grep | ratio |");
    println!("|---|---|---|---|---|");
    row(&command, &table_t(), &doubled());
    row(&command, &zones(), &ten_zones());
}
