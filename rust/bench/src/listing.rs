//! The listing: yes or no for many words over a table that is prepared once.

use crate::measure::{best_of_both, least_within, REPETITIONS};
use crate::plain_listing::{self, MOST_WORDS};
use crate::recognize::{words, Table};
use crate::words::{print_row, rows, tables};
use std::fs::{self, File, OpenOptions};
use std::path::{Path, PathBuf};
use std::process::Command;

/// The time in seconds that the faster of the two has to take at least, unless the most words take less.
const ENOUGH: f64 = 0.03;
/// The words of a first try, by which it is known how many are enough.
const TRIED: usize = 1000;
/// The most calls of a first try, and the time in seconds that is enough for them.
const CALLS: usize = 5;
const ENOUGH_TRIED: f64 = 0.5;

/// The proved program: the one that ZAGVIRK_LISTING names, or else target/bin/listing of the repository.
fn program() -> Option<PathBuf> {
    let path = match std::env::var_os("ZAGVIRK_LISTING") {
        Some(path) => PathBuf::from(path),
        None => Path::new(env!("CARGO_MANIFEST_DIR")).join("../../target/bin/listing"),
    };
    path.canonicalize().ok()
}

/// A folder with a table and words, in which both programs list them. It is removed at the end.
struct Place {
    folder: PathBuf,
    program: PathBuf,
}

impl Place {
    fn new(program: PathBuf, table: &Table) -> Place {
        let name = format!("zagvirk-bench-{}", std::process::id());
        let folder = std::env::temp_dir().join(name);
        fs::create_dir_all(&folder).expect("a folder");
        fs::write(folder.join("table.txt"), table.sheet()).expect("table.txt");
        Place { folder, program }
    }

    /// Takes the input for the next listings.
    fn put(&self, input: &[u8]) {
        for name in ["proved.txt", "plain.txt"] {
            let _ = fs::remove_file(self.folder.join(name));
        }
        fs::write(self.folder.join("words.txt"), input).expect("words.txt");
    }

    fn input(&self) -> File {
        File::open(self.folder.join("words.txt")).expect("words.txt")
    }

    /// The file of a listing. A listing of the same words before is written over, which has as many bytes.
    fn output(&self, name: &str) -> File {
        let mut options = OpenOptions::new();
        options.write(true).create(true).truncate(false);
        options.open(self.folder.join(name)).expect("an output")
    }

    /// Lists the words by the proved program.
    fn proved(&self) {
        let status = Command::new(&self.program)
            .current_dir(&self.folder)
            .stdin(self.input())
            .stdout(self.output("proved.txt"))
            .status();
        assert!(status.is_ok_and(|status| status.code().is_some()));
    }

    /// Lists the words by plain Rust.
    fn plain(&self) {
        let table = fs::read(self.folder.join("table.txt")).expect("table.txt");
        plain_listing::list(&table, self.input(), self.output("plain.txt")).expect("no failure");
    }

    /// The listing, if both are the same to the byte.
    fn listed(&self) -> Vec<u8> {
        let [proved, plain] = ["proved.txt", "plain.txt"].map(|name| {
            let path = self.folder.join(name);
            fs::read(&path).expect("a listing")
        });
        assert!(proved == plain, "the listings are not the same");
        proved
    }

    /// The least times in seconds of the two programs.
    fn times(&self) -> (f64, f64) {
        best_of_both(|| self.proved(), || self.plain())
    }
}

impl Drop for Place {
    fn drop(&mut self) {
        let _ = fs::remove_dir_all(&self.folder);
    }
}

/// So many lines with the words one after another, from the first on again after the last.
fn lines(words: &[Vec<u8>], count: usize) -> Vec<u8> {
    let mut text = Vec::new();
    for word in words.iter().cycle().take(count) {
        for letter in word {
            text.extend(format!("{letter:5}").into_bytes());
        }
        text.push(b'\n');
    }
    text
}

/// The number of words for a measurement, after a first try with some of them; `empty` has the times on no input.
fn enough(place: &Place, words: &[Vec<u8>], empty: (f64, f64)) -> usize {
    place.put(&lines(words, TRIED));
    let proved = least_within(CALLS, ENOUGH_TRIED, || place.proved()) - empty.0;
    let plain = least_within(CALLS, ENOUGH_TRIED, || place.plain()) - empty.1;
    let faster = proved.min(plain).max(1e-6) / TRIED as f64;
    ((ENOUGH / faster) as usize).clamp(TRIED, MOST_WORDS)
}

/// Prints the times of the listing.
pub fn section() {
    let Some(program) = program() else {
        println!("The listing: not measured, since the proved program is not there. Build it in the repository's");
        println!("folder by: tools/built program");
        return;
    };
    println!(
        "The listing: yes or no for each word of a list, over a table that is prepared once. The tables and words are those"
    );
    println!(
        "of section recognize. Words per second, by wall time, best of {REPETITIONS} after a first one, less the time on an empty"
    );
    println!(
        "input (start of the process, the sheet, the table). The proved program is a process, plain Rust a function; both"
    );
    println!(
        "read the same file and write a file, and these are the same to the byte. Yes: of the words of the row, which come"
    );
    println!(
        "over and over. Listed: words in the file. Ratio: time of the proved program / time of plain Rust."
    );
    println!();
    println!("| table | letters | words | yes | listed | proved | plain Rust | ratio |");
    println!("|---|---|---|---|---|---|---|---|");
    let mut empties = Vec::new();
    for table in &tables() {
        let place = Place::new(program.clone(), table);
        place.put(b"");
        let empty = place.times();
        empties.push((table.name, empty));
        for (length, kind) in rows(table) {
            row(&place, table, length, kind, empty);
        }
    }
    println!();
    println!("On an empty input, milliseconds:");
    for (name, (proved, plain)) in empties {
        println!(
            "{name}: proved {:.3}, plain Rust {:.3}",
            1e3 * proved,
            1e3 * plain
        );
    }
}

/// Prints the row of a table and words of a length and a kind.
fn row(place: &Place, table: &Table, length: usize, kind: &str, empty: (f64, f64)) {
    let words = words(kind, table.letters, length);
    let count = enough(place, &words, empty);
    place.put(&lines(&words, count));
    let (proved, plain) = place.times();
    let times = (proved - empty.0, plain - empty.1);
    let listed = place.listed();
    assert_eq!(listed.len(), 16 * (count + 1));
    let answers = listed.chunks_exact(16).skip(1).take(words.len());
    let yes = answers.filter(|line| line[9] == b'1').count();
    let share = format!("{yes}/{}", words.len());
    print_row(table, length, kind, &share, count, times);
}
