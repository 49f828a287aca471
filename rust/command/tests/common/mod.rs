//! Runs the built command as a process.
//!
//! - [`zagvirk`]: the command with arguments; [`Call::input`], [`Call::inside`], [`Call::run`].
//! - [`Ran`]: its status and what it wrote; [`Ran::is`] asserts all of it.
//! - [`Place`]: a folder of its own for a test, removed at the end.
//! - [`most_memory`]: the most memory that a running process has used.
#![allow(dead_code)]

use std::ffi::{OsStr, OsString};
use std::fs;
use std::io::{Read, Write};
use std::path::{Path, PathBuf};
use std::process::{Child, Command, Stdio};
use std::sync::atomic::{AtomicUsize, Ordering};
use std::thread;
use std::time::{Duration, Instant};

/// The sheet of table T: the doubled words over letters 1 and 2.
pub const TABLE_T: &str = "    3    2    6
    0    5
    1    0
    2   10
    0    0    1
    1    0    2
    1    1    1
    1    2    1
    2    1    2
    2    2    2
";

/// The plain table of the words over letters 1 and 2 that have a 2.
pub const SOME_TWO: &str = "    2    2    4
    0    1
    1    2
    0    1    0
    0    2    1
    1    1    1
    1    2    1
";

/// The plain table of the words over letters 1 and 2 with an odd number of 1.
pub const ODD_ONES: &str = "    2    2    4
    0    1
    1    2
    0    1    1
    0    2    0
    1    1    0
    1    2    1
";

/// The repository's folder.
pub fn repository() -> PathBuf {
    Path::new(env!("CARGO_MANIFEST_DIR")).join("../..")
}

/// Words of every folder of `data/machines`, the first `most` of each: the path of the table, the word, and whether it is
/// accepted.
pub fn words_of_the_machines(most: usize) -> Vec<(String, String, bool)> {
    let mut all = Vec::new();
    for folder in fs::read_dir(repository().join("data/machines")).expect("the machines") {
        let folder = folder.expect("a folder").path();
        let table = folder.join("table.txt");
        let table = table.to_str().expect("a path");
        let text = |name: &str| fs::read_to_string(folder.join(name)).expect("a file");
        let (words, expected) = (text("words.txt"), text("expected.txt"));
        for (word, answer) in words.lines().zip(expected.lines()).take(most) {
            all.push((table.to_string(), word.trim().to_string(), answer != "0"));
        }
    }
    all
}

/// A folder of its own for a test, removed when it is over.
pub struct Place(PathBuf);

impl Place {
    pub fn new() -> Place {
        static PLACES: AtomicUsize = AtomicUsize::new(0);
        let number = PLACES.fetch_add(1, Ordering::Relaxed);
        let name = format!("command-{}-{number}", std::process::id());
        let place = Place(Path::new(env!("CARGO_TARGET_TMPDIR")).join(name));
        fs::create_dir_all(&place.0).expect("a folder");
        place
    }

    /// A folder with table T in `table.txt`.
    pub fn with_table_t() -> Place {
        let place = Place::new();
        place.file("table.txt", TABLE_T);
        place
    }

    pub fn path(&self) -> &Path {
        &self.0
    }

    /// Writes a file here.
    pub fn file(&self, name: &str, bytes: impl AsRef<[u8]>) -> PathBuf {
        let path = self.0.join(name);
        fs::write(&path, bytes).expect("a file");
        path
    }

    /// The bytes of a file here.
    pub fn read(&self, name: &str) -> Vec<u8> {
        fs::read(self.0.join(name)).expect("a file")
    }

    /// The names of what is here, sorted.
    pub fn names(&self) -> Vec<String> {
        let entries = fs::read_dir(&self.0).expect("a folder");
        let mut names: Vec<String> = entries
            .map(|entry| entry.expect("an entry").file_name())
            .map(|name| name.to_string_lossy().into_owned())
            .collect();
        names.sort();
        names
    }
}

impl Drop for Place {
    fn drop(&mut self) {
        let _ = fs::remove_dir_all(&self.0);
    }
}

/// A call of the command that is not made yet.
pub struct Call {
    arguments: Vec<OsString>,
    input: Vec<u8>,
    folder: PathBuf,
}

/// The command with these arguments, in the folder for temporary files, without input.
pub fn zagvirk<A: AsRef<OsStr>>(arguments: impl IntoIterator<Item = A>) -> Call {
    Call {
        arguments: arguments
            .into_iter()
            .map(|argument| argument.as_ref().to_os_string())
            .collect(),
        input: Vec::new(),
        folder: PathBuf::from(env!("CARGO_TARGET_TMPDIR")),
    }
}

impl Call {
    /// Gives these bytes on standard input.
    pub fn input(mut self, bytes: impl AsRef<[u8]>) -> Call {
        self.input = bytes.as_ref().to_vec();
        self
    }

    /// Makes the call in this folder.
    pub fn inside(mut self, place: &Place) -> Call {
        self.folder = place.path().to_path_buf();
        self
    }

    /// The process, not started yet, for what the other functions do not have.
    pub fn command(&self) -> Command {
        let mut command = Command::new(env!("CARGO_BIN_EXE_zagvirk"));
        command.args(&self.arguments).current_dir(&self.folder);
        command
    }

    /// Makes the call and waits for its end.
    pub fn run(self) -> Ran {
        let mut child = self
            .command()
            .stdin(Stdio::piped())
            .stdout(Stdio::piped())
            .stderr(Stdio::piped())
            .spawn()
            .expect("the command");
        let mut stdin = child.stdin.take().expect("a pipe");
        let mut stdout = child.stdout.take().expect("a pipe");
        let mut stderr = child.stderr.take().expect("a pipe");
        let (mut out, mut err) = (Vec::new(), Vec::new());
        thread::scope(|scope| {
            // The command may end before it has read all of its input. The pipe is closed when all is written.
            let input = &self.input;
            scope.spawn(move || {
                let _ = stdin.write_all(input);
            });
            scope.spawn(|| stderr.read_to_end(&mut err).expect("the messages"));
            stdout.read_to_end(&mut out).expect("the output");
        });
        Ran {
            arguments: self.arguments,
            status: wait(&mut child),
            out: String::from_utf8_lossy(&out).into_owned(),
            err: String::from_utf8_lossy(&err).into_owned(),
        }
    }
}

/// The exit status of a process that ends by itself within a minute; no signal may end it.
pub fn wait(child: &mut Child) -> i32 {
    let start = Instant::now();
    loop {
        if let Some(status) = child.try_wait().expect("the status") {
            return status.code().expect("a status, no signal");
        }
        if start.elapsed() > Duration::from_secs(60) {
            child.kill().expect("a running process");
            panic!("the command does not end");
        }
        thread::sleep(Duration::from_micros(200));
    }
}

/// What a call did.
#[derive(Debug)]
pub struct Ran {
    arguments: Vec<OsString>,
    pub status: i32,
    /// Standard output.
    pub out: String,
    /// Standard error.
    pub err: String,
}

impl Ran {
    /// Asserts the status, the output and the messages, to the byte.
    pub fn is(&self, status: i32, out: &str, err: &str) {
        assert_eq!(
            (self.status, self.out.as_str(), self.err.as_str()),
            (status, out, err),
            "zagvirk {:?}",
            self.arguments
        );
    }

    /// Asserts status 2, no output, and a message that has this text. No message has the word panicked.
    pub fn fails_with(&self, message: &str) {
        assert_eq!((self.status, self.out.as_str()), (2, ""), "{self:?}");
        assert!(self.err.contains(message), "{self:?}");
        assert!(
            self.err.ends_with('\n') && !self.err.contains("panicked"),
            "{self:?}"
        );
    }
}

/// The most memory in kB that a running process has used until now, where the system says it.
pub fn most_memory(child: &Child) -> Option<u64> {
    let status = fs::read_to_string(format!("/proc/{}/status", child.id())).ok()?;
    let line = status
        .lines()
        .find_map(|line| line.strip_prefix("VmHWM:"))?;
    line.trim().strip_suffix("kB")?.trim().parse().ok()
}

/// Asserts that the command ends with status 141 and without a message if nobody reads its output.
pub fn ends_quietly_when_closed(call: Call) {
    let (reader, writer) = std::io::pipe().expect("a pipe");
    drop(reader);
    let ran = call
        .command()
        .stdin(Stdio::null())
        .stdout(writer)
        .output()
        .expect("the command");
    let err = String::from_utf8_lossy(&ran.stderr);
    assert_eq!(
        (ran.status.code(), err.as_ref()),
        (Some(141), ""),
        "{:?}",
        call.arguments
    );
}

/// Asserts that the command ends with status 2 and a message if its output is a full device. Says that it is skipped where
/// the system has none.
pub fn fails_on_full_device(call: Call) {
    let Ok(full) = fs::OpenOptions::new().write(true).open("/dev/full") else {
        println!("no /dev/full here: skipped");
        return;
    };
    let ran = call
        .command()
        .stdin(Stdio::null())
        .stdout(full)
        .output()
        .expect("the command");
    let err = String::from_utf8_lossy(&ran.stderr);
    assert_eq!(ran.status.code(), Some(2), "{:?}: {err}", call.arguments);
    assert!(
        err.starts_with("zagvirk: standard output: No space left on device"),
        "{:?}: {err}",
        call.arguments
    );
}

/// Numbers that look random, the same in each run of the tests.
pub struct Rng(u64);

impl Rng {
    pub fn new(seed: u64) -> Rng {
        Rng(seed ^ 0x9e37_79b9_7f4a_7c15)
    }

    /// 64 bits (xorshift).
    pub fn bits(&mut self) -> u64 {
        self.0 ^= self.0 << 13;
        self.0 ^= self.0 >> 7;
        self.0 ^= self.0 << 17;
        self.0
    }

    /// A number below the limit.
    pub fn below(&mut self, limit: usize) -> usize {
        (self.bits() >> 11) as usize % limit
    }

    /// One of the elements.
    pub fn pick<T: Copy>(&mut self, from: &[T]) -> T {
        from[self.below(from.len())]
    }
}

/// The sheet of a machine, by its letters, the marks of its states and its transitions in any order.
pub fn sheet(letters: usize, marks: &[u8], transitions: &[(usize, usize, usize)]) -> String {
    let mut sorted = transitions.to_vec();
    sorted.sort();
    sorted.dedup();
    let mut text = format!("{:5}{letters:5}{:5}\n", marks.len(), sorted.len());
    for (state, mark) in marks.iter().enumerate() {
        text += &format!("{state:5}{mark:5}\n");
    }
    for (from, letter, to) in sorted {
        text += &format!("{from:5}{letter:5}{to:5}\n");
    }
    text
}

/// A sheet of up to `states` states and `letters` letters.
pub fn random_sheet(rng: &mut Rng, states: usize, letters: usize) -> String {
    let states = 1 + rng.below(states);
    let letters = rng.below(letters + 1);
    let mut marks: Vec<u8> = (0..states)
        .map(|_| rng.pick(&[0, 1, 2, 3, 4, 5, 6, 8, 9, 10]))
        .collect();
    marks[0] |= 1;
    let transitions: Vec<(usize, usize, usize)> = (0..rng.below(4 * states + 1))
        .map(|_| (rng.below(states), rng.below(letters + 1), rng.below(states)))
        .collect();
    sheet(letters, &marks, &transitions)
}
