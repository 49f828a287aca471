//! Standard output, and files that are written whole or not at all.

use crate::input;
use crate::status::Failure;
use std::ffi::{OsStr, OsString};
use std::fmt;
use std::fs::{self, File, OpenOptions};
use std::io::{self, ErrorKind, Write};
use std::path::{Path, PathBuf};

/// With so many bytes or more the buffer is written.
const FULL: usize = 1 << 16;

/// Standard output with a buffer. `write!(out, ..)?` and `writeln!(out, ..)?` write text to it.
pub struct Output {
    buffer: Vec<u8>,
    sink: Box<dyn Write>,
}

impl Output {
    /// Standard output.
    pub fn standard() -> Output {
        Output::to(io::stdout())
    }

    /// Whatever takes bytes.
    pub fn to(sink: impl Write + 'static) -> Output {
        Output {
            buffer: Vec::new(),
            sink: Box::new(sink),
        }
    }

    /// Writes bytes.
    pub fn bytes(&mut self, bytes: &[u8]) -> Result<(), Failure> {
        if bytes.len() < FULL {
            self.buffer.extend_from_slice(bytes);
            return self.settle();
        }
        self.send()?;
        self.sink.write_all(bytes).map_err(failure)
    }

    /// Writes text, for the macros `write!` and `writeln!`.
    pub fn write_fmt(&mut self, text: fmt::Arguments<'_>) -> Result<(), Failure> {
        // A vector takes all bytes.
        let _ = self.buffer.write_fmt(text);
        self.settle()
    }

    /// Writes the buffer if it is full.
    fn settle(&mut self) -> Result<(), Failure> {
        match self.buffer.len() < FULL {
            true => Ok(()),
            false => self.send(),
        }
    }

    /// Writes all that is left.
    pub fn flush(&mut self) -> Result<(), Failure> {
        self.send()?;
        self.sink.flush().map_err(failure)
    }

    /// Writes the buffer.
    fn send(&mut self) -> Result<(), Failure> {
        let sent = self.sink.write_all(&self.buffer);
        self.buffer.clear();
        sent.map_err(failure)
    }
}

/// The failure for an error of standard output.
fn failure(error: io::Error) -> Failure {
    match error.kind() {
        ErrorKind::BrokenPipe => Failure::Closed,
        _ => Failure::Cannot(format!("standard output: {error}")),
    }
}

/// Writes the message of a failure to standard error. If that cannot be written either, there is nobody to tell.
pub fn report(failure: &Failure) {
    if let Some(message) = failure.message() {
        let _ = io::stderr().write_all(message.as_bytes());
    }
}

/// Writes a line to standard error that says what to do next. The command has its answer without it.
pub fn hint(line: &str) {
    let _ = io::stderr().write_all(format!("{line}\n").as_bytes());
}

/// Writes a file whole or not at all: to a file with another name in the same folder, which then gets the name. What is no
/// regular file, as `/dev/full` or a pipe, is written itself, and `-` is standard output.
pub fn write_file(path: &OsStr, bytes: &[u8], out: &mut Output) -> Result<(), Failure> {
    if path == "-" {
        return out.bytes(bytes);
    }
    let path = Path::new(path);
    let name = input::name(path.as_os_str());
    let cannot = |error: io::Error| Failure::Cannot(format!("{name}: {error}"));
    match fs::metadata(path) {
        Ok(found) if !found.is_file() => {
            let mut file = OpenOptions::new().write(true).open(path).map_err(cannot)?;
            file.write_all(bytes).map_err(cannot)
        }
        // Through a link the file that it names is replaced, not the link.
        Ok(_) => replace(&fs::canonicalize(path).map_err(cannot)?, bytes).map_err(cannot),
        Err(_) => replace(path, bytes).map_err(cannot),
    }
}

/// Writes a new file beside the path and gives it the path's name; after an error there is no new file.
fn replace(path: &Path, bytes: &[u8]) -> io::Result<()> {
    let (new, mut file) = create_beside(path)?;
    let written = file
        .write_all(bytes)
        .and_then(|()| keep_permissions(path, &file))
        .and_then(|()| file.sync_all())
        .and_then(|()| fs::rename(&new, path));
    if written.is_err() {
        let _ = fs::remove_file(&new);
    }
    written
}

/// A file that was not there before, in the same folder.
fn create_beside(path: &Path) -> io::Result<(PathBuf, File)> {
    let Some(name) = path.file_name() else {
        return Err(io::Error::new(ErrorKind::InvalidInput, "not a file's name"));
    };
    for number in 0..100 {
        let mut new = OsString::from(".");
        new.push(name);
        new.push(format!(".{}.{number}", std::process::id()));
        let new = path.with_file_name(new);
        match OpenOptions::new().write(true).create_new(true).open(&new) {
            Err(error) if error.kind() == ErrorKind::AlreadyExists => {}
            opened => return opened.map(|file| (new, file)),
        }
    }
    Err(ErrorKind::AlreadyExists.into())
}

/// Gives the new file the permissions of the one that it replaces, if there is one.
fn keep_permissions(path: &Path, file: &File) -> io::Result<()> {
    match fs::metadata(path) {
        Ok(found) => file.set_permissions(found.permissions()),
        Err(_) => Ok(()),
    }
}
