//! Input: files, standard input in the place of one, and sheets.

use crate::locate;
use crate::status::Failure;
use crate::word::printable;
use std::ffi::{OsStr, OsString};
use std::fs::File;
use std::io::{self, Read};
use zagvirk::{sheet, Machine, Table};

/// The most bytes of a sheet.
pub const MOST_SHEET_BYTES: usize = 64_720;
/// The most transitions of a sheet.
const MOST_TRANSITIONS: usize = 4_000;

/// A file or standard input, open for reading.
pub struct Source {
    /// The name for messages.
    pub name: String,
    /// The number of bytes, where it is known before they are read.
    pub size: Option<u64>,
    reader: Box<dyn Read>,
}

/// The name of the input for messages.
pub fn name(path: &OsStr) -> String {
    match path.to_string_lossy().as_ref() {
        "-" => "(standard input)".to_string(),
        "" => "''".to_string(),
        name => printable(name),
    }
}

impl Source {
    /// Opens the file at the path, or standard input for `-`.
    pub fn open(path: &OsStr) -> Result<Source, Failure> {
        let name = name(path);
        if path == "-" {
            return Ok(Source {
                name,
                size: None,
                reader: Box::new(io::stdin()),
            });
        }
        let file = File::open(path).map_err(|error| cannot(&name, &error))?;
        let size = file.metadata().ok().filter(|found| found.is_file());
        Ok(Source {
            name,
            size: size.map(|found| found.len()),
            reader: Box::new(file),
        })
    }

    /// How many bytes the next read puts to the front of the buffer; 0 at the end.
    pub fn read(&mut self, buffer: &mut [u8]) -> Result<usize, Failure> {
        loop {
            match self.reader.read(buffer) {
                Err(error) if error.kind() == io::ErrorKind::Interrupted => {}
                read => return read.map_err(|error| cannot(&self.name, &error)),
            }
        }
    }

    /// All bytes, or the first `most` of them if there are more.
    pub fn read_at_most(&mut self, most: usize) -> Result<Vec<u8>, Failure> {
        let mut bytes = Vec::new();
        let limit = u64::try_from(most).unwrap_or(u64::MAX);
        let mut limited = self.reader.by_ref().take(limit);
        limited
            .read_to_end(&mut bytes)
            .map_err(|error| cannot(&self.name, &error))?;
        Ok(bytes)
    }
}

fn cannot(name: &str, error: &io::Error) -> Failure {
    Failure::Cannot(format!("{name}: {error}"))
}

/// All bytes of the file at the path, or of standard input for `-`; of more than `most` bytes the first `most`.
pub fn read_at_most(path: &OsStr, most: usize) -> Result<Vec<u8>, Failure> {
    Source::open(path)?.read_at_most(most)
}

/// Fails if standard input is to be read twice.
pub fn standard_input_once(command: &'static str, paths: &[&OsStr]) -> Result<(), Failure> {
    match paths.iter().filter(|path| **path == "-").count() {
        0 | 1 => Ok(()),
        _ => Err(Failure::Usage {
            command: Some(command),
            what: "only one of the files can be standard input".to_string(),
        }),
    }
}

/// A machine read from a sheet, with its list of transitions.
#[derive(Clone, Debug)]
pub struct Sheet {
    /// The name of the file for messages.
    pub name: String,
    pub machine: Machine,
    /// From, letter and to of each transition.
    pub list: Vec<u16>,
}

impl Sheet {
    /// Reads the sheet in the file at the path, or on standard input for `-`. A sheet that is turned down fails with the
    /// place of its first fault.
    ///
    /// Memory: that of the largest sheet, however large the file is. A byte more than the largest sheet has is refused as
    /// all bytes behind the last line are.
    pub fn read(path: &OsStr) -> Result<Sheet, Failure> {
        let bytes = read_at_most(path, MOST_SHEET_BYTES + 1)?;
        Sheet::parse(name(path), &bytes)
    }

    /// The sheet in the bytes.
    pub fn parse(name: String, bytes: &[u8]) -> Result<Sheet, Failure> {
        let mut list = vec![0; 3 * MOST_TRANSITIONS];
        match sheet::read(bytes, &mut list) {
            Ok(machine) => {
                list.truncate(3 * machine.transitions);
                Ok(Sheet {
                    name,
                    machine,
                    list,
                })
            }
            Err(refusal) => Err(locate::failure(&name, bytes, refusal)),
        }
    }

    /// The machine and its list, as the calls take them.
    pub fn table(&self) -> Table<'_> {
        Table::new(&self.machine, &self.list)
    }
}

/// The path of an optional argument: standard input if it is missing.
pub fn or_standard_input(path: Option<&OsStr>) -> OsString {
    path.unwrap_or(OsStr::new("-")).to_os_string()
}
