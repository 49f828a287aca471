//! A list of words, one a line, a bounded part of it at a time.

use crate::input::Source;
use crate::status::Failure;

/// The most bytes of a part. A line of so many bytes or more is cut.
pub const PART: usize = 1 << 17;
/// So many bytes of a line that is cut are kept.
const KEPT: usize = 300;

/// Some lines of a list.
pub struct Part {
    /// Room for a part and a line end.
    buffer: Vec<u8>,
    /// The bytes of the lines, at the front of the buffer.
    length: usize,
    /// Whether the first line is only the front of one that is cut.
    pub cut: bool,
}

impl Part {
    /// The lines, each with its line end.
    pub fn lines(&self) -> &[u8] {
        self.buffer.get(..self.length).unwrap_or_default()
    }

    /// Where the last complete line stops, behind its line end, in the first `filled` bytes.
    fn last_stop(&self, filled: usize) -> Option<usize> {
        let bytes = self.buffer.get(..filled)?;
        let end = bytes.iter().rposition(|&byte| byte == b'\n')?;
        Some(end + 1)
    }
}

impl Default for Part {
    fn default() -> Part {
        Part {
            buffer: vec![0; PART + 1],
            length: 0,
            cut: false,
        }
    }
}

/// A list of words that is being read. Memory: less than that of a part, however long the list or a line of it is.
pub struct List {
    source: Source,
    /// Whether lines are handed on as soon as they are read, and not only when a part is full.
    at_once: bool,
    /// The front of a line whose end is not read yet.
    rest: Vec<u8>,
    /// Whether the rest of a line that is cut is still to be skipped.
    skip: bool,
    ended: bool,
    /// The number of bytes read in all.
    read: u64,
}

impl List {
    /// The list that the source has. `at_once` hands lines on as soon as they are read, for whoever looks on.
    pub fn new(source: Source, at_once: bool) -> List {
        List {
            source,
            at_once,
            rest: Vec::new(),
            skip: false,
            ended: false,
            read: 0,
        }
    }

    /// The name of the list for messages.
    pub fn name(&self) -> &str {
        &self.source.name
    }

    /// Whether lines are handed on as soon as they are read.
    pub fn is_at_once(&self) -> bool {
        self.at_once
    }

    /// Whether all of it is read.
    pub fn has_ended(&self) -> bool {
        self.ended
    }

    /// The number of bytes read, and of all where it is known.
    pub fn bytes(&self) -> (u64, Option<u64>) {
        (self.read, self.source.size)
    }

    /// Fills the part with the next lines, one at least; false at the end, when there is none. A last line without a line
    /// end gets one; if it is empty it is none.
    pub fn next(&mut self, part: &mut Part) -> Result<bool, Failure> {
        part.cut = false;
        let mut filled = self.rest.len();
        if let Some(front) = part.buffer.get_mut(..filled) {
            front.copy_from_slice(&self.rest);
        }
        loop {
            self.fill(part, &mut filled)?;
            if let Some(stop) = part.last_stop(filled) {
                part.length = stop;
                let rest = part.buffer.get(stop..filled).unwrap_or_default();
                self.rest.clear();
                self.rest.extend_from_slice(rest);
                return Ok(true);
            }
            if self.ended {
                self.rest.clear();
                part.length = end_last_line(&mut part.buffer, filled);
                return Ok(part.length > 0);
            }
            if filled == PART {
                filled = KEPT;
                part.cut = true;
                self.skip = true;
            }
        }
    }

    /// Reads more bytes, once if lines are handed on at once, else until the part is full or the list ends.
    fn fill(&mut self, part: &mut Part, filled: &mut usize) -> Result<(), Failure> {
        while *filled < PART && !self.ended {
            let room = part.buffer.get_mut(*filled..PART).unwrap_or_default();
            let read = self.source.read(room)?;
            self.ended = read == 0;
            self.read += u64::try_from(read).unwrap_or(0);
            *filled += self.kept(room.get_mut(..read).unwrap_or_default());
            if self.at_once {
                break;
            }
        }
        Ok(())
    }

    /// Drops what belongs to the rest of a line that is cut, and gives how many of the bytes just read are left, at their
    /// front.
    fn kept(&mut self, read: &mut [u8]) -> usize {
        if !self.skip {
            return read.len();
        }
        let Some(end) = read.iter().position(|&byte| byte == b'\n') else {
            return 0;
        };
        read.copy_within(end.., 0);
        self.skip = false;
        read.len() - end
    }
}

/// Gives the last line a line end, unless it is empty, and gives the number of its bytes.
fn end_last_line(buffer: &mut [u8], filled: usize) -> usize {
    match buffer.get_mut(filled) {
        Some(end) if filled > 0 => {
            *end = b'\n';
            filled + 1
        }
        _ => 0,
    }
}
