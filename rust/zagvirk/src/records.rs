//! The calls with their records as they cross the boundary: the mode and the refusal are bytes. Use these where a
//! configuration comes from elsewhere and its mode may be any byte.

/// A machine's record (document 01: table).
///
/// A machine keeps the rules if it has 1 to 64 states, at most 250 letters and at most 4,000 transitions; each mark is a
/// sum of 1 (initial), 2 (final), 4 (buffering) and 8 (matching), never with 4 and 8 together; marks past the last
/// state are 0; and its list has for each transition from-state, letter and to-state, which are there, in strictly
/// rising order. Letter 0 is epsilon. Elements of the list past three times the count are not looked at.
#[derive(Clone, Copy, PartialEq, Eq, Debug)]
#[repr(C)]
pub struct Machine {
    pub states: usize,
    pub letters: usize,
    pub transitions: usize,
    pub marks: [u8; 64],
}

impl Machine {
    /// The record of a machine with one state for each mark.
    ///
    /// # Panics
    ///
    /// With more than 64 marks.
    pub fn new(letters: usize, transitions: usize, marks: &[u8]) -> Machine {
        let mut all = [0; 64];
        all[..marks.len()].copy_from_slice(marks);
        Machine {
            states: marks.len(),
            letters,
            transitions,
            marks: all,
        }
    }
}

/// A machine's record and the list of its transitions, as the calls take them.
///
/// ```
/// use zagvirk::{Machine, Table};
/// let machine = Machine::new(1, 1, &[1, 2]);
/// let list = [0, 1, 1];
/// let table = Table::new(&machine, &list);
/// assert_eq!(zagvirk::check_run(table, &[1], &[0, 0]), Ok(true));
/// ```
#[derive(Clone, Copy, PartialEq, Eq, Debug)]
pub struct Table<'a> {
    pub machine: &'a Machine,
    pub list: &'a [u16],
}

impl<'a> Table<'a> {
    /// The record and its list. Nothing is tested here: each call tests the table that it is given.
    pub fn new(machine: &'a Machine, list: &'a [u16]) -> Table<'a> {
        Table { machine, list }
    }
}

/// A configuration; mode 0 is normal, 1 buffering, 2 emptying. From any other mode no move is allowed.
#[derive(Clone, Copy, PartialEq, Eq, Hash, Debug)]
#[repr(C)]
pub struct Config {
    pub position: usize,
    pub state: usize,
    pub mode: u8,
    pub start: usize,
    pub end: usize,
}

impl From<crate::Config> for Config {
    fn from(config: crate::Config) -> Config {
        Config {
            position: config.position,
            state: config.state,
            mode: config.mode as u8,
            start: config.start,
            end: config.end,
        }
    }
}

/// The result of [`step`]: `refusal` is 0, 16, 9 or 8. If it is 0 and `allowed` is 1, `config` is the next
/// configuration; otherwise `config` is the one that came in.
#[derive(Clone, Copy, PartialEq, Eq, Debug)]
#[repr(C)]
pub struct Stepped {
    pub refusal: u8,
    pub allowed: u8,
    pub config: Config,
}

/// The result of [`check_run`]: `refusal` is 0, 16, 9 or 8; `accepting` is 1 or 0.
#[derive(Clone, Copy, PartialEq, Eq, Debug)]
#[repr(C)]
pub struct Checked {
    pub refusal: u8,
    pub accepting: u8,
}

extern "C" {
    fn zagvirk_step(
        machine: Machine,
        list: *const u16,
        list_len: usize,
        word: *const u8,
        word_len: usize,
        config: Config,
        entry: u16,
    ) -> Stepped;

    fn zagvirk_check_run(
        machine: Machine,
        list: *const u16,
        list_len: usize,
        word: *const u8,
        word_len: usize,
        run: *const u16,
        run_len: usize,
    ) -> Checked;
}

/// One move, as [`crate::step`].
pub fn step(table: Table, word: &[u8], config: Config, entry: u16) -> Stepped {
    // SAFETY: a slice's pointer is not null and is good for its length, also where that is 0. The call only reads.
    unsafe {
        zagvirk_step(
            *table.machine,
            table.list.as_ptr(),
            table.list.len(),
            word.as_ptr(),
            word.len(),
            config,
            entry,
        )
    }
}

/// The run checker, as [`crate::check_run`].
pub fn check_run(table: Table, word: &[u8], run: &[u16]) -> Checked {
    // SAFETY: as above; the call only reads.
    unsafe {
        zagvirk_check_run(
            *table.machine,
            table.list.as_ptr(),
            table.list.len(),
            word.as_ptr(),
            word.len(),
            run.as_ptr(),
            run.len(),
        )
    }
}
