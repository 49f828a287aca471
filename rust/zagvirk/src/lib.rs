//! Safe calls of the proved library for finite-state buffered machines (FSBMs): finite automata with a buffer that
//! accept words in which a part is repeated.
//!
//! - [`Machine`]: a machine's record. Its transitions stand in a list of 16-bit numbers beside it.
//! - [`Table`]: a record and its list, as the calls take them.
//! - [`Config`], [`Mode`]: a configuration of a run.
//! - [`step`]: one move of a run.
//! - [`check_run`]: whether a run accepts a word.
//! - [`sheet`]: reading and writing of sheets, the text form of a machine.
//! - [`spelling`]: written words to letters.
//! - [`product`]: the product of a machine with a plain machine.
//! - [`copies`]: the copy list of an accepting run, without copies of no letters.
//! - [`page`]: the page of an accepting run, a line for each entry.
//! - [`recognize`]: whether a machine accepts a word, with a run.
//! - [`accepts`]: yes or no without a run, for a word or for each word of a list.
//! - [`reach`]: the states that runs reach at each position of a word, and why a word is not accepted.
//! - [`common`]: a shortest word that a machine and a plain machine both accept, with a run of each.
//! - [`Refusal`]: why a call turned its input down.
//! - [`records`]: `step` and `check_run` with the records as they cross the boundary, for any mode byte.
//!
//! # Example
//!
//! ```
//! use zagvirk::{check_run, Machine, Table, BACK_TO_NORMAL, BEGIN_BUFFERING, BEGIN_EMPTYING};
//!
//! // Doubled words over letters 1 and 2.
//! let machine = Machine::new(2, 6, &[5, 0, 10]);
//! let list = [0, 0, 1, 1, 0, 2, 1, 1, 1, 1, 2, 1, 2, 1, 2, 2, 2, 2];
//! let doubled = Table::new(&machine, &list);
//! let run = [0, BEGIN_BUFFERING, 0, 2, 3, 1, BEGIN_EMPTYING, 4, 5, BACK_TO_NORMAL];
//! assert_eq!(check_run(doubled, &[1, 2, 1, 2], &run), Ok(true));
//! assert_eq!(check_run(doubled, &[1, 2, 2, 1], &run), Ok(false));
//! ```
//!
//! # Trade-offs
//!
//! Each call checks its machine and its word again before it moves, so a loop over [`step`] costs a pass over both for
//! each entry; [`check_run`] does so once for a whole run. Recognition also prepares its machine at each call:
//! [`accepts::accept_words`] does so once for a whole list of words, and [`accepts::answers`] once for 65,536 words of an
//! iterator. [`recognize::recognize`] writes a run of a word that is accepted, which takes longer than the answer.
//!
//! No call allocates but [`common::find`], [`accepts::answers`] and [`reach::reach`]. A call that writes does so only to
//! the slices it takes as `&mut`: on success at their fronts, on a refusal nowhere.
//!
//! The stack that a thread needs for a call stands in `include/zagvirk.h`, measured: 480 KB at most, for [`recognize`].
//!
//! [`Refusal`], [`Config`] and what the calls hand back may get more cases and fields with later versions, so they are
//! `#[non_exhaustive]`: a match on a refusal has a last arm for the others.

pub mod accepts;
pub mod common;
pub mod copies;
pub mod page;
pub mod product;
pub mod reach;
pub mod recognize;
pub mod records;
mod refusal;
pub mod sheet;
pub mod spelling;

pub use records::{Machine, Table};
pub use refusal::Refusal;

/// Mark of an initial state.
pub const INITIAL: u8 = 1;
/// Mark of a final state.
pub const FINAL: u8 = 2;
/// Mark of a buffering state.
pub const BUFFERING: u8 = 4;
/// Mark of a matching state.
pub const MATCHING: u8 = 8;

/// Entry of a run: normal mode becomes buffering mode.
pub const BEGIN_BUFFERING: u16 = 65_533;
/// Entry of a run: buffering mode becomes emptying mode.
pub const BEGIN_EMPTYING: u16 = 65_534;
/// Entry of a run: emptying mode becomes normal mode.
pub const BACK_TO_NORMAL: u16 = 65_535;

/// The most letters of a word to check a run on.
pub const LONGEST_WORD: usize = 1_048_576;

/// The mode of a configuration.
#[derive(Clone, Copy, PartialEq, Eq, Hash, Debug)]
#[repr(u8)]
pub enum Mode {
    /// Letters are read.
    Normal = 0,
    /// Letters are read and stored in the buffer (document 01: storing).
    Buffering = 1,
    /// Letters are read and matched with the buffer (document 01: matching).
    Emptying = 2,
}

/// A configuration: the position in the word, the state, the mode, and the buffer `word[start..end]`. It is made by
/// [`Config::initial`] and by [`step`]; its fields can be set.
#[derive(Clone, Copy, PartialEq, Eq, Hash, Debug)]
#[non_exhaustive]
pub struct Config {
    pub position: usize,
    pub state: usize,
    pub mode: Mode,
    pub start: usize,
    pub end: usize,
}

impl Config {
    /// Where a run starts: position 0, the given state, normal mode, empty buffer.
    pub fn initial(state: usize) -> Config {
        Config {
            position: 0,
            state,
            mode: Mode::Normal,
            start: 0,
            end: 0,
        }
    }
}

/// The configuration after one entry, or `None` if the move is not allowed.
///
/// Refuses, in this order: [`Refusal::MachineBroken`], [`Refusal::WordTooLong`], [`Refusal::WordLetter`].
///
/// No move is allowed from a configuration with a position past the word's end, an absent state, or a buffer that is
/// not a stretch of the word ending at or before the position (buffering mode: ending at it; normal mode: empty), nor
/// by an entry that names nothing.
///
/// Time: one pass over the machine and the word. Memory: constant.
pub fn step(
    table: Table,
    word: &[u8],
    config: Config,
    entry: u16,
) -> Result<Option<Config>, Refusal> {
    let stepped = records::step(table, word, config.into(), entry);
    Refusal::check(stepped.refusal, 0)?;
    Ok((stepped.allowed == 1).then_some(Config {
        position: stepped.config.position,
        state: stepped.config.state,
        mode: match stepped.config.mode {
            0 => Mode::Normal,
            1 => Mode::Buffering,
            _ => Mode::Emptying,
        },
        start: stepped.config.start,
        end: stepped.config.end,
    }))
}

/// Whether the run accepts the word. A run is its start state, then one entry a move.
///
/// Refuses, in this order: [`Refusal::MachineBroken`], [`Refusal::WordTooLong`], [`Refusal::WordLetter`].
///
/// An empty run, a start state that is absent or not initial, and a move that is not allowed make a run that does not
/// accept.
///
/// Time: one pass over the machine, the word and the run. Memory: constant.
pub fn check_run(table: Table, word: &[u8], run: &[u16]) -> Result<bool, Refusal> {
    let checked = records::check_run(table, word, run);
    Refusal::check(checked.refusal, 0)?;
    Ok(checked.accepting == 1)
}
