//! A reference implementation of finite-state buffered machines (FSBMs).
//!
//! It follows the rules of document 01 and Definitions 10 to 13 of source 000 word for word and searches by
//! brute force. It is meant to be plainly right, not fast.
//!
//! - [`Record`]: a machine's record as a caller passes it, beside its list of transitions.
//! - [`Machine`]: a machine that keeps the rules of "The table".
//! - [`Refusal`]: the number of a refusal and the length a slice needs.
//! - [`moves`]: the one-entry move with the buffer as a stretch of the word, and the run checker.
//! - [`published`]: configurations with strings, the relation "yields", recognition by breadth-first search.
//! - [`shortest`]: recognition of long words, with the shortest run that comes first in order of its entries.
//! - [`accepts`]: yes or no without a run, for a word and for a list of words.
//! - [`reach`]: the states that runs reach at each position of a word in each mode.
//! - [`sheet`]: reader and writer of sheets.
//! - [`spelling`]: written words to letters.
//! - [`product`]: the joined machine.
//! - [`copies`]: the copy list of a run, and all its copies.
//! - [`page`]: the page of a run.
//! - [`common`]: a shortest common word of two small machines.
//! - [`relations`]: the least number of letters of a word that a small machine accepts, for words of any length.
//! - [`listing`]: the listing program as a function from bytes to bytes.
//! - [`folder`]: the machines of the folder `data/machines`.
//! - [`families`]: families of machines that tests go through.
//!
//! # Example
//!
//! ```
//! use reference::{published, Machine};
//!
//! // Doubled words over letters 1 and 2.
//! let machine = Machine::new(
//!     2,
//!     &[5, 0, 10],
//!     &[(0, 0, 1), (1, 0, 2), (1, 1, 1), (1, 2, 1), (2, 1, 2), (2, 2, 2)],
//! );
//! assert!(published::find_run(&machine, &[1, 2, 1, 2]).is_some());
//! assert!(published::find_run(&machine, &[1, 2, 2, 1]).is_none());
//! ```

pub mod accepts;
pub mod common;
pub mod copies;
pub mod families;
pub mod folder;
pub mod listing;
mod machine;
pub mod moves;
pub mod page;
pub mod product;
pub mod published;
pub mod reach;
mod refusal;
pub mod relations;
pub mod sheet;
pub mod shortest;
pub mod spelling;
mod word;

pub use machine::{Machine, Record, Transition, BUFFERING, FINAL, INITIAL, MATCHING};
pub use moves::{Config, BACK_TO_NORMAL, BEGIN_BUFFERING, BEGIN_EMPTYING};
pub use refusal::Refusal;
pub use word::{check_word, LONGEST_CHECKED, LONGEST_RECOGNIZED};
