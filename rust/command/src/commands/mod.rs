//! The commands. Each is a module with its help text, `HELP`, and `run`.

pub mod check;
pub mod check_run;
pub mod common;
pub mod dot;
pub mod join;
pub mod page;
pub mod run;
pub mod show;
pub mod why;
pub mod words;
