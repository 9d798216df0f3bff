// Made of `crates/assembly_text/src/lib.rt` by `bench/plain.py`: an edit of this file is lost.

//! Declarations and queries as a text, a line each, and the answers to the queries: what the program does.

use kit::{eprintln, format, prelude::*, print, println, vec};
mod asking;
mod checking;
mod commands;
mod comparing;
mod considering;
mod declaring;
mod explaining;
pub mod help;
mod hints;
mod input;
mod lines;
mod listing;
mod nearest;
mod object_trees;
mod objects;
mod openness;
pub mod options;
mod pair_reasons;
mod placing;
pub mod prelude;
mod printing;
mod reasons;
mod refusals;
pub mod run;
mod saying;
mod solving;
mod stops;
mod telling;
mod together;
