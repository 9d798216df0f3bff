// Made of `crates/overlaps/src/lib.rt` by `bench/plain.py`: an edit of this file is lost.

//! Whether two impls of a trait overlap.

use kit::{eprintln, format, prelude::*, print, println, vec};
pub mod allowance;
mod answered;
mod auto;
pub mod clauses;
pub mod instance;
pub mod negation;
mod opening;
mod order;
pub mod overlap;
mod plain;
pub mod reasons;
pub mod specializing;
pub mod together;
