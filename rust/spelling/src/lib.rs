// Made of `crates/spelling/src/lib.rt` by `bench/plain.py`: an edit of this file is lost.

//! Types, references, clauses and headers of impls, as Rust spells them.

use kit::{eprintln, format, prelude::*, print, println, vec};
pub mod clauses;
pub mod types;

pub use types::Spelling;

#[cfg(test)]
mod tests;
