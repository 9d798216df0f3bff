// Made of `crates/assembly_notation/src/lib.rt` by `bench/plain.py`: an edit of this file is lost.

//! The types, clauses and declarations that a text writes, as they are read and made, and what is said where they can't be.

use kit::{eprintln, format, prelude::*, print, println, vec};
mod bounds;
pub mod building;
mod counting;
pub mod faults;
pub mod first;
pub mod given;
pub mod making;
pub mod names;
pub mod notation;
pub mod numbering;
pub mod reading;
pub mod shapes;
pub mod types;
pub mod words;

impl std::error::Error for crate::faults::Fault<'_> {}
