// Made of `crates/ir_builder/src/decl.rt` by `bench/plain.py`: an edit of this file is lost.

//! The builder: it takes declarations, and finds what is wrong in them.

use kit::{eprintln, format, prelude::*, print, println, vec};
pub mod builder;
pub mod cycles;
pub mod fault_places;
pub mod faults;
pub mod finishing;
pub mod plain;
pub mod supers;

pub use builder::DeclsBuilder;
pub use fault_places::{DeclError, FaultPlace};
