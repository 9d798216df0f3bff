// Made of `crates/ir_builder/src/lib.rt` by `bench/plain.py`: an edit of this file is lost.

//! The builder that takes declarations, and the faults that it finds in them.

use kit::{eprintln, format, prelude::*, print, println, vec};
pub mod decl;

impl std::error::Error for crate::decl::fault_places::DeclError {}
