// Made of `crates/ir_context/src/lib.rt` by `bench/plain.py`: an edit of this file is lost.

//! The context over declarations without a fault, in which types are made.

use kit::{eprintln, format, prelude::*, print, println, vec};
pub mod decl;
