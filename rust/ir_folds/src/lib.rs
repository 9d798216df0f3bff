// Made of `crates/ir_folds/src/lib.rt` by `bench/plain.py`: an edit of this file is lost.

//! Trees folded, instantiated and opened, and super clauses elaborated.

use kit::{eprintln, format, prelude::*, print, println, vec};
pub mod decl;
