// Made of `crates/ir_folds/src/decl.rt` by `bench/plain.py`: an edit of this file is lost.

//! What goes through a tree and makes another: folds, instantiation, opened binders and elaboration.

use kit::{eprintln, format, prelude::*, print, println, vec};
pub mod answering;
pub mod elaborate;
pub mod fold;
pub mod open;
pub mod parameters;
pub mod subst;
