// Made of `crates/candidate_ir/src/lib.rt` by `bench/plain.py`: an edit of this file is lost.

//! Types of the object language as nodes of a table, which contracts see as finite trees, and the
//! declarations that the types name.

use kit::{eprintln, format, prelude::*, print, println, vec};
pub mod decl;
pub mod ir;
