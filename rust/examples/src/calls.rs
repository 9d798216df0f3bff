// Made of `crates/examples/src/calls.rt` by `bench/plain.py`: an edit of this file is lost.

//! A caller for each of some calls, which meets what the call asks for: by a constructor, by what is read, or by a test.

use kit::{eprintln, format, prelude::*, print, println, vec};
pub mod contexts;
pub mod evaluators;
pub mod goals;
