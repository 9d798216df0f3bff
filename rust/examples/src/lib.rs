// Made of `crates/examples/src/lib.rt` by `bench/plain.py`: an edit of this file is lost.

//! Clients of the libraries, with what each of them can promise: whether a crate may write an impl, what keeps two impls apart, whether a goal
//! holds or is refused in coherence, and the orphan check with normalisers of its own. Each calls generic calls at types of its own, and the
//! tests call each client once. `calls` has callers of single calls, which no test calls.

use kit::{eprintln, format, prelude::*, print, println, vec};
pub mod apart;
#[cfg(test)]
mod asserts;
pub mod calls;
#[cfg(test)]
mod clients;
#[cfg(test)]
mod coherence;
#[cfg(test)]
mod declared;
pub mod holds;
#[cfg(test)]
mod normalisers;
pub mod normalising;
pub mod refused;
pub mod writing;
