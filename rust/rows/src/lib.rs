//! Rows that make and call what the libraries offer, and their answers; `docs/ROWS.md` has the notation.
#![allow(unused_imports)]

pub mod candidates;
pub mod context;
pub mod evaluator;
pub mod notation;
pub mod recorder;
pub mod rounds;
