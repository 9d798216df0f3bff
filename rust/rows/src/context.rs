//! Rows of text that declare, and that ask what a context says.

pub mod declaring;
pub mod ir;
pub mod lookups;
pub mod session;
pub(crate) mod words;
