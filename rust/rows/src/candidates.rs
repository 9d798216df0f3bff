//! Rows of text that ask the rules by which goals of traits are proved, for all candidates, and which candidates win.

pub(crate) mod aliases;
pub mod considering;
pub mod preferring;
pub mod proving;
pub mod starting;
