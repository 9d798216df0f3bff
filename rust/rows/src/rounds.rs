//! Rows of text that declare, make, and call what the libraries offer, and print each row with its answer; `docs/ROWS.md` has the
//! notation. Nothing is promised of the answers but that each call was made as it may be: what they should be is said by the files that
//! they are compared with. What rows ask an evaluator of rounds stands here; all else stands in other modules.

pub(crate) mod asking;
pub(crate) mod assembling;
pub(crate) mod evaluating;
pub(crate) mod explaining;
pub(crate) mod giving;
pub(crate) mod listing;
pub(crate) mod projecting;
pub mod run;
pub(crate) mod tabling;
pub(crate) mod words;
