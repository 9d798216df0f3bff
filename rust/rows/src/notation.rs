//! Rows of text: a row's words and operands, the values that operands are read into, and how answers are printed. `docs/ROWS.md` has the
//! notation. Other modules say what rows ask.

pub mod answers;
pub mod leaves;
pub mod names;
pub(crate) mod operators;
pub mod parts;
pub(crate) mod printing;
pub mod reader;
pub mod refusals;
pub mod rows;
pub mod tables;
pub mod terms;
pub mod transcript;
pub mod typed;
pub mod values;
pub mod words;
