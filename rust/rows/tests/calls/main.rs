//! Calls of the libraries that rows don't make: goals of another kind, contexts that are declared by calls, and what stops and faults print.

mod asserts;
mod normalizing;
mod numbers;
mod overlapping;
mod texts;
