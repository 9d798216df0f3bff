// Made of `crates/candidate_eval/src/eval/mode.rt` by `bench/plain.py`: an edit of this file is lost.

//! What a goal is asked for.


use kit::{eprintln, format, prelude::*, print, println, vec};
/// What a goal is asked for, which decides what counts as known.
#[derive(Clone, Copy, Debug, PartialEq, Eq)]
pub enum TypingMode {
    /// Whether impls overlap: other crates may write more of them.
    Coherence,
    /// The types of a body.
    Analysis,
    /// The borrows of a body.
    Borrowck,
    /// What follows the borrows.
    PostBorrowckAnalysis,
    /// The code that is made: opaque types are seen through.
    PostAnalysis,
}

impl TypingMode {
    /// Whether headers of impls are compared, as if other crates could still write impls.
    pub fn is_coherence(self) -> bool
    {
        matches!(self, TypingMode::Coherence)
    }
}
