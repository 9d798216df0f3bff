// Made of `crates/ir_trees/src/decl/limits.rt` by `bench/plain.py`: an edit of this file is lost.

//! Where walks end.


use kit::{eprintln, format, prelude::*, print, println, vec};
/// How far walks go. Declarations with a limit of 0 are refused.
#[derive(Clone, Copy, Debug, PartialEq, Eq)]
pub struct Limits {
    /// How many visits of an orphan check may be nested.
    pub orphan_walk: u16,
    /// How many aliases a chain may have.
    pub alias_chain: u16,
    /// How many constants may be nested.
    pub const_depth: u16,
    /// How many types a characterisation goes down.
    pub recursion: u16,
}

impl Limits {
    /// The limits of declarations that set none: 256 visits, 64 aliases, 128 constants, 128 types.
    pub fn new() -> Self
    {
        Limits {
            orphan_walk: 256,
            alias_chain: 64,
            const_depth: 128,
            recursion: 128,
        }
    }

    /// Whether one of them is 0.
    pub fn is_bad(self) -> bool
    {
        self.orphan_walk == 0
            || self.alias_chain == 0
            || self.const_depth == 0
            || self.recursion == 0
    }
}
