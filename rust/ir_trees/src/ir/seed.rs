// Made of `crates/ir_trees/src/ir/seed.rt` by `bench/plain.py`: an edit of this file is lost.

//! What the table of nodes hashes with.

use kit::{eprintln, format, prelude::*, print, println, vec};
use kit::hash::{BuildHasher, FoldHasher, Hasher};

/// Makes hashers that have taken a seed, so that who doesn't know it can't pick nodes of one hash. No answer depends on it.
#[derive(Clone, Copy, Debug)]
pub(crate) struct Seeded {
    initial: FoldHasher,
}

impl Seeded {
    #[inline(always)]
    pub fn new(seed: u64) -> Self {
        let mut initial = FoldHasher::default();
        initial.write_u64(seed);
        Seeded { initial }
    }
}

impl BuildHasher for Seeded {
    type Hasher = FoldHasher;


    #[inline(always)]
    fn build_hasher(&self) -> FoldHasher {
        self.initial
    }
}
