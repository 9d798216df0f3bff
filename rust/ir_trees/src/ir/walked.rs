// Made of `crates/ir_trees/src/ir/walked.rt` by `bench/plain.py`: an edit of this file is lost.

//! What a walk has gone through: equal trees have one number, and may stand in many places, into which a walk need go but once.


use kit::{eprintln, format, prelude::*, print, println, vec};
use kit::indexmap::IndexSet;
use kit::alloc::Global;
use kit::hash::Hash;
use kit::marker::Model;

/// So many keys aren't noted, so that a walk over a small tree takes no memory.
const SPARED: u32 = 16;

/// The keys of what a walk has gone through to its end, but for the first few: numbers, or pairs of them.
#[derive(Debug)]
pub struct Walked<K: Copy + Eq + Hash> {
    keys: IndexSet<K>,
    /// How many weren't noted.
    spared: u32,
}

impl<K: Copy + Eq + Hash> Model for Walked<K> {


}

impl<K: Copy + Eq + Hash> Walked<K> {
    /// No key. Nothing is allocated.
    pub fn new(alloc: Global) -> Walked<K>
    {
        Walked {
            keys: IndexSet::new(alloc),
            spared: 0,
        }
    }

    /// Whether the key is noted.
    pub fn has(&self, key: K) -> bool
    {
        self.keys.contains(&key)
    }

    /// Notes the key of something that has so many children, unless it has none, is one of the first few, or a growth is refused: it is
    /// walked again then, where it stands again.
    pub fn note(&mut self, key: K, children: usize)
    {
        if children == 0 {
            return;
        }
        if self.spared < SPARED {
            self.spared += 1;
            return;
        }
        let _ = self.keys.insert(key);
    }
}
