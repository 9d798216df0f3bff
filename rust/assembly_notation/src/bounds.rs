// Made of `crates/assembly_notation/src/bounds.rt` by `bench/plain.py`: an edit of this file is lost.

//! The bounds of a `dyn` type as a set: in which order they stand, and which of them are the same.

use kit::{eprintln, format, prelude::*, print, println, vec};
use crate::words::Words;
use ir_trees::ir::kinds::{Binder, ExistentialPredicate};

/// A bound that is to be read, and the words from it on.
#[derive(Clone, Copy, Debug)]
pub struct Begun<'a> {
    /// What it is, the number of what it names, and how many are written before it.
    pub place: (u8, u32, u16),
    pub words: Words<'a>,
}

/// Where a bound stands among others, of which so many are written before it: a principal before the associated types, and auto traits behind
/// these, each by the number of what it names. Bounds by one associated type stand as they are written.
pub fn place_of(bound: Binder<ExistentialPredicate>, before: u16) -> (u8, u32, u16) {
    match bound.value {
        ExistentialPredicate::Trait(trait_ref) => (0, trait_ref.def_id.0, before),
        ExistentialPredicate::Projection(projection) => (1, projection.def_id.0, before),
        ExistentialPredicate::AutoTrait(id) => (2, id.0, before),
    }
}

/// Whether the bound is one of the list.
pub fn is_among(
    list: &[Binder<ExistentialPredicate>],
    bound: Binder<ExistentialPredicate>,
) -> bool {
    for other in list {
        if is_same(*other, bound) {
            return true;
        }
    }
    false
}

/// Whether both are one bound, by the numbers of what they are made of.
fn is_same(a: Binder<ExistentialPredicate>, b: Binder<ExistentialPredicate>) -> bool {
    if a.vars.0 != b.vars.0 {
        return false;
    }
    match (a.value, b.value) {
        (ExistentialPredicate::Trait(a), ExistentialPredicate::Trait(b)) => {
            a.def_id.0 == b.def_id.0 && a.args.0 == b.args.0
        }
        (ExistentialPredicate::Projection(a), ExistentialPredicate::Projection(b)) => {
            a.def_id.0 == b.def_id.0 && a.args.0 == b.args.0 && a.term.0 == b.term.0
        }
        (ExistentialPredicate::AutoTrait(a), ExistentialPredicate::AutoTrait(b)) => a.0 == b.0,
        _ => false,
    }
}
