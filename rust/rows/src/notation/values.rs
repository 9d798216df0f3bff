//! What words leave on the stack: bare numbers, and what isn't a node yet. Nothing is kept of them: whoever uses a number looks at it
//! anew.

use candidate_ir::ir::kinds::{Args, Binder, ExistentialPredicate, FnSig, TraitId, TraitRef};
use kit::prelude::*;

/// The number of no node.
const NOWHERE: u32 = u32::MAX;

/// What a word leaves.
#[derive(Clone, Copy)]
pub enum Value {
    /// There is none.
    Nothing,
    /// A type, a constant, a region, a list, the variables of a binder, or another node.
    Node(u32),
    /// How many of those before it a word is to take.
    Count(u32),
    /// A definition that is named with a dot, so that it takes no arguments.
    Definition(u32),
    Reference(TraitRef),
    /// A bound of a `dyn` type.
    Bound(Binder<ExistentialPredicate>),
    /// The signature of a function.
    Signature(Binder<FnSig>),
}

/// The last four values, the last of all first.
pub(crate) type Last = [Value; 4];

impl Value {
    /// The number of the node or of the definition, or no number of any.
    pub fn node(self) -> u32 {
        match self {
            Value::Node(number) | Value::Definition(number) => number,
            _ => NOWHERE,
        }
    }

    /// The reference, or one to no trait.
    pub fn reference(self) -> TraitRef {
        match self {
            Value::Reference(reference) => reference,
            _ => TraitRef {
                def_id: TraitId(NOWHERE),
                args: Args(NOWHERE),
            },
        }
    }
}
