// Made of `crates/ir_trees/src/ir/making.rt` by `bench/plain.py`: an edit of this file is lost.

//! What can be made.

use kit::{eprintln, format, prelude::*, print, println, vec};
use crate::ir::kinds::{
    Binder, Clause, ClauseKind, ClosureSig, ConstKind, ExistentialPredicate, GenericArg,
    RegionKind, TyKind, VarKind,
};

/// What is to get a number.
#[derive(Debug)]
pub enum New<'a> {
    Ty(TyKind),
    Const(ConstKind),
    Region(RegionKind),
    /// A list of arguments.
    Args(&'a [GenericArg]),
    /// The variables of a binder, by their kinds.
    Vars(&'a [VarKind]),
    /// The bounds of a `dyn` type.
    Preds(&'a [Binder<ExistentialPredicate>]),
    /// The signature of a closure.
    Sig(Binder<ClosureSig>),
    Clause(Binder<ClauseKind>),
    ParamEnv(&'a [Clause]),
}
