// Made of `crates/ir_context/src/decl/make.rt` by `bench/plain.py`: an edit of this file is lost.

//! What makes nodes.


use kit::{eprintln, format, prelude::*, print, println, vec};
use crate::decl::context::Cx;
use ir_trees::ir::kinds::{
    Args, Binder, Clause, ClauseKind, ClosureSig, Const, ConstKind, ExistentialPredicate,
    GenericArg, ParamEnv, Preds, Region, RegionKind, Sig, Ty, TyKind, VarKind, Vars,
};
use ir_trees::ir::making::New;
use ir_trees::ir::stop::Stop;

/// Declarations that go on, a context, or something over one, that nodes can be added to. Its calls change nothing else.
///
/// Equal things have one number: what is there already isn't made again, and its number is answered.
///
/// `Stop::Memory` comes where a growth was refused, `Stop::NodesFull` where no number is left or the tree would be higher than
/// 1,024. Neither changes anything. `mk_vars` and `mk_preds` take at most a number for each member and one more, and `Stop::NodesFull`
/// comes where fewer are left. Types and constants add one to a height, all else nothing.
pub trait Build: Sized {
    // The declarations, and the trees of the numbers given so far.

    // The type of all else.

    // All else.

    // Whether the arguments of what is made have to be those that its definition takes: a context asks it, and `finish` asks it
    // of all that a builder made.

    /// The number of what is made.
    fn make(&mut self, new: New<'_>) -> Result<u32, Stop>
        ;

    /// The type of that kind, whose arguments are those that it takes, as `Cx::args_fit` tests.
    ///
    /// A binder is kept as it is given. In Rust a binder has the variables that occur below it, in the order of their first
    /// occurrence: with others, a type that Rust takes for one is two.
    #[inline(never)]
    fn mk_ty(&mut self, kind: TyKind) -> Result<Ty, Stop>
    {
        Ok(Ty(self.make(New::Ty(kind))?))
    }

    /// The constant of that kind, whose arguments are those that it takes, as `Cx::const_args_fit` tests.
    fn mk_const(&mut self, kind: ConstKind) -> Result<Const, Stop>
    {
        Ok(Const(self.make(New::Const(kind))?))
    }

    /// The region of that kind.
    #[inline(never)]
    fn mk_region(&mut self, kind: RegionKind) -> Result<Region, Stop>
    {
        Ok(Region(self.make(New::Region(kind))?))
    }

    /// The list of these arguments.
    fn mk_args(&mut self, list: &[GenericArg]) -> Result<Args, Stop>
    {
        Ok(Args(self.make(New::Args(list))?))
    }

    /// The variables of a binder, by their kinds.
    fn mk_vars(&mut self, kinds: &[VarKind]) -> Result<Vars, Stop>
    {
        Ok(Vars(self.make(New::Vars(kinds))?))
    }

    /// The bounds of a `dyn` type, of which one at most is by a trait that isn't an auto trait, with the arguments that they
    /// take, as `Cx::bounds_args_fit` tests.
    ///
    /// The list is kept as it is given. In Rust the bounds are a set: whoever gives them in two orders, or one twice, makes two
    /// types of one.
    fn mk_preds(&mut self, bounds: &[Binder<ExistentialPredicate>]) -> Result<Preds, Stop>
    {
        Ok(Preds(self.make(New::Preds(bounds))?))
    }

    /// The signature of a closure.
    fn mk_sig(&mut self, sig: Binder<ClosureSig>) -> Result<Sig, Stop>
    {
        Ok(Sig(self.make(New::Sig(sig))?))
    }

    /// The clause under its binder, whose arguments are those that it takes, as `Cx::clause_args_fit` tests.
    #[inline(never)]
    fn mk_clause(&mut self, clause: Binder<ClauseKind>) -> Result<Clause, Stop>
    {
        Ok(Clause(self.make(New::Clause(clause))?))
    }

    /// The environment of these clauses, in their order.
    fn mk_param_env(&mut self, clauses: &[Clause]) -> Result<ParamEnv, Stop>
    {
        Ok(ParamEnv(self.make(New::ParamEnv(clauses))?))
    }
}

/// A context, or something over one, that lends it while nodes are made.
pub trait Make: Build {
    /// The context.
    fn cx(&self) -> &Cx
        ;
}

impl Make for Cx {
    fn cx(&self) -> &Cx {
        self
    }
}
