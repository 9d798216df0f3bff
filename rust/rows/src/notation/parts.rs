//! What is to be made, and in what: while declarations are made a builder, then a context, or what is over one.

use crate::notation::refusals::Refusal;
use candidate_ir::decl::builder::DeclsBuilder;
use candidate_ir::decl::context::Cx;
use candidate_ir::decl::make::{Build, Make};
use candidate_ir::ir::heads::{Head, ListHead, PartHead, VariableSort};
use candidate_ir::ir::kinds::{
    Binder, Clause, ClauseKind, ClosureSig, ConstKind, ExistentialPredicate, GenericArg, Pattern,
    RegionKind, TyKind, VarKind,
};
use candidate_ir::ir::numbered::Numbered;
use candidate_ir::ir::stop::Stop;
use candidate_ir::ir::trees::Trees;
use kit::prelude::*;

/// A node to be made.
pub enum Part {
    Ty(TyKind),
    Const(ConstKind),
    Region(RegionKind),
    Args(Vec<GenericArg>),
    Vars(Vec<VarKind>),
    Preds(Vec<Binder<ExistentialPredicate>>),
    Sig(Binder<ClosureSig>),
    Clause(Binder<ClauseKind>),
    Env(Vec<Clause>),
}

/// What a node can be asked to be.
#[derive(Clone, Copy, PartialEq, Eq)]
pub enum NodeSort {
    Ty,
    Const,
    Region,
    Args,
    Preds,
    Vars,
    Sig,
    Clause,
    Env,
    /// One variable of a binder.
    Var,
    /// One bound of a `dyn` type.
    Pred,
}

/// What nodes are made in.
pub trait Table: Sized {
    // The trees of the numbers given so far.

    /// The head of the number's tree, if the number is given.
    fn head_at(&self, number: u32) -> Option<Head>;

    /// The number of the node, or none where its arguments aren't those that it takes.
    fn make(&mut self, part: &Part) -> Result<Option<u32>, Stop>;
}

/// The number of the node that was made.
fn number_of<N: Numbered>(outcome: Result<N, Stop>) -> Result<Option<u32>, Stop> {
    match outcome {
        Ok(made) => Ok(Some(made.number())),
        Err(stop) => Err(stop),
    }
}

impl Table for DeclsBuilder {
    fn head_at(&self, number: u32) -> Option<Head> {
        if (number as usize) < self.node_count() {
            Some(self.head(number))
        } else {
            None
        }
    }

    fn make(&mut self, part: &Part) -> Result<Option<u32>, Stop> {
        match part {
            Part::Ty(kind) => number_of(self.mk_ty(*kind)),
            Part::Const(kind) => number_of(self.mk_const(*kind)),
            Part::Region(kind) => number_of(self.mk_region(*kind)),
            Part::Args(list) => number_of(self.mk_args(list.as_slice())),
            Part::Vars(kinds) => Ok(Some(self.mk_vars(kinds.as_slice())?.0)),
            Part::Preds(bounds) => Ok(Some(self.mk_preds(bounds.as_slice())?.0)),
            Part::Sig(sig) => number_of(self.mk_sig(*sig)),
            Part::Clause(clause) => number_of(self.mk_clause(*clause)),
            Part::Env(clauses) => number_of(self.mk_param_env(clauses.as_slice())),
        }
    }
}

impl Table for Cx {
    fn head_at(&self, number: u32) -> Option<Head> {
        if (number as usize) < self.node_count() {
            Some(self.head(number))
        } else {
            None
        }
    }

    fn make(&mut self, part: &Part) -> Result<Option<u32>, Stop> {
        make_in(self, part)
    }
}

/// The number of the node, or none where its arguments aren't those that it takes.
pub fn make_in<M: Make>(make: &mut M, part: &Part) -> Result<Option<u32>, Stop> {
    if !takes(make.cx(), part) {
        return Ok(None);
    }
    match part {
        Part::Ty(kind) => number_of(make.mk_ty(*kind)),
        Part::Const(kind) => number_of(make.mk_const(*kind)),
        Part::Region(kind) => number_of(make.mk_region(*kind)),
        Part::Args(list) => number_of(make.mk_args(list.as_slice())),
        Part::Vars(kinds) => Ok(Some(make.mk_vars(kinds.as_slice())?.0)),
        Part::Preds(bounds) => Ok(Some(make.mk_preds(bounds.as_slice())?.0)),
        Part::Sig(sig) => number_of(make.mk_sig(*sig)),
        Part::Clause(clause) => number_of(make.mk_clause(*clause)),
        Part::Env(clauses) => number_of(make.mk_param_env(clauses.as_slice())),
    }
}

/// Whether the arguments in the node are those that it takes.
fn takes(cx: &Cx, part: &Part) -> bool {
    match part {
        Part::Ty(kind) => cx.args_fit(*kind),
        Part::Const(kind) => cx.const_args_fit(*kind),
        Part::Preds(bounds) => cx.bounds_args_fit(bounds.as_slice()),
        Part::Clause(clause) => cx.clause_args_fit(*clause),
        Part::Region(_) | Part::Args(_) | Part::Vars(_) | Part::Sig(_) | Part::Env(_) => true,
    }
}

/// What a head is the root of.
fn sort_of_head(head: Head) -> NodeSort {
    match head {
        Head::Const(_) => NodeSort::Const,
        Head::Infer(variable) => match variable.sort {
            VariableSort::Constant => NodeSort::Const,
            VariableSort::General | VariableSort::Integer | VariableSort::Floating => NodeSort::Ty,
        },
        Head::Region(_) => NodeSort::Region,
        Head::List(ListHead::Args) => NodeSort::Args,
        Head::List(ListHead::Preds) => NodeSort::Preds,
        Head::List(ListHead::Clauses) => NodeSort::Env,
        Head::Part(PartHead::Pred(_)) => NodeSort::Pred,
        Head::Part(PartHead::Clause(_)) => NodeSort::Clause,
        Head::Part(PartHead::Sig) => NodeSort::Sig,
        Head::Part(PartHead::Vars) => NodeSort::Vars,
        Head::Part(PartHead::Var(_)) => NodeSort::Var,
        Head::Builtin(_)
        | Head::Ref(_)
        | Head::Adt(_)
        | Head::Foreign(_)
        | Head::Dynamic
        | Head::FnDef(_)
        | Head::Closure(_, _)
        | Head::Param(_)
        | Head::Alias(_, _)
        | Head::Placeholder(_)
        | Head::Bound(_)
        | Head::Error => NodeSort::Ty,
    }
}

/// What the number stands for, if it is given.
pub fn sort_at<T: Table>(table: &T, number: u32) -> Option<NodeSort> {
    Some(sort_of_head(table.head_at(number)?))
}

/// Whether the number stands for something of the sort.
pub fn is_at<T: Table>(table: &T, number: u32, sort: NodeSort) -> bool {
    sort_at(table, number) == Some(sort)
}

/// Whether all numbers in the kind are given, and of their sorts.
pub(crate) fn kind_fits<T: Table>(table: &T, kind: TyKind) -> bool {
    let (a_type, a_list) = (NodeSort::Ty, NodeSort::Args);
    match kind {
        TyKind::Adt(_, list) | TyKind::FnDef(_, list) | TyKind::Tuple(list) => {
            is_at(table, list.0, a_list)
        }
        TyKind::Alias(alias) => is_at(table, alias.args.0, a_list),
        TyKind::Slice(ty) | TyKind::Pat(ty, Pattern::NotNull) | TyKind::RawPtr(ty, _) => {
            is_at(table, ty.0, a_type)
        }
        TyKind::Array(ty, length) => {
            is_at(table, ty.0, a_type) && is_at(table, length.0, NodeSort::Const)
        }
        TyKind::Pat(ty, Pattern::Range(from, to)) => {
            is_at(table, ty.0, a_type)
                && is_at(table, from.0, NodeSort::Const)
                && is_at(table, to.0, NodeSort::Const)
        }
        TyKind::Ref(region, ty, _) => {
            is_at(table, region.0, NodeSort::Region) && is_at(table, ty.0, a_type)
        }
        TyKind::FnPtr(sig) => {
            is_at(table, sig.vars.0, NodeSort::Vars)
                && is_at(table, sig.value.inputs.0, a_list)
                && is_at(table, sig.value.output.0, a_type)
        }
        TyKind::UnsafeBinder(inner) => {
            is_at(table, inner.vars.0, NodeSort::Vars) && is_at(table, inner.value.0, a_type)
        }
        TyKind::Dynamic(preds, region) => {
            is_at(table, preds.0, NodeSort::Preds) && is_at(table, region.0, NodeSort::Region)
        }
        TyKind::Closure(_, closure) => {
            is_at(table, closure.parent.0, a_list)
                && is_at(table, closure.sig.0, NodeSort::Sig)
                && is_at(table, closure.upvars.0, a_type)
        }
        _ => true,
    }
}

/// Whether all numbers in the clause are given, and of their sorts.
pub fn clause_fits<T: Table>(table: &T, clause: Binder<ClauseKind>) -> bool {
    if !is_at(table, clause.vars.0, NodeSort::Vars) {
        return false;
    }
    match clause.value {
        ClauseKind::Trait(predicate) => is_at(table, predicate.trait_ref.args.0, NodeSort::Args),
        ClauseKind::Projection(predicate) => {
            is_at(table, predicate.projection_term.args.0, NodeSort::Args)
                && is_at(table, predicate.term.0, NodeSort::Ty)
        }
        ClauseKind::TypeOutlives(ty, region) => {
            is_at(table, ty.0, NodeSort::Ty) && is_at(table, region.0, NodeSort::Region)
        }
        ClauseKind::RegionOutlives(longer, shorter) => {
            is_at(table, longer.0, NodeSort::Region) && is_at(table, shorter.0, NodeSort::Region)
        }
        ClauseKind::AliasRelate(left, right) => {
            is_at(table, left.0, NodeSort::Ty) && is_at(table, right.0, NodeSort::Ty)
        }
        ClauseKind::ConstEquate(left, right) => {
            is_at(table, left.0, NodeSort::Const) && is_at(table, right.0, NodeSort::Const)
        }
    }
}

/// Whether all numbers in the bound of a `dyn` type are given, and of their sorts.
fn bound_fits<T: Table>(table: &T, bound: Binder<ExistentialPredicate>) -> bool {
    if !is_at(table, bound.vars.0, NodeSort::Vars) {
        return false;
    }
    match bound.value {
        ExistentialPredicate::Trait(reference) => is_at(table, reference.args.0, NodeSort::Args),
        ExistentialPredicate::Projection(projection) => {
            is_at(table, projection.args.0, NodeSort::Args)
                && is_at(table, projection.term.0, NodeSort::Ty)
        }
        ExistentialPredicate::AutoTrait(_) => true,
    }
}

/// Whether all numbers in the bounds are given, and of their sorts, and one bound at most is by a trait that isn't an auto trait.
fn bounds_fit<T: Table>(table: &T, bounds: &[Binder<ExistentialPredicate>]) -> bool {
    let names_trait = |bound: &&Binder<ExistentialPredicate>| {
        matches!(bound.value, ExistentialPredicate::Trait(_))
    };
    for bound in bounds {
        if !bound_fits(table, *bound) {
            return false;
        }
    }
    bounds.iter().filter(names_trait).count() <= 1
}

/// Whether the argument's number is given, and of its sort.
fn arg_fits<T: Table>(table: &T, arg: GenericArg) -> bool {
    match arg {
        GenericArg::Ty(ty) => is_at(table, ty.0, NodeSort::Ty),
        GenericArg::Const(constant) => is_at(table, constant.0, NodeSort::Const),
        GenericArg::Region(region) => is_at(table, region.0, NodeSort::Region),
    }
}

/// Whether all arguments are given, and of their sorts.
fn args_fit<T: Table>(table: &T, list: &[GenericArg]) -> bool {
    for arg in list {
        if !arg_fits(table, *arg) {
            return false;
        }
    }
    true
}

/// Whether all clauses are given.
fn clauses_fit<T: Table>(table: &T, list: &[Clause]) -> bool {
    for clause in list {
        if !is_at(table, clause.0, NodeSort::Clause) {
            return false;
        }
    }
    true
}

/// Whether all numbers in the part are given, and of their sorts.
fn fits<T: Table>(table: &T, part: &Part) -> bool {
    match part {
        Part::Ty(kind) => kind_fits(table, *kind),
        Part::Const(ConstKind::Unevaluated(_, list)) => is_at(table, list.0, NodeSort::Args),
        Part::Args(list) => args_fit(table, list.as_slice()),
        Part::Preds(bounds) => bounds_fit(table, bounds.as_slice()),
        Part::Sig(sig) => {
            is_at(table, sig.vars.0, NodeSort::Vars)
                && is_at(table, sig.value.inputs.0, NodeSort::Ty)
                && is_at(table, sig.value.output.0, NodeSort::Ty)
        }
        Part::Clause(clause) => clause_fits(table, *clause),
        Part::Env(list) => clauses_fit(table, list.as_slice()),
        Part::Const(_) | Part::Region(_) | Part::Vars(_) => true,
    }
}

/// The number of the node. `Refusal::Condition` comes where the numbers in it aren't given or of their sorts, or its arguments aren't
/// those that it takes.
pub fn make<T: Table>(table: &mut T, part: &Part) -> Result<u32, Refusal> {
    if !fits(table, part) {
        return Err(Refusal::Condition);
    }
    table.make(part)?.ok_or(Refusal::Condition)
}
