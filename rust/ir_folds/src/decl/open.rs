// Made of `crates/ir_folds/src/decl/open.rt` by `bench/plain.py`: an edit of this file is lost.

//! Clauses out of their binders.


use kit::{eprintln, format, prelude::*, print, println, vec};
use crate::decl::answering::{PureFolder, fold_once};
use crate::decl::elaborate::add_kinds;
use crate::decl::subst::{nth_argument, shifted};
use ir_context::decl::context::Cx;
use ir_context::decl::make::Make;
use ir_trees::ir::heads::{ConstHead, Head, Marks};
use ir_trees::ir::kinds::{
    Args, Binder, BoundVar, Clause, ConstKind, GenericArg, RegionKind, TyKind, VarKind, Vars,
};
use ir_trees::ir::numbered::Numbered;
use ir_trees::ir::quiet::holds_bound;
use ir_trees::ir::stop::Stop;
use ir_trees::ir::trees::Trees;
use kit::alloc::{AllocError, Global};

/// The bound variable that a head is, with its kind.
pub(crate) fn bound_variable_of(head: Head) -> Option<(VarKind, BoundVar)>
{
    match head {
        Head::Bound(var) => Some((VarKind::Ty, var)),
        Head::Const(ConstHead::Bound(var)) => Some((VarKind::Const, var)),
        Head::Region(RegionKind::Bound(var)) => Some((VarKind::Region, var)),
        _ => None,
    }
}

/// The bound variable of that kind.
pub(crate) fn bound_variable<M: Make>(
    make: &mut M,
    kind: VarKind,
    var: BoundVar,
) -> Result<GenericArg, Stop>
{
    match kind {
        VarKind::Ty => Ok(GenericArg::Ty(make.mk_ty(TyKind::Bound(var))?)),
        VarKind::Const => Ok(GenericArg::Const(make.mk_const(ConstKind::Bound(var))?)),
        VarKind::Region => Ok(GenericArg::Region(make.mk_region(RegionKind::Bound(var))?)),
    }
}

/// The error of that kind.
fn error_of<M: Make>(make: &mut M, kind: VarKind) -> Result<GenericArg, Stop>
{
    match kind {
        VarKind::Ty => Ok(GenericArg::Ty(make.mk_ty(TyKind::Error)?)),
        VarKind::Const => Ok(GenericArg::Const(make.mk_const(ConstKind::Error)?)),
        VarKind::Region => Ok(GenericArg::Region(make.mk_region(RegionKind::Error)?)),
    }
}

/// The value of that number, if there is one and it is of that kind.
fn value_of_kind(cx: &Cx, values: Args, kind: VarKind, index: u32) -> Option<GenericArg>
{
    let value = nth_argument(cx, values, index)?;
    if value.is_of(kind) { Some(value) } else { None }
}

/// What stands under so many binders for a variable of the binder that is gone.
fn value_under<M: Make>(
    alloc: Global,
    make: &mut M,
    values: Args,
    kind: VarKind,
    index: u32,
    binders: u32,
) -> Result<GenericArg, Stop>
{
    match value_of_kind(make.cx(), values, kind, index) {
        Some(value) => shifted(alloc, make, value, binders),
        None => error_of(make, kind),
    }
}

/// What stands for a bound variable under so many binders, where something does.
fn opened_variable<M: Make>(
    alloc: Global,
    make: &mut M,
    values: Args,
    kind: VarKind,
    var: BoundVar,
    binders: u32,
) -> Result<Option<GenericArg>, Stop>
{
    if var.depth == binders {
        let value = value_under(alloc, make, values, kind, var.index, binders)?;
        return Ok(Some(value));
    }
    if var.depth < binders {
        return Ok(None);
    }
    let nearer = BoundVar {
        depth: var.depth - 1,
        index: var.index,
    };
    Ok(Some(bound_variable(make, kind, nearer)?))
}

/// What stands for a part of what stood under the binder, under so many binders.
fn opened_part<M: Make>(
    alloc: Global,
    make: &mut M,
    values: Args,
    arg: GenericArg,
    binders: u32,
) -> Result<Option<GenericArg>, Stop>
{
    let head = make.cx().head(arg.number());
    match bound_variable_of(head) {
        Some((kind, var)) => opened_variable(alloc, make, values, kind, var, binders),
        None => Ok(None),
    }
}

/// What stands for a part of a clause that stood under the binder, under so many binders, the clause's own among them.
fn opened_inside<M: Make>(
    alloc: Global,
    make: &mut M,
    values: Args,
    arg: GenericArg,
    binders: u32,
) -> Result<Option<GenericArg>, Stop>
{
    opened_part(alloc, make, values, arg, binders.saturating_sub(1))
}

/// What `opened_part` answers.
#[derive(Clone, Copy, Debug)]
struct Opening {
    values: Args,
}

impl<M: Make> PureFolder<M> for Opening {



    fn may_answer(&self, marks: Marks) -> bool {
        marks.has_bound()
    }

    fn answer(
        &self,
        alloc: Global,
        make: &mut M,
        arg: GenericArg,
        binders: u32,
    ) -> Result<Option<GenericArg>, Stop> {
        opened_part(alloc, make, self.values, arg, binders)
    }

    fn recall_laws(&self) {}
}

/// What `opened_inside` answers.
#[derive(Clone, Copy, Debug)]
struct OpeningBelow {
    values: Args,
}

impl<M: Make> PureFolder<M> for OpeningBelow {



    fn may_answer(&self, marks: Marks) -> bool {
        marks.has_bound()
    }

    fn answer(
        &self,
        alloc: Global,
        make: &mut M,
        arg: GenericArg,
        binders: u32,
    ) -> Result<Option<GenericArg>, Stop> {
        opened_inside(alloc, make, self.values, arg, binders)
    }

    fn recall_laws(&self) {}
}

/// The kinds of a binder's variables, in order. The only error is a refused growth.
pub fn variable_kinds(alloc: Global, cx: &Cx, vars: Vars) -> Result<Vec<VarKind>, AllocError>
{
    let mut kinds = Vec::new(alloc);
    add_kinds(cx, &mut kinds, vars)?;
    Ok(kinds)
}

/// The kinds of the variables of a clause's binder.
pub fn binder_kinds(alloc: Global, cx: &Cx, clause: Clause) -> Result<Vec<VarKind>, AllocError>
{
    debug_assert!(ir_trees::checks::is_sorted(&*cx, clause), "ir_folds::decl::open::binder_kinds: `clause` is {:?}, no number of its sort in this context", clause);
    let mut kinds = Vec::new(alloc);
    add_kinds(cx, &mut kinds, cx.clause(clause).vars)?;
    Ok(kinds)
}

/// The clause with values in the place of the variables of its binder, which still stands above them.
fn opened_below<M: Make>(
    alloc: Global,
    make: &mut M,
    clause: Clause,
    values: Args,
) -> Result<Clause, Stop>
{
    if !holds_bound(make.cx(), clause.0) {
        return Ok(clause);
    }
    let number = fold_once(alloc, make, &OpeningBelow { values }, clause.0)?;
    Ok(Clause(number))
}

/// What stood under a binder, with the list's value of its number in the place of each variable of that binder, as by
/// `open_clause`: a type, a list of arguments, or whatever else it is. It stops as `open_clause` does.
pub fn replace_bound_vars<N: Numbered, M: Make>(
    alloc: Global,
    make: &mut M,
    under: N,
    values: Args,
) -> Result<N, Stop>
{
    debug_assert!(ir_trees::checks::is_sorted(ir_context::decl::make::Make::cx(&*make), values), "ir_folds::decl::open::replace_bound_vars: `values` is {:?}, no number of its sort in this context", values);
    let whole = under.number();
    if !holds_bound(make.cx(), whole) {
        return Ok(under);
    }
    let number = fold_once(alloc, make, &Opening { values }, whole)?;
    Ok(under.with_number(number))
}

/// The clause under an empty binder, with the list's value of its number in the place of each variable of its own binder,
/// shifted by the binders that it stands under. Where there is no value of the variable's kind, the error of that kind stands
/// there. What is bound further out is bound one binder nearer.
///
/// `Stop::Memory` comes where a growth was refused, `Stop::NodesFull` where no numbers are left, or fewer than a list of bounds
/// takes, the clause would be higher than 1,024, or a bound variable would be bound more than 2^32 - 1 binders out. After a stop
/// the nodes that were made stay.
pub fn open_clause<M: Make>(
    alloc: Global,
    make: &mut M,
    clause: Clause,
    values: Args,
) -> Result<Clause, Stop>
{
    debug_assert!(ir_trees::checks::is_sorted(ir_context::decl::make::Make::cx(&*make), clause), "ir_folds::decl::open::open_clause: `clause` is {:?}, no number of its sort in this context", clause);
    debug_assert!(ir_trees::checks::is_sorted(ir_context::decl::make::Make::cx(&*make), values), "ir_folds::decl::open::open_clause: `values` is {:?}, no number of its sort in this context", values);
    make.cx().recall_well_formed();
    let opened = opened_below(alloc, make, clause, values)?;
    let vars = make.mk_vars(&[])?;
    make.cx().recall_well_formed();
    let value = make.cx().clause(opened).value;
    make.mk_clause(Binder { vars, value })
}
