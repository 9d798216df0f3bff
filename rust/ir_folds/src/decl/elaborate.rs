// Made of `crates/ir_folds/src/decl/elaborate.rt` by `bench/plain.py`: an edit of this file is lost.

//! Super clauses, instantiated.


use kit::{eprintln, format, prelude::*, print, println, vec};
use crate::decl::answering::{PureFolder, fold_once};
use crate::decl::open::{bound_variable, bound_variable_of};
use crate::decl::subst::put;
use kit::indexmap::IndexSet;
use ir_context::decl::context::Cx;
use ir_context::decl::make::Make;
use ir_trees::ir::heads::{ClauseHead, Flag, Head, Marks, PartHead};
use ir_trees::ir::kinds::{
    Args, Binder, BoundVar, Clause, ClauseKind, ConstKind, GenericArg, PredicatePolarity,
    RegionKind, TraitId, TraitRef, TyKind, VarKind, Vars,
};
use ir_trees::ir::numbered::Numbered;
use ir_trees::ir::quiet::holds_param_or_bound;
use ir_trees::ir::stop::Stop;
use ir_trees::ir::trees::Trees;
use kit::alloc::{AllocError, Global};

/// The variable with a number so much higher, if it is of the binder that stands above the binders
/// passed.
fn later(var: BoundVar, binders: u32, by: usize) -> Result<Option<BoundVar>, Stop>
{
    if var.depth != binders {
        return Ok(None);
    }
    let room = u32::MAX - var.index;
    if by > room as usize {
        return Err(Stop::NodesFull);
    }
    Ok(Some(BoundVar {
        depth: var.depth,
        index: var.index + by as u32,
    }))
}

/// What stands for such a variable.
fn renumbered<M: Make>(
    make: &mut M,
    arg: GenericArg,
    binders: u32,
    by: usize,
) -> Result<Option<GenericArg>, Stop>
{
    let head = make.cx().head(arg.number());
    let Some((kind, var)) = bound_variable_of(head) else {
        return Ok(None);
    };
    match later(var, binders, by)? {
        Some(var) => Ok(Some(bound_variable(make, kind, var)?)),
        None => Ok(None),
    }
}

/// What stands for a part of a super clause, under so many binders with its own: for a parameter its
/// argument, for a variable of its own binder a later one.
fn put_or_renumber<M: Make>(
    alloc: Global,
    make: &mut M,
    args: Args,
    by: usize,
    arg: GenericArg,
    binders: u32,
) -> Result<Option<GenericArg>, Stop>
{
    let below = binders.saturating_sub(1);
    match put(alloc, make, args, arg, below)? {
        Some(value) => Ok(Some(value)),
        None => renumbered(make, arg, below, by),
    }
}

/// What `put_or_renumber` answers.
#[derive(Clone, Copy, Debug)]
struct Instancing {
    args: Args,
    by: usize,
}

impl<M: Make> PureFolder<M> for Instancing {



    fn may_answer(&self, marks: Marks) -> bool {
        marks.has(Flag::Param) || marks.has_bound()
    }

    fn answer(
        &self,
        alloc: Global,
        make: &mut M,
        arg: GenericArg,
        binders: u32,
    ) -> Result<Option<GenericArg>, Stop> {
        put_or_renumber(alloc, make, self.args, self.by, arg, binders)
    }

    fn recall_laws(&self) {}
}

/// The super clause with arguments put in and the variables of its binder renumbered, which that
/// binder still has to be widened for.
fn instantiated<M: Make>(
    alloc: Global,
    make: &mut M,
    clause: Clause,
    args: Args,
    by: usize,
) -> Result<Clause, Stop>
{
    if !holds_param_or_bound(make.cx(), clause.0) {
        return Ok(clause);
    }
    let number = fold_once(alloc, make, &Instancing { args, by }, clause.0)?;
    Ok(Clause(number))
}

/// Adds the kinds of the variables of a binder.
pub(crate) fn add_kinds(cx: &Cx, kinds: &mut Vec<VarKind>, vars: Vars) -> Result<(), AllocError>
{
    for var in cx.vars(vars) {
        kinds.push(cx.var(*var))?;
    }
    Ok(())
}

/// A binder over the variables of two, one after the other.
fn joint_vars<M: Make>(alloc: Global, make: &mut M, outer: Vars, inner: Vars) -> Result<Vars, Stop>
{
    let mut kinds = Vec::new(alloc);
    add_kinds(make.cx(), &mut kinds, outer)?;
    add_kinds(make.cx(), &mut kinds, inner)?;
    make.mk_vars(kinds.as_slice())
}

/// What a super clause says of arguments: those of a clause under a binder of these variables, which
/// says that its trait holds of them. Each parameter of the super clause has an argument of its kind
/// (`has_arguments`).
///
/// Both binders become one, of these variables and then those of the super clause; the arguments stand
/// under it in the place of the parameters. `Stop::Memory` comes where a growth was refused,
/// `Stop::NodesFull` where no numbers are left, or fewer than the joint binder or a list of bounds takes,
/// the clause would be higher than 1,024, or a variable in it would have a number above 2^32 - 1, or be
/// bound more than 2^32 - 1 binders out. After a stop the nodes that were made stay.
pub fn implied<M: Make>(
    alloc: Global,
    make: &mut M,
    vars: Vars,
    args: Args,
    clause: Clause,
) -> Result<Clause, Stop>
{
    debug_assert!(ir_trees::checks::is_sorted(ir_context::decl::make::Make::cx(&*make), args), "ir_folds::decl::elaborate::implied: `args` is {:?}, no number of its sort in this context", args);
    debug_assert!(ir_trees::checks::is_sorted(ir_context::decl::make::Make::cx(&*make), clause), "ir_folds::decl::elaborate::implied: `clause` is {:?}, no number of its sort in this context", clause);
    let by = make.cx().vars(vars).len();
    let own = make.cx().clause(clause).vars;
    let joint = joint_vars(alloc, make, vars, own)?;
    let instance = instantiated(alloc, make, clause, args, by)?;
    make.cx().recall_well_formed();
    let value = make.cx().clause(instance).value;
    make.mk_clause(Binder { vars: joint, value })
}

/// Adds the clause to the list, unless that has an equal one: equal clauses have one number.
fn push_unlisted(cx: &Cx, list: &mut IndexSet<Clause>, clause: Clause) -> Result<(), AllocError>
{
    cx.recall_distinct();
    list.insert(clause)?;
    Ok(())
}

/// The clauses, each once.
fn each_once(alloc: Global, cx: &Cx, clauses: &[Clause]) -> Result<IndexSet<Clause>, AllocError>
{
    let mut list = IndexSet::new(alloc);
    for clause in clauses {
        push_unlisted(cx, &mut list, *clause)?;
    }
    Ok(list)
}

/// The clause in that place.
fn clause_at(list: &IndexSet<Clause>, place: usize) -> Clause
{
    list.as_slice()[place]
}

/// Adds what the super clauses of its trait say of a reference under a binder of these variables, each
/// unless the list has it.
fn push_supers<M: Make>(
    alloc: Global,
    make: &mut M,
    list: &mut IndexSet<Clause>,
    vars: Vars,
    trait_ref: TraitRef,
) -> Result<(), Stop>
{
    let count = make.cx().super_clauses(trait_ref.def_id).len();
    for place in 0..count {
        if let Some(own) = make.cx().super_clause(trait_ref, place) {
            let clause = implied(alloc, make, vars, trait_ref.args, own)?;
            push_unlisted(make.cx(), list, clause)?;
        }
    }
    Ok(())
}

/// The reference that a clause says to hold.
fn held_reference(kind: ClauseKind) -> Option<TraitRef>
{
    match kind {
        ClauseKind::Trait(predicate) => match predicate.polarity {
            PredicatePolarity::Positive => Some(predicate.trait_ref),
            PredicatePolarity::Negative => None,
        },
        ClauseKind::Projection(_) => None,
        ClauseKind::TypeOutlives(_, _) => None,
        ClauseKind::RegionOutlives(_, _) => None,
        ClauseKind::AliasRelate(_, _) => None,
        ClauseKind::ConstEquate(_, _) => None,
    }
}

/// Adds what the clause implies, each unless the list has it.
fn push_implied<M: Make>(
    alloc: Global,
    make: &mut M,
    list: &mut IndexSet<Clause>,
    clause: Clause,
) -> Result<(), Stop>
{
    make.cx().recall_well_formed();
    let binder = make.cx().clause(clause);
    match held_reference(binder.value) {
        Some(trait_ref) => push_supers(alloc, make, list, binder.vars, trait_ref),
        None => Ok(()),
    }
}

/// The elaboration of clauses: these, each once, and then all that they imply. The list is walked from
/// its front; for each clause that says that a trait holds, the instances of the trait's super clauses
/// (`implied`) that the list doesn't have are appended, each once. Clauses are equal where their trees are.
///
/// It stops as `implied` does, `Stop::Memory` comes where the list can't grow, too. After a stop the nodes
/// that were made stay. What was seen isn't walked again; whether the list has a clause that is implied is
/// looked up by the clause's number.
pub fn elaborate<M: Make>(
    alloc: Global,
    make: &mut M,
    clauses: &[Clause],
) -> Result<Vec<Clause>, Stop>
{
    make.cx().recall_supers_fit();
    let mut list = each_once(alloc, make.cx(), clauses)?;
    let mut walked = 0;
    while walked < list.len() {
        let clause = clause_at(&list, walked);
        push_implied(alloc, make, &mut list, clause)?;
        walked += 1;
    }
    Ok(list.as_slice().kit_to_vec(alloc)?)
}

fn is_trait_clause(cx: &Cx, clause: Clause) -> bool
{
    matches!(
        cx.head(clause.0),
        Head::Part(PartHead::Clause(ClauseHead::Trait(_, _)))
    )
}

/// Those of the clauses that say whether a trait holds, in order.
fn trait_clauses(alloc: Global, cx: &Cx, list: &[Clause]) -> Result<Vec<Clause>, AllocError>
{
    let mut chosen = Vec::new(alloc);
    for clause in list {
        if is_trait_clause(cx, *clause) {
            chosen.push(*clause)?;
        }
    }
    Ok(chosen)
}

/// The supertraits of a clause that says that a trait holds: those of its elaboration that say whether a
/// trait holds, in order. It is itself number 0. It stops as `elaborate` does.
pub fn supertraits<M: Make>(
    alloc: Global,
    make: &mut M,
    clause: Clause,
) -> Result<Vec<Clause>, Stop>
{
    debug_assert!(ir_trees::checks::is_sorted(ir_context::decl::make::Make::cx(&*make), clause), "ir_folds::decl::elaborate::supertraits: `clause` is {:?}, no number of its sort in this context", clause);
    let all = elaborate(alloc, make, &[clause])?;
    Ok(trait_clauses(alloc, make.cx(), all.as_slice())?)
}

/// The trait of a clause that says whether one holds.
fn trait_of(cx: &Cx, clause: Clause) -> Option<TraitId>
{
    match cx.head(clause.0) {
        Head::Part(PartHead::Clause(ClauseHead::Trait(of, _))) => Some(of),
        _ => None,
    }
}

fn lists_trait(ids: &[TraitId], of: TraitId) -> bool
{
    ids.iter().any(|other| other.0 == of.0)
}

/// Adds the trait, unless it is there.
fn push_trait(ids: &mut Vec<TraitId>, of: TraitId) -> Result<(), AllocError>
{
    if !lists_trait(ids.as_slice(), of) {
        ids.push(of)?;
    }
    Ok(())
}

/// The traits of the clauses, each once, in the order in which they first come.
fn traits_of(alloc: Global, cx: &Cx, list: &[Clause]) -> Result<Vec<TraitId>, AllocError>
{
    let mut ids = Vec::new(alloc);
    for clause in list {
        if let Some(of) = trait_of(cx, *clause) {
            push_trait(&mut ids, of)?;
        }
    }
    Ok(ids)
}

/// The traits of the supertraits of a clause that says that a trait holds, each once, in the order in which
/// they first come. It stops as `elaborate` does.
pub fn supertrait_def_ids<M: Make>(
    alloc: Global,
    make: &mut M,
    clause: Clause,
) -> Result<Vec<TraitId>, Stop>
{
    debug_assert!(ir_trees::checks::is_sorted(ir_context::decl::make::Make::cx(&*make), clause), "ir_folds::decl::elaborate::supertrait_def_ids: `clause` is {:?}, no number of its sort in this context", clause);
    let list = supertraits(alloc, make, clause)?;
    Ok(traits_of(alloc, make.cx(), list.as_slice())?)
}
