// Made of `crates/candidate_eval/src/eval/binders.rt` by `bench/plain.py`: an edit of this file is lost.

//! What stood under binders, with variables or placeholders in the place of theirs.


use kit::{eprintln, format, prelude::*, print, println, vec};
use crate::eval::context::EvalCtxt;
use ir_context::decl::make::Make;
use ir_folds::decl::open::{binder_kinds, open_clause, replace_bound_vars, variable_kinds};
use ir_trees::ir::kinds::{Args, Binder, Clause, FnSig, ParamEnv, Vars};
use ir_trees::ir::numbered::Numbered;
use ir_trees::ir::stop::Stop;
use ir_trees::ir::trees::Trees;
use kit::alloc::Global;

/// Fresh variables in the place of those of a binder.
///
/// `Stop::Memory` comes where a growth was refused, other stops as they come of the evaluator's fresh variables. After a stop the
/// state is alike.
pub fn fresh_args_for_binder<E: EvalCtxt>(
    alloc: Global,
    ecx: &mut E,
    vars: Vars,
) -> Result<Args, Stop>
{
    let kinds = variable_kinds(alloc, ecx.cx(), vars)?;
    ecx.fresh_args_for_item(kinds.as_slice())
}

/// Placeholders of a fresh universe in the place of the variables of a binder. It stops as `fresh_args_for_binder` does.
pub fn placeholder_args_for_binder<E: EvalCtxt>(
    alloc: Global,
    ecx: &mut E,
    vars: Vars,
) -> Result<Args, Stop>
{
    let kinds = variable_kinds(alloc, ecx.cx(), vars)?;
    ecx.placeholder_args(kinds.as_slice())
}

/// What stands under the binder, with fresh variables in the place of the binder's: a type, a list of arguments, as of a trait
/// reference, or whatever else it is. It stops as `fresh_args_for_binder` and `replace_bound_vars` do.
pub fn instantiate_binder_with_infer<N: Numbered, E: EvalCtxt>(
    alloc: Global,
    ecx: &mut E,
    binder: Binder<N>,
) -> Result<N, Stop>
{
    let values = fresh_args_for_binder(alloc, ecx, binder.vars)?;
    replace_bound_vars(alloc, ecx, binder.value, values)
}

/// What stands under the binder, with placeholders of a fresh universe in the place of the binder's variables: what holds of it holds
/// for all values of these. It stops as `instantiate_binder_with_infer` does.
pub fn enter_binder<N: Numbered, E: EvalCtxt>(
    alloc: Global,
    ecx: &mut E,
    binder: Binder<N>,
) -> Result<N, Stop>
{
    let values = placeholder_args_for_binder(alloc, ecx, binder.vars)?;
    replace_bound_vars(alloc, ecx, binder.value, values)
}

/// The clause under an empty binder, with fresh variables in the place of those of its own.
///
/// `Stop::Memory` comes where a growth was refused, other stops as they come of `open_clause` and of the evaluator's fresh
/// variables. After a stop the variables that were made stay.
pub fn instantiate_clause_with_infer<E: EvalCtxt>(
    alloc: Global,
    ecx: &mut E,
    clause: Clause,
) -> Result<Clause, Stop>
{
    debug_assert!(ir_trees::checks::is_sorted(ir_context::decl::make::Make::cx(&*ecx), clause), "candidate_eval::eval::binders::instantiate_clause_with_infer: `clause` is {:?}, no number of its sort in this context", clause);
    let kinds = binder_kinds(alloc, ecx.cx(), clause)?;
    let values = ecx.fresh_args_for_item(kinds.as_slice())?;
    open_clause(alloc, ecx, clause, values)
}

/// The clause under an empty binder, with placeholders of a fresh universe in the place of the variables of its own. It stops as
/// `enter_binder` does.
pub fn enter_clause<E: EvalCtxt>(alloc: Global, ecx: &mut E, clause: Clause) -> Result<Clause, Stop>
{
    debug_assert!(ir_trees::checks::is_sorted(ir_context::decl::make::Make::cx(&*ecx), clause), "candidate_eval::eval::binders::enter_clause: `clause` is {:?}, no number of its sort in this context", clause);
    let kinds = binder_kinds(alloc, ecx.cx(), clause)?;
    let values = ecx.placeholder_args(kinds.as_slice())?;
    open_clause(alloc, ecx, clause, values)
}

/// A signature that stood under a binder, with the list's values in the place of that binder's variables. It stops as
/// `replace_bound_vars` does.
pub fn open_signature<M: Make>(
    alloc: Global,
    make: &mut M,
    under: FnSig,
    values: Args,
) -> Result<FnSig, Stop>
{
    debug_assert!(ir_trees::checks::is_sorted(ir_context::decl::make::Make::cx(&*make), under.inputs), "candidate_eval::eval::binders::open_signature: `under.inputs` is {:?}, no number of its sort in this context", under.inputs);
    debug_assert!(ir_trees::checks::is_sorted(ir_context::decl::make::Make::cx(&*make), under.output), "candidate_eval::eval::binders::open_signature: `under.output` is {:?}, no number of its sort in this context", under.output);
    debug_assert!(ir_trees::checks::is_sorted(ir_context::decl::make::Make::cx(&*make), values), "candidate_eval::eval::binders::open_signature: `values` is {:?}, no number of its sort in this context", values);
    let inputs = replace_bound_vars(alloc, make, under.inputs, values)?;
    let output = replace_bound_vars(alloc, make, under.output, values)?;
    Ok(FnSig {
        inputs,
        output,
        safe: under.safe,
        rust_abi: under.rust_abi,
        variadic: under.variadic,
    })
}
