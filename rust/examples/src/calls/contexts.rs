// Made of `crates/examples/src/calls/contexts.rt` by `bench/plain.py`: an edit of this file is lost.

//! Callers of calls of contexts and of their builder.


use kit::{eprintln, format, prelude::*, print, println, vec};
use candidate_eval::eval::certainty::Certainty;
use candidate_eval::eval::refusal::NoSolutionOrStop;
use candidate_eval::eval::response::{
    Candidate, CandidateHeadUsages, CanonicalResponse, MergeCandidateInfo, try_merge_candidates,
};
use candidate_eval::eval::source::{BuiltinImplSource, CandidateSource};
use candidate_eval::objects::required::{own_bounds, requirements};
use candidate_eval::structural::callable::{
    CallableId, extract_fn_def_from_const_callable, has_callable_cell,
};
use candidate_eval::structural::destruct::const_conditions_for_destruct;
use candidate_eval::structural::tables::{has_cell, instantiate_constituent_tys_for_auto_trait};
use candidate_eval::structural::{Column, Constituents};
use candidate_ir::decl::contents::ImplId;
use candidate_ir::decl::elaborate::{implied, supertrait_def_ids, supertraits};
use candidate_ir::decl::fold::fold;
use candidate_ir::decl::make::Build;
use candidate_ir::decl::open::open_clause;
use candidate_ir::decl::parameters::has_arguments;
use candidate_ir::decl::{Cx, DeclFault, DeclsBuilder};
use candidate_ir::ir::kinds::{
    Args, Binder, Clause, ClosureSig, GenericArg, Sig, TraitId, TraitRef, Ty, TyKind, UintTy, Vars,
};
use candidate_ir::ir::stop::Stop;
use candidate_ir::ir::trees::Trees;
use kit::alloc::Global;

/// Adds a clause to those that the impl has for its trait's super clauses about regions.
pub fn give_super_outlives(
    builder: &mut DeclsBuilder,
    of: ImplId,
    clause: Clause,
) -> Result<(), DeclFault>
{
    builder.push_super_outlives(of, clause)
}

/// Puts off a fault. It answers how many are put off then.
pub fn put_off(cx: &mut Cx, text: &str) -> Result<usize, Stop>
{
    cx.delay_bug(text)?;
    Ok(cx.delayed_bugs().len())
}

/// Whether the trait has an impl whose own type is a parameter.
pub fn has_blanket_impl(cx: &Cx, trait_id: TraitId) -> Result<bool, Stop>
{
    Ok(!cx.for_each_blanket_impl(trait_id)?.is_empty())
}

/// The signature of a closure, under a binder without variables. The inputs are one tuple type.
pub fn closure_sig(cx: &mut Cx, inputs: Ty, output: Ty) -> Result<Sig, Stop>
{
    debug_assert!(ir_trees::checks::is_sorted(&*cx, inputs), "examples::calls::contexts::closure_sig: `inputs` is {:?}, no number of its sort in this context", inputs);
    debug_assert!(ir_trees::checks::is_sorted(&*cx, output), "examples::calls::contexts::closure_sig: `output` is {:?}, no number of its sort in this context", output);
    let vars = cx.mk_vars(&[])?;
    let value = ClosureSig { inputs, output };
    cx.mk_sig(Binder { vars, value })
}

/// `u8` for a type parameter. `None` for any other argument.
fn byte_for(cx: &mut Cx, arg: GenericArg) -> Result<Option<GenericArg>, Stop>
{
    let GenericArg::Ty(ty) = arg else {
        return Ok(None);
    };
    let TyKind::Param(_) = cx.kind(ty) else {
        return Ok(None);
    };
    match cx.mk_ty(TyKind::Uint(UintTy::U8)) {
        Ok(byte) => Ok(Some(GenericArg::Ty(byte))),
        Err(stop) => Err(stop),
    }
}

/// The type with `u8` in the place of each type parameter.
pub fn with_bytes(alloc: Global, cx: &mut Cx, ty: Ty) -> Result<Ty, Stop>
{
    debug_assert!(ir_trees::checks::is_sorted(&*cx, ty), "examples::calls::contexts::with_bytes: `ty` is {:?}, no number of its sort in this context", ty);
    let ask = |cx: &mut Cx, arg: GenericArg, _: u32| -> Result<Option<GenericArg>, Stop>
    { byte_for(cx, arg) };
    fold(alloc, cx, ty, ask)
}

/// The clause without its binder. The type stands in the place of the first variable, if that is one of types. Errors stand in the place of
/// the others.
pub fn opened_with(alloc: Global, cx: &mut Cx, clause: Clause, ty: Ty) -> Result<Clause, Stop>
{
    debug_assert!(ir_trees::checks::is_sorted(&*cx, clause), "examples::calls::contexts::opened_with: `clause` is {:?}, no number of its sort in this context", clause);
    debug_assert!(ir_trees::checks::is_sorted(&*cx, ty), "examples::calls::contexts::opened_with: `ty` is {:?}, no number of its sort in this context", ty);
    let values = cx.mk_args(&[GenericArg::Ty(ty)])?;
    open_clause(alloc, cx, clause, values)
}

/// The super clause with these arguments, under a binder of these variables. `None` where one of its parameters has no argument.
pub fn implied_of(
    alloc: Global,
    cx: &mut Cx,
    vars: Vars,
    args: Args,
    clause: Clause,
) -> Result<Option<Clause>, Stop>
{
    debug_assert!(ir_trees::checks::is_sorted(&*cx, args), "examples::calls::contexts::implied_of: `args` is {:?}, no number of its sort in this context", args);
    debug_assert!(ir_trees::checks::is_sorted(&*cx, clause), "examples::calls::contexts::implied_of: `clause` is {:?}, no number of its sort in this context", clause);
    if !has_arguments(cx, clause, args) {
        return Ok(None);
    }
    Ok(Some(implied(alloc, cx, vars, args, clause)?))
}

/// The supertraits of the clause, which is the first of them.
pub fn supertraits_of(alloc: Global, cx: &mut Cx, clause: Clause) -> Result<Vec<Clause>, Stop>
{
    debug_assert!(ir_trees::checks::is_sorted(&*cx, clause), "examples::calls::contexts::supertraits_of: `clause` is {:?}, no number of its sort in this context", clause);
    supertraits(alloc, cx, clause)
}

/// The traits of the clause's supertraits, each once.
pub fn supertrait_ids(alloc: Global, cx: &mut Cx, clause: Clause) -> Result<Vec<TraitId>, Stop>
{
    debug_assert!(ir_trees::checks::is_sorted(&*cx, clause), "examples::calls::contexts::supertrait_ids: `clause` is {:?}, no number of its sort in this context", clause);
    supertrait_def_ids(alloc, cx, clause)
}

/// The types that have to implement an auto trait for the type to implement it. `None` where the table has no cell for the type.
pub fn auto_constituents(
    alloc: Global,
    cx: &mut Cx,
    ty: Ty,
) -> Result<Option<Constituents>, NoSolutionOrStop>
{
    debug_assert!(ir_trees::checks::is_sorted(&*cx, ty), "examples::calls::contexts::auto_constituents: `ty` is {:?}, no number of its sort in this context", ty);
    if !has_cell(cx, Column::Auto, ty) {
        return Ok(None);
    }
    let found = instantiate_constituent_tys_for_auto_trait(alloc, cx, ty)?;
    Ok(Some(found))
}

/// What has to hold for a value of the type to be dropped in a constant. `None` where the table has no cell for the type.
pub fn destruct_conditions(
    alloc: Global,
    cx: &mut Cx,
    ty: Ty,
) -> Result<Option<Vec<TraitRef>>, NoSolutionOrStop>
{
    debug_assert!(ir_trees::checks::is_sorted(&*cx, ty), "examples::calls::contexts::destruct_conditions: `ty` is {:?}, no number of its sort in this context", ty);
    if !has_cell(cx, Column::Destruct, ty) {
        return Ok(None);
    }
    let conditions = const_conditions_for_destruct(alloc, cx, ty)?;
    Ok(Some(conditions))
}

/// The function or closure of the type, with its own arguments, if a constant can call it. `None` for a general variable and a bound type.
pub fn const_callable(
    alloc: Global,
    cx: &mut Cx,
    ty: Ty,
) -> Result<Option<(CallableId, Args)>, NoSolutionOrStop>
{
    debug_assert!(ir_trees::checks::is_sorted(&*cx, ty), "examples::calls::contexts::const_callable: `ty` is {:?}, no number of its sort in this context", ty);
    if !has_callable_cell(cx, ty) {
        return Ok(None);
    }
    let (_, id, args) = extract_fn_def_from_const_callable(alloc, cx, ty)?;
    Ok(Some((id, args)))
}

/// All that an object of the trait with these arguments has to fulfil.
pub fn object_requirements(
    alloc: Global,
    cx: &mut Cx,
    def_id: TraitId,
    args: Args,
) -> Result<Vec<Clause>, Stop>
{
    debug_assert!(ir_trees::checks::is_sorted(&*cx, args), "examples::calls::contexts::object_requirements: `args` is {:?}, no number of its sort in this context", args);
    requirements(alloc, cx, TraitRef { def_id, args })
}

/// A clause for each projection bound of an object's type. `None` for any other type.
pub fn object_bounds(alloc: Global, cx: &mut Cx, ty: Ty) -> Result<Option<Vec<Clause>>, Stop>
{
    debug_assert!(ir_trees::checks::is_sorted(&*cx, ty), "examples::calls::contexts::object_bounds: `ty` is {:?}, no number of its sort in this context", ty);
    let TyKind::Dynamic(bounds, _) = cx.kind(ty) else {
        return Ok(None);
    };
    let clauses = own_bounds(alloc, cx, ty, bounds)?;
    Ok(Some(clauses))
}

/// A sure candidate of the language with these values. It leaves no variable open, and asks for no regions.
fn sure_candidate(alloc: Global, values: Args) -> Candidate
{
    Candidate {
        source: CandidateSource::BuiltinImpl(BuiltinImplSource::Misc),
        result: CanonicalResponse {
            vars: Vec::new(alloc),
            values,
            regions: Vec::new(alloc),
            certainty: Certainty::Yes,
        },
        head_usages: CandidateHeadUsages::new(alloc),
    }
}

/// The merged response of two sure candidates with these values. `None` where they don't merge.
pub fn merged_pair(
    alloc: Global,
    cx: &Cx,
    first: Args,
    second: Args,
) -> Result<Option<(CanonicalResponse, MergeCandidateInfo)>, Stop>
{
    debug_assert!(ir_trees::checks::is_sorted(&*cx, first), "examples::calls::contexts::merged_pair: `first` is {:?}, no number of its sort in this context", first);
    debug_assert!(ir_trees::checks::is_sorted(&*cx, second), "examples::calls::contexts::merged_pair: `second` is {:?}, no number of its sort in this context", second);
    let candidates = [sure_candidate(alloc, first), sure_candidate(alloc, second)];
    try_merge_candidates(cx, &candidates)
}
