// Made of `crates/overlaps/src/opening.rt` by `bench/plain.py`: an edit of this file is lost.

//! Impls with fresh variables or placeholders in the place of their parameters.


use kit::{eprintln, format, prelude::*, print, println, vec};
use candidate_assembly::trait_goals::impls::{declared_by, fresh_args_for_impl, recall_impl_given};
use candidate_eval::eval::clauses::substitute;
use candidate_eval::eval::context::EvalCtxt;
use ir_trees::decl::contents::ImplId;
use ir_trees::ir::kinds::{Args, Clause, TraitId};
use ir_trees::ir::stop::Stop;
use kit::alloc::Global;

/// An impl with fresh variables or placeholders in the place of its parameters.
#[derive(Debug)]
pub(crate) struct Opened {
    /// The impl.
    pub(crate) of: ImplId,
    /// The trait that it is for.
    pub(crate) def_id: TraitId,
    /// The variables or placeholders.
    pub(crate) locals: Args,
    /// The arguments of its header, in which they stand for the parameters.
    pub(crate) header: Args,
    /// Its where clauses, as they are declared.
    pub(crate) wheres: Vec<Clause>,
}

/// Two impls, opened one after the other.
#[derive(Debug)]
pub(crate) struct Pair {
    pub(crate) first: Opened,
    pub(crate) second: Opened,
}

/// The impl with these arguments in the place of its parameters; `None` of what is no impl.
fn open_with<E: EvalCtxt>(
    alloc: Global,
    ecx: &mut E,
    of: ImplId,
    locals: Args,
) -> Result<Option<Opened>, Stop>
{
    let Some(declared) = declared_by(alloc, ecx.cx(), of, locals)? else {
        return Ok(None);
    };
    let header = substitute(alloc, ecx, declared.header, locals)?;
    Ok(Some(Opened {
        of,
        def_id: declared.def_id,
        locals,
        header,
        wheres: declared.wheres,
    }))
}

/// The impl with fresh variables in the place of its parameters; `None` of what is no impl.
pub(crate) fn open<E: EvalCtxt>(
    alloc: Global,
    ecx: &mut E,
    of: ImplId,
) -> Result<Option<Opened>, Stop>
{
    recall_impl_given(ecx.cx(), of);
    let locals = fresh_args_for_impl(alloc, ecx, of)?;
    open_with(alloc, ecx, of, locals)
}

/// Placeholders of a fresh universe in the place of an impl's parameters; of what is no impl there are none.
pub(crate) fn placeholder_args_for_impl<E: EvalCtxt>(
    alloc: Global,
    ecx: &mut E,
    of: ImplId,
) -> Result<Args, Stop>
{
    let kinds = ecx.cx().impl_parameters(alloc, of)?;
    ecx.placeholder_args(kinds.as_slice())
}

/// The impl with placeholders of a fresh universe in the place of its parameters; `None` of what is no impl.
fn enter<E: EvalCtxt>(alloc: Global, ecx: &mut E, of: ImplId) -> Result<Option<Opened>, Stop>
{
    recall_impl_given(ecx.cx(), of);
    let locals = placeholder_args_for_impl(alloc, ecx, of)?;
    open_with(alloc, ecx, of, locals)
}

/// Both impls with fresh variables in the place of their parameters; `None` where one of them is no impl.
pub(crate) fn open_both<E: EvalCtxt>(
    alloc: Global,
    ecx: &mut E,
    first: ImplId,
    second: ImplId,
) -> Result<Option<Pair>, Stop>
{
    recall_impl_given(ecx.cx(), second);
    let Some(first) = open(alloc, ecx, first)? else {
        return Ok(None);
    };
    let Some(second) = open(alloc, ecx, second)? else {
        return Ok(None);
    };
    Ok(Some(Pair { first, second }))
}

/// The first impl with placeholders in the place of its parameters, and then the second one with fresh variables; `None` where one of them
/// is no impl.
pub(crate) fn enter_and_open<E: EvalCtxt>(
    alloc: Global,
    ecx: &mut E,
    first: ImplId,
    second: ImplId,
) -> Result<Option<Pair>, Stop>
{
    recall_impl_given(ecx.cx(), second);
    let Some(first) = enter(alloc, ecx, first)? else {
        return Ok(None);
    };
    let Some(second) = open(alloc, ecx, second)? else {
        return Ok(None);
    };
    Ok(Some(Pair { first, second }))
}
