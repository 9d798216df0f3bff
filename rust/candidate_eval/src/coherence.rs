// Made of `crates/candidate_eval/src/coherence.rt` by `bench/plain.py`: an edit of this file is lost.

//! The orphan check.

use kit::{eprintln, format, prelude::*, print, println, vec};
mod table;
mod walk;


use crate::coherence::walk::{EarlyExit, Walk, visit_args};
use crate::eval::InferCtxtLike;
use ir_context::decl::Cx;
use ir_trees::ir::heads::Flag;
use ir_trees::ir::kinds::{Args, TraitRef, Ty};
use ir_trees::ir::stop::Stop;
use ir_trees::ir::trees::Trees;
use kit::alloc::Global;
use kit::fmt;

/// How projections that hold variables count.
#[derive(Clone, Copy, Debug)]
pub enum OrphanCheckMode {
    /// As uncovered: the rule proper.
    Proper,
    /// They are passed over, as older compilers did.
    Compat,
}

/// For which crate a reference is checked.
#[derive(Clone, Copy, Debug)]
pub enum InCrate {
    /// For the local crate.
    Local { mode: OrphanCheckMode },
    /// For some crate that isn't known.
    Remote,
}

/// Whether nothing was visited before a type.
#[derive(Clone, Copy, Debug, PartialEq, Eq)]
pub enum IsFirstInputType {
    No,
    Yes,
}

impl From<bool> for IsFirstInputType {


    fn from(is_first: bool) -> Self {
        if is_first {
            IsFirstInputType::Yes
        } else {
            IsFirstInputType::No
        }
    }
}

/// Why the local crate may not write a header.
#[derive(Debug)]
pub enum OrphanCheckErr<T> {
    /// No type of the local crate was found. The types that were found instead, in order.
    NonLocalInputType(Vec<(Ty, IsFirstInputType)>),
    /// A variable is met before any type of the local crate.
    UncoveredTyParams(UncoveredTyParams<T>),
}

/// A variable, placeholder or projection that no type covers, and the first local type, if there is one.
#[derive(Debug)]
pub struct UncoveredTyParams<T> {
    pub uncovered: T,
    pub local_ty: Option<Ty>,
}

/// Why a normaliser has no answer.
#[derive(Debug)]
pub enum NormalizeErr<E> {
    /// The type has no normal form.
    Failed(E),
    /// It gave up.
    Stop(Stop),
}

/// Why a check has no answer.
#[derive(Debug)]
pub enum OrphanStop<E> {
    /// The normaliser failed.
    Normalize(E),
    /// It gave up, or the normaliser did.
    Stop(Stop),
}

impl<E: fmt::Display> fmt::Display for OrphanStop<E> {
    fn fmt(&self, f: &mut fmt::Formatter<'_>) -> fmt::Result {
        match self {
            OrphanStop::Normalize(error) => error.fmt(f),
            OrphanStop::Stop(stop) => stop.fmt(f),
        }
    }
}

/// What a walk that passes over uncovered views found: its first local type, or why it stopped.
fn local_ty_of<E: Drop>(walked: Result<(), EarlyExit<E>>) -> Result<Option<Ty>, Stop>
{
    match walked {
        Err(EarlyExit::Local(ty)) => Ok(Some(ty)),
        Err(EarlyExit::Broken(OrphanStop::Stop(stop))) => Err(stop),
        Err(EarlyExit::Broken(OrphanStop::Normalize(_))) => Ok(None),
        Err(EarlyExit::Uncovered(_)) => Ok(None),
        Ok(()) => Ok(None),
    }
}

/// The first local type of a walk that passes over uncovered views, with so many levels.
fn first_local_ty<C, E, F>(
    alloc: Global,
    infcx: &mut C,
    args: Args,
    in_crate: InCrate,
    normalize: &mut F,
    levels: u16,
) -> Result<Option<Ty>, Stop>
where
    C: InferCtxtLike,
    E: Drop,
    F: FnMut(&mut C, Ty) -> Result<Ty, NormalizeErr<E>>,
{
    let mut walk = Walk {
        in_crate,
        seeks_local: true,
        is_first: true,
        non_local: Vec::new(alloc),
    };
    local_ty_of(visit_args(infcx, normalize, &mut walk, args, levels))
}

/// The orphan check, by a normaliser that is used again, with so many levels.
fn check<C, E, F>(
    alloc: Global,
    infcx: &mut C,
    trait_ref: TraitRef,
    in_crate: InCrate,
    normalize: &mut F,
    levels: u16,
) -> Result<Result<(), OrphanCheckErr<Ty>>, OrphanStop<E>>
where
    C: InferCtxtLike,
    E: Drop,
    F: FnMut(&mut C, Ty) -> Result<Ty, NormalizeErr<E>>,
{
    let mut walk = Walk {
        in_crate,
        seeks_local: false,
        is_first: true,
        non_local: Vec::new(alloc),
    };
    match visit_args(infcx, normalize, &mut walk, trait_ref.args, levels) {
        Ok(()) => Ok(Err(OrphanCheckErr::NonLocalInputType(walk.non_local))),
        Err(EarlyExit::Local(_)) => Ok(Ok(())),
        Err(EarlyExit::Uncovered(uncovered)) => {
            match first_local_ty(alloc, infcx, trait_ref.args, in_crate, normalize, levels) {
                Ok(local_ty) => Ok(Err(OrphanCheckErr::UncoveredTyParams(UncoveredTyParams {
                    uncovered,
                    local_ty,
                }))),
                Err(stop) => Err(OrphanStop::Stop(stop)),
            }
        }
        Err(EarlyExit::Broken(stop)) => Err(stop),
    }
}

/// Whether the crate may write a header with the trait reference, by the types that a walk meets:
/// the orphan rule of the language, by which two crates never write the same header.
///
/// The walk goes through the types of the reference in order, the self type first, and below
/// references and fundamental types of other crates. Each type is resolved at its root and
/// normalised first. The first local or uncovered type decides: `Ok(())` for a local one. For an
/// uncovered one a second walk looks for the first local type. Where neither comes, the types that
/// were met are the error. The reference has the arguments that its trait takes, as
/// `Cx::trait_ref_args_fit` tests it, and no parameter.
///
/// `OrphanStop::Normalize` is a failure of the normaliser. `OrphanStop::Stop` is a stop of the
/// normaliser, `Memory` where a growth was refused, `WalkDepth` where a type is nested in as many
/// others as the declared limit `orphan_walk` is, `Unnameable` where a function's type, a closure or
/// a parameter is met. The context is changed by the normaliser alone.
pub fn orphan_check_trait_ref<C, E, F>(
    alloc: Global,
    infcx: &mut C,
    trait_ref: TraitRef,
    in_crate: InCrate,
    mut normalize: F,
) -> Result<Result<(), OrphanCheckErr<Ty>>, OrphanStop<E>>
where
    C: InferCtxtLike,
    E: Drop,
    F: FnMut(&mut C, Ty) -> Result<Ty, NormalizeErr<E>> + Drop,

    // For a normaliser whose answers and effects, but for what is left open, are functions of the tree and the context.

    // What passes in `Proper` passes in `Compat`.

    // In `Remote` the answer is the same whichever crate is local.

    // For every normaliser, in `Remote` nothing is uncovered.

    // For every normaliser, at most one entry is the first input, and then it is the first one.

    // The laws behind these three, over all definitions and limits.

    // Two crates that name nothing of each other write no headers that overlap.

    // What passes in `Proper` is overlapped by no header of another crate, where neither names the other's crate.
{
    debug_assert!(ir_trees::checks::is_sorted(ir_context::decl::make::Make::cx(&*infcx), trait_ref.args), "candidate_eval::coherence::orphan_check_trait_ref: `trait_ref.args` is {:?}, no number of its sort in this context", trait_ref.args);
    infcx.cx().recall_well_formed(); // so the reference is one of the declared world
    let levels = infcx.cx().limits().orphan_walk;
    check(alloc, infcx, trait_ref, in_crate, &mut normalize, levels)
}

/// Whether the trait belongs to the local crate or has the flag `fundamental`.
pub fn trait_ref_is_local_or_fundamental(cx: &Cx, trait_ref: TraitRef) -> bool
{
    cx.is_local(trait_ref.def_id.0) || cx.is_fundamental(trait_ref.def_id.0)
}

/// Whether neither an alias nor an error stands anywhere in the reference: the test, at run time, of
/// what the promises on headers ask of one. An error region is refused too, though they don't ask it.
pub fn trait_ref_is_plain(cx: &Cx, trait_ref: TraitRef) -> bool
{
    debug_assert!(ir_trees::checks::is_sorted(&*cx, trait_ref.args), "candidate_eval::coherence::trait_ref_is_plain: `trait_ref.args` is {:?}, no number of its sort in this context", trait_ref.args);
    !cx.has(trait_ref.args, Flag::Alias) && !cx.has(trait_ref.args, Flag::Error)
}

/// Who may write impls of a reference that aren't known here.
#[derive(Clone, Copy, Debug, PartialEq, Eq)]
pub enum Conflict {
    /// A crate that this one depends on may add one later.
    Upstream,
    /// A crate that isn't known may have one.
    Downstream,
}

/// What may be known of a reference's impls, by a normaliser that is used again, with so many levels.
fn knowable_within<C, E, F>(
    alloc: Global,
    infcx: &mut C,
    trait_ref: TraitRef,
    normalize: &mut F,
    levels: u16,
) -> Result<Result<(), Conflict>, OrphanStop<E>>
where
    C: InferCtxtLike,
    E: Drop,
    F: FnMut(&mut C, Ty) -> Result<Ty, NormalizeErr<E>>,
{
    let passes_remote = check(alloc, infcx, trait_ref, InCrate::Remote, normalize, levels)?.is_ok();
    if passes_remote {
        return Ok(Err(Conflict::Downstream));
    }
    if trait_ref_is_local_or_fundamental(infcx.cx(), trait_ref) {
        return Ok(Ok(()));
    }
    let in_crate = InCrate::Local {
        mode: OrphanCheckMode::Proper,
    };
    let passes_proper = check(alloc, infcx, trait_ref, in_crate, normalize, levels)?.is_ok();
    if passes_proper {
        Ok(Ok(()))
    } else {
        Ok(Err(Conflict::Upstream))
    }
}

/// What may be known of a reference's impls, by a normaliser that is used again: the call below, of any
/// reference. Where a parameter is met it stops with `Unnameable`.
pub fn knowable<C, E, F>(
    alloc: Global,
    infcx: &mut C,
    trait_ref: TraitRef,
    normalize: &mut F,
) -> Result<Result<(), Conflict>, OrphanStop<E>>
where
    C: InferCtxtLike,
    E: Drop,
    F: FnMut(&mut C, Ty) -> Result<Ty, NormalizeErr<E>>,
{
    debug_assert!(ir_trees::checks::is_sorted(ir_context::decl::make::Make::cx(&*infcx), trait_ref.args), "candidate_eval::coherence::knowable: `trait_ref.args` is {:?}, no number of its sort in this context", trait_ref.args);
    let levels = infcx.cx().limits().orphan_walk;
    knowable_within(alloc, infcx, trait_ref, normalize, levels)
}

/// Whether all impls of a trait reference are known here: what an overlap checker asks before it
/// takes a missing impl for a promise. The rule is that of coherence, open towards other crates.
///
/// A crate that isn't known may have one where the reference passes the `Remote` check:
/// `Conflict::Downstream`. Else they are known where the trait is local or fundamental, or where the
/// local crate may write the header: `Ok(())`. Else a crate above may add one: `Conflict::Upstream`.
/// It asks of the reference what the orphan check does, and stops as that does.
pub fn trait_ref_is_knowable<C, E, F>(
    alloc: Global,
    infcx: &mut C,
    trait_ref: TraitRef,
    mut normalize: F,
) -> Result<Result<(), Conflict>, OrphanStop<E>>
where
    C: InferCtxtLike,
    E: Drop,
    F: FnMut(&mut C, Ty) -> Result<Ty, NormalizeErr<E>> + Drop,

    // For a normaliser whose answers and effects, but for what is left open, are functions of the tree and the context.

    // A known reference is overlapped by no header that a crate which it doesn't name may write.

    // Where a general variable makes it a downstream one, some crate may write a header that overlaps.

    // Known by its own types, it is overlapped by no covered header that names nothing of the local crate.
{
    debug_assert!(ir_trees::checks::is_sorted(ir_context::decl::make::Make::cx(&*infcx), trait_ref.args), "candidate_eval::coherence::trait_ref_is_knowable: `trait_ref.args` is {:?}, no number of its sort in this context", trait_ref.args);
    infcx.cx().recall_well_formed(); // so the reference is one of the declared world
    knowable(alloc, infcx, trait_ref, &mut normalize)
}
