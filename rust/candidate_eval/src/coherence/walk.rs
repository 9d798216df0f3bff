// Made of `crates/candidate_eval/src/coherence/walk.rt` by `bench/plain.py`: an edit of this file is lost.

//! The walk of the orphan check.


use kit::{eprintln, format, prelude::*, print, println, vec};
use crate::coherence::table::{Shape, ViewClass, shape_of};
use crate::coherence::{InCrate, IsFirstInputType, NormalizeErr, OrphanStop};
use crate::eval::InferCtxtLike;
use ir_context::decl::Cx;
use ir_trees::ir::kinds::{Args, GenericArg, InferTy, Ty, TyKind};
use ir_trees::ir::stop::Stop;
use ir_trees::ir::trees::Trees;
use kit::alloc::{AllocError, AllocFailed};

/// Below how many types a walk goes at most. Types share their parts, so that a short one can stand for more places than can be visited.
const MAX_ENTERED: u32 = 65_536;

/// How a walk goes on, and what it has recorded.
#[derive(Debug)]
pub struct Walk {
    pub in_crate: InCrate,
    /// Whether uncovered views are passed over, in search of a local type.
    pub seeks_local: bool,
    /// Whether no visit has returned yet.
    pub is_first: bool,
    /// The views that aren't local, in order.
    pub non_local: Vec<(Ty, IsFirstInputType)>,
}

/// What breaks a walk off.
#[derive(Debug)]
pub enum EarlyExit<E> {
    Local(Ty),
    Uncovered(Ty),
    Broken(OrphanStop<E>),
}

impl<E> From<NormalizeErr<E>> for EarlyExit<E> {


    fn from(error: NormalizeErr<E>) -> Self {
        match error {
            NormalizeErr::Failed(error) => EarlyExit::Broken(OrphanStop::Normalize(error)),
            NormalizeErr::Stop(stop) => EarlyExit::Broken(OrphanStop::Stop(stop)),
        }
    }
}

fn is_general_variable(cx: &Cx, ty: Ty) -> bool
{
    matches!(cx.kind(ty), TyKind::Infer(InferTy::TyVar(_)))
}

fn normalized<C, E, F>(infcx: &mut C, normalize: &mut F, ty: Ty) -> Result<Ty, NormalizeErr<E>>
where
    C: InferCtxtLike,
    F: FnMut(&mut C, Ty) -> Result<Ty, NormalizeErr<E>>,
{
    normalize(infcx, ty)
}

/// The normaliser's answer at the resolved type, or that type where the answer is a general variable.
pub(crate) fn view_of<C, E, F>(
    infcx: &mut C,
    normalize: &mut F,
    ty: Ty,
) -> Result<Ty, NormalizeErr<E>>
where
    C: InferCtxtLike,
    F: FnMut(&mut C, Ty) -> Result<Ty, NormalizeErr<E>>,
{
    let ty = infcx.shallow_resolve(ty);
    let normal = normalized(infcx, normalize, ty)?;
    if is_general_variable(infcx.cx(), normal) {
        return Ok(ty);
    }
    Ok(normal)
}

impl Walk {

    /// Takes an item: records it, passes over it, or breaks the walk off.
    fn take<E>(&mut self, class: ViewClass, ty: Ty) -> Result<(), EarlyExit<E>>
    {
        match class {
            ViewClass::NonLocal => {
                let is_first = IsFirstInputType::from(self.is_first);
                if self.non_local.push((ty, is_first)).is_err() {
                    return Err(EarlyExit::Broken(OrphanStop::Stop(Stop::Memory)));
                }
                Ok(())
            }
            ViewClass::Skipped => Ok(()),
            ViewClass::Local => Err(EarlyExit::Local(ty)),
            ViewClass::Uncovered => if self.seeks_local {
                Ok(())
            } else {
                Err(EarlyExit::Uncovered(ty))
            },
            ViewClass::Unnameable => { Err(EarlyExit::Broken(OrphanStop::Stop(Stop::Unnameable))) }
        }
    }
}

/// Visits a type, with so many levels left: it has ended then, or it has come to the arguments of a fundamental type, which are left to
/// visit with that many levels.
fn visit_type<C, E, F>(
    infcx: &mut C,
    normalize: &mut F,
    walk: &mut Walk,
    ty: Ty,
    levels: u16,
) -> Result<Option<(Args, u16)>, EarlyExit<E>>
where
    C: InferCtxtLike,
    F: FnMut(&mut C, Ty) -> Result<Ty, NormalizeErr<E>>,
{
    let mut target = ty;
    let mut left = levels;
    while left != 0 {
        let view = view_of(infcx, normalize, target)?;
        left -= 1;
        match shape_of(infcx.cx(), walk.in_crate, view) {
            Shape::Item(class) => {
                let outcome = walk.take(class, view);
                walk.is_first = false;
                outcome?;
                return Ok(None);
            }
            Shape::Target(next) => target = next,
            Shape::Arguments(args) => return Ok(Some((args, left))),
        }
    }
    Err(EarlyExit::Broken(OrphanStop::Stop(Stop::WalkDepth)))
}

/// A list whose types are visited from a place on, each with so many levels left.
#[derive(Clone, Copy, Debug)]
struct Pending {
    args: Args,
    next: usize,
    end: usize,
    levels: u16,
}

impl Pending {
    /// All of the list.
    fn all(cx: &Cx, args: Args, levels: u16) -> Pending
    {
        Pending {
            args,
            next: 0,
            end: cx.args(args).len(),
            levels,
        }
    }
}

/// Puts a list aside while what stands below one of its types is visited. The error comes where a growth was refused, and where the walk
/// has gone below so many types already.
fn put_aside(outer: &mut Vec<Pending>, list: Pending, entered: &mut u32) -> Result<(), AllocError>
{
    if *entered >= MAX_ENTERED {
        return Err(AllocError);
    }
    *entered += 1;
    Ok(outer.push(list)?)
}

/// Visits the types of a list in order, each with so many levels left. `Stop::Memory` comes where a growth was refused, and where the walk
/// would go below more than 65,536 types: a type that stands in several places is visited in each.
///
/// What is still to visit stands in a list, so that a visit that is nested deep takes no more of the machine's stack.
pub(crate) fn visit_args<C, E, F>(
    infcx: &mut C,
    normalize: &mut F,
    walk: &mut Walk,
    args: Args,
    levels: u16,
) -> Result<(), EarlyExit<E>>
where
    C: InferCtxtLike,
    F: FnMut(&mut C, Ty) -> Result<Ty, NormalizeErr<E>>,
{
    let mut outer = Vec::new(*walk.non_local.allocator());
    let mut entered = 0;
    let mut list = Pending::all(infcx.cx(), args, levels);
    loop {
        if list.next < list.end {
            let arg = infcx.cx().args(list.args)[list.next];
            list.next += 1;
            if let GenericArg::Ty(ty) = arg {
                let down = visit_type(infcx, normalize, walk, ty, list.levels)?;
                if let Some((args, levels)) = down {
                    if put_aside(&mut outer, list, &mut entered).is_err() {
                        return Err(EarlyExit::Broken(OrphanStop::Stop(Stop::Memory)));
                    }
                    list = Pending::all(infcx.cx(), args, levels);
                }
            }
        } else {
            let Some(pending) = outer.pop() else {
                return Ok(());
            };
            walk.is_first = false;
            list = pending;
        }
    }
}
