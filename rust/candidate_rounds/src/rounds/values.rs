// Made of `crates/candidate_rounds/src/rounds/values.rt` by `bench/plain.py`: an edit of this file is lost.

//! The value for a variable that meets a tree, and what a tree is at a state.


use kit::{eprintln, format, prelude::*, print, println, vec};
use crate::rounds::Rounds;
use crate::rounds::inference::Inference;
use crate::rounds::resolving::{resolved_arg, resolved_root};
use ir_context::decl::context::Cx;
use ir_context::decl::make::Build;
use ir_folds::decl::answering::{PureFolder, fold_answers};
use ir_trees::ir::heads::{ConstHead, Flag, Head, Marks};
use ir_trees::ir::kinds::{Args, GenericArg, Placeholder, Region, RegionKind, Ty};
use ir_trees::ir::numbered::Numbered;
use ir_trees::ir::stop::Stop;
use ir_trees::ir::trees::Trees;
use kit::alloc::Global;

/// The type of the first of these pairs that lists the type, if one does.
fn listed(cx: &Cx, normal: &[(Ty, Ty)], ty: Ty) -> Option<Ty>
{
    for i in 0..normal.len() {
        if cx.same(normal[i].0, ty) {
            return Some(normal[i].1);
        }
    }
    None
}

/// The type that is listed for the argument, if one is.
fn listed_arg(cx: &Cx, normal: &[(Ty, Ty)], arg: GenericArg) -> Option<GenericArg>
{
    match arg {
        GenericArg::Ty(ty) => Some(GenericArg::Ty(listed(cx, normal, ty)?)),
        GenericArg::Const(_) | GenericArg::Region(_) => None,
    }
}

/// What `listed_arg` answers.
#[derive(Debug)]
struct Normalizing<'a> {
    normal: &'a [(Ty, Ty)],
}

impl PureFolder<Cx> for Normalizing<'_> {



    fn may_answer(&self, marks: Marks) -> bool {
        let _ = marks;
        true
    }

    fn answer(
        &self,
        alloc: Global,
        make: &mut Cx,
        arg: GenericArg,
        binders: u32,
    ) -> Result<Option<GenericArg>, Stop> {
        let _ = alloc;
        let _ = binders;
        Ok(listed_arg(make, self.normal, arg))
    }

    fn recall_laws(&self) {}
}

/// The argument, with the type of its pair in the place of each type that one of these pairs lists, from the top. It stops as
/// `Rounds::resolve_ty_if_possible` does, and not where nothing is listed.
pub(crate) fn normalized(
    alloc: Global,
    cx: &mut Cx,
    normal: &[(Ty, Ty)],
    arg: GenericArg,
) -> Result<GenericArg, Stop>
{
    if normal.is_empty() {
        return Ok(arg);
    }
    fold_answers(alloc, cx, arg, &Normalizing { normal })
}

/// The universe of the binder that binds a variable of that depth, under so many binders besides those of these universes, the
/// innermost last. None, if one of those besides binds it, or none of all.
fn universe_at(universes: &[u32], binders: u32, depth: u32) -> Option<u32>
{
    if depth < binders {
        return None;
    }
    let place = (depth - binders) as usize;
    if place >= universes.len() {
        return None;
    }
    Some(universes[universes.len() - 1 - place])
}

/// What stands for a region of the kind, under so many binders besides those of these universes, the innermost last: a placeholder,
/// where one of the latter binds it.
fn placeholder_for(universes: &[u32], binders: u32, kind: RegionKind) -> Option<RegionKind>
{
    let RegionKind::Bound(var) = kind else {
        return None;
    };
    let universe = universe_at(universes, binders, var.depth)?;
    let index = var.index;
    Some(RegionKind::Placeholder(Placeholder { universe, index }))
}

/// The placeholder for the argument, which stands under so many binders besides those of these universes, the innermost last: if it
/// is a region that one of the latter binds. `Stop::Memory` comes where a growth was refused, `Stop::NodesFull` where no number is
/// left.
fn placed_arg(
    cx: &mut Cx,
    universes: &[u32],
    binders: u32,
    arg: GenericArg,
) -> Result<Option<GenericArg>, Stop>
{
    let Head::Region(kind) = cx.head(arg.number()) else {
        return Ok(None);
    };
    let Some(placeholder) = placeholder_for(universes, binders, kind) else {
        return Ok(None);
    };
    Ok(Some(GenericArg::Region(cx.mk_region(placeholder)?)))
}

/// What `placed_arg` answers.
#[derive(Debug)]
struct Placing<'a> {
    universes: &'a [u32],
}

impl PureFolder<Cx> for Placing<'_> {



    fn may_answer(&self, marks: Marks) -> bool {
        marks.has(Flag::RegionBound)
    }

    fn answer(
        &self,
        alloc: Global,
        make: &mut Cx,
        arg: GenericArg,
        binders: u32,
    ) -> Result<Option<GenericArg>, Stop> {
        let _ = alloc;
        placed_arg(make, self.universes, binders, arg)
    }

    fn recall_laws(&self) {}
}

/// The argument under binders of these universes, the innermost last, with placeholders for the regions that those bind. It stops as
/// `Rounds::resolve_ty_if_possible` does, and not where there are no binders.
fn placed(
    alloc: Global,
    cx: &mut Cx,
    universes: &[u32],
    arg: GenericArg,
) -> Result<GenericArg, Stop>
{
    if universes.is_empty() {
        return Ok(arg);
    }
    if !cx.has(arg, Flag::RegionBound) {
        return Ok(arg);
    }
    fold_answers(alloc, cx, arg, &Placing { universes })
}

/// The value for a variable, as `Rounds::value_for` says.
fn value_in(
    alloc: Global,
    cx: &mut Cx,
    inference: &Inference,
    normal: &[(Ty, Ty)],
    universes: &[u32],
    arg: GenericArg,
) -> Result<GenericArg, Stop>
{
    let resolved = resolved_arg(alloc, cx, inference, arg)?;
    let listed = normalized(alloc, cx, normal, resolved)?;
    placed(alloc, cx, universes, listed)
}

/// Whether it is an alias: a type, or an unevaluated constant.
pub(crate) fn is_alias(cx: &Cx, arg: GenericArg) -> bool
{
    let head = cx.head(arg.number());
    matches!(
        head,
        Head::Alias(_, _) | Head::Const(ConstHead::Unevaluated(_))
    )
}

/// The argument, or the type that is listed for it, with all values put in, if it is an alias. It stops as
/// `Rounds::resolve_ty_if_possible` does.
fn listed_root(
    alloc: Global,
    cx: &mut Cx,
    inference: &Inference,
    normal: &[(Ty, Ty)],
    arg: GenericArg,
) -> Result<GenericArg, Stop>
{
    if normal.is_empty() {
        return Ok(arg);
    }
    if !is_alias(cx, arg) {
        return Ok(arg);
    }
    let resolved = resolved_arg(alloc, cx, inference, arg)?;
    Ok(listed_arg(cx, normal, resolved).unwrap_or(arg))
}

impl Rounds {
    /// The type that is listed for an alias, if one is. All values are put in already.
    pub(crate) fn listed(&self, ty: Ty) -> Option<Ty>
    {
        listed(&self.cx, self.normal.as_slice(), ty)
    }

    /// The argument as it is at the state, so far as its root says: a variable of types or constants is its value, and a listed alias is its
    /// type. It stops as `resolve_ty_if_possible` does.
    pub(crate) fn current(&mut self, alloc: Global, arg: GenericArg) -> Result<GenericArg, Stop>
    {
        let root = resolved_root(&self.cx, &self.inference, arg);
        listed_root(
            alloc,
            &mut self.cx,
            &self.inference,
            self.normal.as_slice(),
            root,
        )
    }

    /// The value for a variable that meets the argument under the binders of these universes, the innermost last: with all values put
    /// in, listed types in the place of their aliases, and placeholders for the regions that the binders bind. It stops as
    /// `resolve_ty_if_possible` does.
    pub(crate) fn value_for(
        &mut self,
        alloc: Global,
        universes: &[u32],
        arg: GenericArg,
    ) -> Result<GenericArg, Stop>
    {
        value_in(
            alloc,
            &mut self.cx,
            &self.inference,
            self.normal.as_slice(),
            universes,
            arg,
        )
    }

    /// The list with the type of its pair in the place of each listed alias, from the top. It stops as
    /// `Rounds::resolve_ty_if_possible` does.
    pub(crate) fn with_listed_types(&mut self, alloc: Global, list: Args) -> Result<Args, Stop>
    {
        let normal = self.normal.as_slice();
        fold_answers(alloc, &mut self.cx, list, &Normalizing { normal })
    }

    /// The region under the binders of these universes, the innermost last: a placeholder, where one of them binds it. `Stop::Memory`
    /// comes where a growth was refused, `Stop::NodesFull` where no number is left.
    pub(crate) fn placed_region(
        &mut self,
        universes: &[u32],
        region: Region,
    ) -> Result<Region, Stop>
    {
        match placeholder_for(universes, 0, self.cx.region_kind(region)) {
            Some(placeholder) => self.cx.mk_region(placeholder),
            None => Ok(region),
        }
    }
}
