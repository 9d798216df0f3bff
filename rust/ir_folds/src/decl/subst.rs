// Made of `crates/ir_folds/src/decl/subst.rt` by `bench/plain.py`: an edit of this file is lost.

//! Arguments in the place of parameters.


use kit::{eprintln, format, prelude::*, print, println, vec};
use crate::decl::answering::{PureFolder, fold_once};
use crate::decl::open::{bound_variable, bound_variable_of};
use ir_context::decl::context::Cx;
use ir_context::decl::make::Make;
use ir_trees::ir::heads::{ConstHead, Flag, Head, Marks};
use ir_trees::ir::kinds::{Args, BoundVar, GenericArg, VarKind};
use ir_trees::ir::numbered::Numbered;
use ir_trees::ir::quiet::{holds_bound, holds_param};
use ir_trees::ir::stop::Stop;
use ir_trees::ir::trees::Trees;
use kit::alloc::Global;

/// What stands for a bound variable that is bound outside of the binders passed, where so many more
/// come to stand outside of these.
fn moved<M: Make>(
    make: &mut M,
    arg: GenericArg,
    binders: u32,
    by: u32,
) -> Result<Option<GenericArg>, Stop>
{
    let head = make.cx().head(arg.number());
    let Some((kind, var)) = bound_variable_of(head) else {
        return Ok(None);
    };
    match further(var, binders, by)? {
        Some(var) => Ok(Some(bound_variable(make, kind, var)?)),
        None => Ok(None),
    }
}

/// What `moved` answers.
#[derive(Clone, Copy, Debug)]
struct Shifting {
    by: u32,
}

impl<M: Make> PureFolder<M> for Shifting {



    fn may_answer(&self, marks: Marks) -> bool {
        marks.has_bound()
    }

    fn answer(
        &self,
        alloc: Global,
        make: &mut M,
        arg: GenericArg,
        binders: u32,
    ) -> Result<Option<GenericArg>, Stop> {
        let _ = alloc;
        moved(make, arg, binders, self.by)
    }

    fn recall_laws(&self) {}
}

/// The variable bound so much further out, unless it is bound by one of the binders passed.
fn further(var: BoundVar, binders: u32, by: u32) -> Result<Option<BoundVar>, Stop>
{
    if var.depth < binders {
        return Ok(None);
    }
    match var.depth.checked_add(by) {
        Some(depth) => Ok(Some(BoundVar {
            depth,
            index: var.index,
        })),
        None => Err(Stop::NodesFull),
    }
}

/// The argument in a place under so many more binders: what is bound outside of it is bound so much
/// further out.
pub(crate) fn shifted<M: Make>(
    alloc: Global,
    make: &mut M,
    arg: GenericArg,
    by: u32,
) -> Result<GenericArg, Stop>
{
    let whole = arg.number();
    if !holds_bound(make.cx(), whole) {
        return Ok(arg);
    }
    let number = fold_once(alloc, make, &Shifting { by }, whole)?;
    Ok(arg.with_number(number))
}

/// The argument of that number, if the list has so many.
pub(crate) fn nth_argument(cx: &Cx, args: Args, index: u32) -> Option<GenericArg>
{
    let list = cx.args(args);
    if index as usize >= list.len() {
        return None;
    }
    Some(list[index as usize])
}

/// The argument for a parameter, if there is one of its kind.
fn argument_for(cx: &Cx, args: Args, arg: GenericArg) -> Option<GenericArg>
{
    match cx.head(arg.number()) {
        Head::Param(index) => {
            let value = nth_argument(cx, args, index)?;
            if value.is_of(VarKind::Ty) {
                Some(value)
            } else {
                None
            }
        }
        Head::Const(ConstHead::Param(index)) => {
            let value = nth_argument(cx, args, index)?;
            if value.is_of(VarKind::Const) {
                Some(value)
            } else {
                None
            }
        }
        _ => None,
    }
}

/// What stands for a parameter under so many binders: its argument, shifted.
pub(crate) fn put<M: Make>(
    alloc: Global,
    make: &mut M,
    args: Args,
    arg: GenericArg,
    binders: u32,
) -> Result<Option<GenericArg>, Stop>
{
    match argument_for(make.cx(), args, arg) {
        Some(value) => Ok(Some(shifted(alloc, make, value, binders)?)),
        None => Ok(None),
    }
}

/// What `put` answers.
#[derive(Clone, Copy, Debug)]
struct Putting {
    args: Args,
}

impl<M: Make> PureFolder<M> for Putting {



    fn may_answer(&self, marks: Marks) -> bool {
        marks.has(Flag::Param)
    }

    fn answer(
        &self,
        alloc: Global,
        make: &mut M,
        arg: GenericArg,
        binders: u32,
    ) -> Result<Option<GenericArg>, Stop> {
        put(alloc, make, self.args, arg, binders)
    }

    fn recall_laws(&self) {}
}

/// What a number stands for, with the list's argument of its number in the place of each parameter.
fn substituted<M: Make>(alloc: Global, make: &mut M, number: u32, args: Args) -> Result<u32, Stop>
{
    if !holds_param(make.cx(), number) {
        return Ok(number);
    }
    fold_once(alloc, make, &Putting { args }, number)
}

/// The type, constant, list or whatever else it is, with the list's argument of its number in the place
/// of each parameter, shifted by the binders that it stands under.
///
/// Each parameter of it has an argument, of its kind. `Stop::Memory` comes where a growth was
/// refused, `Stop::NodesFull` where no numbers are left, or fewer than a list of bounds takes, the
/// tree would be higher than 1,024, or a bound variable would be bound more than 2^32 - 1 binders
/// out. What has no parameter is answered at once, and no number is gone into twice under as many binders;
/// after a stop the nodes that were made stay.
pub fn subst<N: Numbered, M: Make>(
    alloc: Global,
    make: &mut M,
    value: N,
    args: Args,
) -> Result<N, Stop>

    // Laws; those of lists follow from `list` alike.
{
    debug_assert!(ir_trees::checks::is_sorted(ir_context::decl::make::Make::cx(&*make), args), "ir_folds::decl::subst::subst: `args` is {:?}, no number of its sort in this context", args);
    let number = substituted(alloc, make, value.number(), args)?;
    Ok(value.with_number(number))
}
