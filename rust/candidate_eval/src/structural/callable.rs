// Made of `crates/candidate_eval/src/structural/callable.rt` by `bench/plain.py`: an edit of this file is lost.

//! What can be called: with which inputs, as one tuple, and to which output.


use kit::{eprintln, format, prelude::*, print, println, vec};
use crate::eval::refusal::NoSolutionOrStop;
use crate::structural::tables::{is_no_unknown, kind_of};
use ir_context::decl::Cx;
use ir_context::decl::make::Make;
use ir_folds::decl::subst::subst;
use ir_trees::decl::definition::{FnFlags, are_type_args};
use ir_trees::ir::kinds::{
    Args, Binder, ClosureArgs, ClosureId, ClosureKind, ClosureSig, FnId, FnSig, Sig, Ty, TyKind,
};
use ir_trees::ir::stop::Stop;
use ir_trees::ir::trees::Trees;
use kit::alloc::Global;

/// What is called where a constant is computed.
#[derive(Clone, Copy, PartialEq, Eq, Debug)]
pub enum CallableId {
    Function(FnId),
    Closure(ClosureId),
}

/// What a type says of being called.
#[derive(Clone, Copy, Debug)]
pub(crate) enum Called {
    Function(FnId, Args),
    Pointer(Binder<FnSig>),
    Closure(ClosureId, ClosureArgs),
    /// It can't be.
    Nothing,
}

/// Whether a closure that is called so can also be called as is asked: `Fn` in any way, `FnMut` as
/// `FnMut` and as `FnOnce`, and `FnOnce` as itself alone.
pub fn extends(kind: ClosureKind, asked: ClosureKind) -> bool
{
    match kind {
        ClosureKind::Fn => true,
        ClosureKind::FnMut => !matches!(asked, ClosureKind::Fn),
        ClosureKind::FnOnce => matches!(asked, ClosureKind::FnOnce),
    }
}

/// The inputs, as a tuple, and the output of a closure's signature as they stand.
fn signature(cx: &Cx, sig: Sig) -> Binder<(Ty, Ty)>
{
    let sig = cx.sig(sig);
    Binder {
        vars: sig.vars,
        value: (sig.value.inputs, sig.value.output),
    }
}

/// The inputs, as a tuple, and the output of a closure that is called as is asked, under the binder
/// of its signature. `None` where its kind isn't determined yet and it is asked for more than one
/// call. `NoSolution` comes where it can't be called so.
pub fn inputs_and_output_of_closure(
    cx: &Cx,
    args: ClosureArgs,
    goal_kind: ClosureKind,
) -> Result<Option<Binder<(Ty, Ty)>>, NoSolutionOrStop>
{
    match (args.kind, goal_kind) {
        (Some(kind), _) => if extends(kind, goal_kind) {
            Ok(Some(signature(cx, args.sig)))
        } else {
            Err(NoSolutionOrStop::NoSolution)
        },
        (None, ClosureKind::FnOnce) => Ok(Some(signature(cx, args.sig))),
        (None, ClosureKind::Fn | ClosureKind::FnMut) => Ok(None),
    }
}

/// The inputs of the pointer as a tuple, and its output, under its binder.
fn tupled<M: Make>(make: &mut M, sig: Binder<FnSig>) -> Result<Binder<(Ty, Ty)>, Stop>
{
    let inputs = make.mk_ty(TyKind::Tuple(sig.value.inputs))?;
    Ok(Binder {
        vars: sig.vars,
        value: (inputs, sig.value.output),
    })
}

/// The inputs of the pointer as a tuple, and its output, under its binder.
///
/// `NoSolution` comes where it is unsafe, of another ABI or variadic, `Stop::Memory` where a growth
/// was refused, `Stop::NodesFull` where the tuple was not made, as by `mk_ty`.
pub fn inputs_and_output_of_fn_ptr<M: Make>(
    make: &mut M,
    sig: Binder<FnSig>,
) -> Result<Binder<(Ty, Ty)>, NoSolutionOrStop>
{
    if !sig.value.is_fn_trait_compatible() {
        return Err(NoSolutionOrStop::NoSolution);
    }
    Ok(tupled(make, sig)?)
}

/// Whether all arguments of the list are types.
fn are_types(cx: &Cx, list: Args) -> bool
{
    are_type_args(cx.args(list))
}

/// Whether a function with these flags and this signature can be called.
fn can_be_called(cx: &Cx, flags: FnFlags, sig: FnSig) -> bool
{
    sig.is_fn_trait_compatible() && !flags.target_features && are_types(cx, sig.inputs)
}

/// The signature of the function as it is declared, if it can be called; its parameters have these
/// arguments.
fn function_signature(cx: &Cx, function: FnId, args: Args) -> Option<Binder<FnSig>>
{
    let flags = cx.fn_flags(function)?;
    let sig = cx.fn_sig_of(function, args)?;
    if can_be_called(cx, flags, sig.value) {
        Some(sig)
    } else {
        None
    }
}

/// The signature of a function as that of a closure: its inputs as one tuple.
fn declared<M: Make>(make: &mut M, sig: Binder<FnSig>) -> Result<Sig, Stop>
{
    let inputs = make.mk_ty(TyKind::Tuple(sig.value.inputs))?;
    make.mk_sig(Binder {
        vars: sig.vars,
        value: ClosureSig {
            inputs,
            output: sig.value.output,
        },
    })
}

/// The inputs as a tuple, and the output, of the signature with arguments put in.
fn instance<M: Make>(
    alloc: Global,
    make: &mut M,
    sig: Binder<FnSig>,
    args: Args,
) -> Result<Binder<(Ty, Ty)>, Stop>
{
    let declared = declared(make, sig)?;
    let made = subst(alloc, make, declared, args)?;
    Ok(signature(make.cx(), made))
}

/// The inputs of the function as a tuple, and its output, under the binder of its signature, with
/// these arguments put in.
///
/// `NoSolution` comes where it is unsafe, of another ABI or variadic, where it needs features that
/// the target may lack, and where an input is no type. `Stop::Memory` comes where a growth was
/// refused, `Stop::NodesFull` where the signature was not made, as by `mk_sig` and `subst`.
pub fn inputs_and_output_of_fn_def<M: Make>(
    alloc: Global,
    make: &mut M,
    function: FnId,
    args: Args,
) -> Result<Binder<(Ty, Ty)>, NoSolutionOrStop>
{
    debug_assert!(ir_trees::checks::is_sorted(ir_context::decl::make::Make::cx(&*make), args), "candidate_eval::structural::callable::inputs_and_output_of_fn_def: `args` is {:?}, no number of its sort in this context", args);
    match function_signature(make.cx(), function, args) {
        Some(sig) => Ok(instance(alloc, make, sig, args)?),
        None => Err(NoSolutionOrStop::NoSolution),
    }
}

fn called_as(kind: TyKind) -> Called
{
    match kind {
        TyKind::FnDef(function, args) => Called::Function(function, args),
        TyKind::FnPtr(sig) => Called::Pointer(sig),
        TyKind::Closure(closure, args) => Called::Closure(closure, args),
        TyKind::Bool
        | TyKind::Char
        | TyKind::Int(_)
        | TyKind::Uint(_)
        | TyKind::Float(_)
        | TyKind::Str
        | TyKind::Never
        | TyKind::Adt(_, _)
        | TyKind::Foreign(_)
        | TyKind::Array(_, _)
        | TyKind::Slice(_)
        | TyKind::Pat(_, _)
        | TyKind::RawPtr(_, _)
        | TyKind::Ref(_, _, _)
        | TyKind::UnsafeBinder(_)
        | TyKind::Dynamic(_, _)
        | TyKind::Tuple(_)
        | TyKind::Alias(_)
        | TyKind::Param(_)
        | TyKind::Placeholder(_)
        | TyKind::Bound(_)
        | TyKind::Infer(_)
        | TyKind::Error => Called::Nothing,
    }
}

/// What the type says of being called.
fn how_called(cx: &Cx, ty: Ty) -> Called
{
    called_as(kind_of(cx, ty))
}

/// The inputs of what is called, as one tuple, and its output, under the binder of its signature:
/// of a function with the type's arguments put in, of a function pointer, and of a closure that can
/// be called as is asked. `None` comes of a closure whose kind isn't determined yet, if it is asked
/// for more than one call.
///
/// No general variable and no bound type is asked about (`has_callable_cell`). `NoSolution` comes
/// where the type can't be called so: a function or a pointer that is unsafe, of another ABI or
/// variadic; a function that needs features that the target may lack, or one of whose inputs is no
/// type; a closure whose kind doesn't extend the one asked; and any other type. `Stop::Memory` comes
/// where a growth was refused, `Stop::NodesFull` where the tuple or the signature was not made, as
/// by `mk_sig` and `subst`; after a stop the nodes that were made stay.
pub fn extract_tupled_inputs_and_output_from_callable<M: Make>(
    alloc: Global,
    make: &mut M,
    self_ty: Ty,
    goal_kind: ClosureKind,
) -> Result<Option<Binder<(Ty, Ty)>>, NoSolutionOrStop>
{
    debug_assert!(ir_trees::checks::is_sorted(ir_context::decl::make::Make::cx(&*make), self_ty), "candidate_eval::structural::callable::extract_tupled_inputs_and_output_from_callable: `self_ty` is {:?}, no number of its sort in this context", self_ty);
    match how_called(make.cx(), self_ty) {
        Called::Function(function, args) => {
            let signature = inputs_and_output_of_fn_def(alloc, make, function, args)?;
            Ok(Some(signature))
        }
        Called::Pointer(sig) => {
            let signature = inputs_and_output_of_fn_ptr(make, sig)?;
            Ok(Some(signature))
        }
        Called::Closure(_, args) => inputs_and_output_of_closure(make.cx(), args, goal_kind),
        Called::Nothing => Err(NoSolutionOrStop::NoSolution),
    }
}

fn is_const_function(cx: &Cx, function: FnId) -> bool
{
    match cx.fn_flags(function) {
        Some(flags) => flags.is_const,
        None => false,
    }
}

/// The inputs and the output of a function that can be called where a constant is computed.
fn const_fn_def<M: Make>(
    alloc: Global,
    make: &mut M,
    function: FnId,
    args: Args,
) -> Result<Binder<(Ty, Ty)>, NoSolutionOrStop>
{
    if !is_const_function(make.cx(), function) {
        return Err(NoSolutionOrStop::NoSolution);
    }
    inputs_and_output_of_fn_def(alloc, make, function, args)
}

/// The inputs and the output of a closure that can be called where a constant is computed.
fn const_closure(
    cx: &Cx,
    closure: ClosureId,
    args: ClosureArgs,
) -> Result<Binder<(Ty, Ty)>, NoSolutionOrStop>
{
    if cx.closure_is_const(closure) {
        Ok(signature(cx, args.sig))
    } else {
        Err(NoSolutionOrStop::NoSolution)
    }
}

/// The inputs as one tuple and the output, under the binder of the signature, of what can be called
/// where a constant is computed; what that is; and the arguments that it has of its own: a
/// function's are those of its type, a closure's those of what it stands in.
///
/// No general variable and no bound type is asked about (`has_callable_cell`). `NoSolution` comes of
/// any type but that of a function or a closure that is said to be called there; a function is also
/// refused as by `extract_tupled_inputs_and_output_from_callable`, and it stops as by that call.
pub fn extract_fn_def_from_const_callable<M: Make>(
    alloc: Global,
    make: &mut M,
    self_ty: Ty,
) -> Result<(Binder<(Ty, Ty)>, CallableId, Args), NoSolutionOrStop>
{
    debug_assert!(ir_trees::checks::is_sorted(ir_context::decl::make::Make::cx(&*make), self_ty), "candidate_eval::structural::callable::extract_fn_def_from_const_callable: `self_ty` is {:?}, no number of its sort in this context", self_ty);
    match how_called(make.cx(), self_ty) {
        Called::Function(function, args) => {
            let signature = const_fn_def(alloc, make, function, args)?;
            Ok((signature, CallableId::Function(function), args))
        }
        Called::Closure(closure, args) => {
            let signature = const_closure(make.cx(), closure, args)?;
            Ok((signature, CallableId::Closure(closure), args.parent))
        }
        Called::Pointer(_) | Called::Nothing => Err(NoSolutionOrStop::NoSolution),
    }
}

/// Whether it is asked about the type how it is called: what
/// `extract_tupled_inputs_and_output_from_callable` and `extract_fn_def_from_const_callable` take.
pub fn has_callable_cell(cx: &Cx, ty: Ty) -> bool
{
    debug_assert!(ir_trees::checks::is_sorted(&*cx, ty), "candidate_eval::structural::callable::has_callable_cell: `ty` is {:?}, no number of its sort in this context", ty);
    is_no_unknown(cx.kind(ty))
}
