// Made of `crates/candidate_rounds/src/rounds/resolving.rt` by `bench/plain.py`: an edit of this file is lost.

//! What variables stand for.


use kit::{eprintln, format, prelude::*, print, println, vec};
use crate::rounds::Rounds;
use crate::rounds::inference::Inference;
use candidate_eval::eval::variable::VariableKind;
use ir_context::decl::context::Cx;
use ir_folds::decl::answering::{PureFolder, fold_answers};
use ir_trees::ir::heads::{Head, Marks, Variable, VariableSort};
use ir_trees::ir::kinds::{ConstKind, GenericArg, Region, RegionKind as Kind, Ty, TyKind};
use ir_trees::ir::marks::Unsolved;
use ir_trees::ir::numbered::Numbered;
use ir_trees::ir::stop::Stop;
use ir_trees::ir::trees::Trees;
use kit::alloc::Global;

/// What no walk is needed for.
#[derive(Clone, Copy, Debug)]
pub(crate) enum Lone {
    /// A variable of types or constants.
    Variable(Variable),
    /// A builtin type without children.
    Plain,
}

impl Lone {
    /// What the argument is, if it is lone.
    pub(crate) fn of(cx: &Cx, arg: GenericArg) -> Option<Lone>
    {
        match arg {
            GenericArg::Ty(ty) => match cx.kind(ty) {
                TyKind::Infer(var) => Some(Lone::Variable(var.variable())),
                TyKind::Bool | TyKind::Char | TyKind::Str | TyKind::Never => Some(Lone::Plain),
                TyKind::Int(_) | TyKind::Uint(_) | TyKind::Float(_) => Some(Lone::Plain),
                _ => None,
            },
            GenericArg::Const(constant) => match cx.const_kind(constant) {
                ConstKind::Infer(number) => Some(Lone::Variable(Variable {
                    sort: VariableSort::Constant,
                    number,
                })),
                _ => None,
            },
            GenericArg::Region(_) => None,
        }
    }

    /// Whether it is a variable.
    pub(crate) fn is_variable(self) -> bool
    {
        matches!(self, Lone::Variable(_))
    }

    /// The number of the variable that it is, if it is one.
    pub(crate) fn number(self) -> Option<u32>
    {
        match self {
            Lone::Variable(variable) => Some(variable.number),
            Lone::Plain => None,
        }
    }

    /// Whether it is the variable of that number.
    pub(crate) fn has_number(self, number: u32) -> bool
    {
        match self {
            Lone::Variable(variable) => variable.number == number,
            Lone::Plain => false,
        }
    }

    /// The value of the variable that it is, if it is one that has a value.
    fn value(self, inference: &Inference) -> Option<GenericArg>
    {
        match self {
            Lone::Variable(variable) => kept_value(
                inference,
                VariableKind::Term(variable.sort),
                variable.number,
            ),
            Lone::Plain => None,
        }
    }
}

/// The type that an argument is.
pub(crate) fn type_of(arg: GenericArg) -> Ty
{
    match arg {
        GenericArg::Ty(ty) => ty,
        GenericArg::Const(_) | GenericArg::Region(_) => unreachable!(),
    }
}

/// The region that an argument is.
pub(crate) fn region_of(arg: GenericArg) -> Region
{
    match arg {
        GenericArg::Region(region) => region,
        GenericArg::Ty(_) | GenericArg::Const(_) => unreachable!(),
    }
}

/// Whether two kinds of variables are the same.
pub(crate) fn is_same_kind(a: VariableKind, b: VariableKind) -> bool
{
    match (a, b) {
        (VariableKind::Term(a), VariableKind::Term(b)) => a == b,
        (VariableKind::Region, VariableKind::Region) => true,
        _ => false,
    }
}

/// The value of the variable of that number, if it is of that kind and has one.
pub(crate) fn kept_value(
    inference: &Inference,
    kind: VariableKind,
    number: u32,
) -> Option<GenericArg>
{
    let entry = inference.entry(number)?;
    if !is_same_kind(entry.kind, kind) {
        return None;
    }
    entry.value
}

/// What stands for a type, constant or region that is a variable, if that has a value.
#[inline(always)]
fn value_for(cx: &Cx, inference: &Inference, arg: GenericArg) -> Option<GenericArg>
{
    match cx.head(arg.number()) {
        Head::Infer(variable) => kept_value(
            inference,
            VariableKind::Term(variable.sort),
            variable.number,
        ),
        Head::Region(Kind::Var(number)) => { kept_value(inference, VariableKind::Region, number) }
        _ => None,
    }
}

/// The argument with the value in the place of a variable of types or constants at its root, if that has one; another argument is
/// its own answer.
pub(crate) fn resolved_root(cx: &Cx, inference: &Inference, arg: GenericArg) -> GenericArg
{
    if let GenericArg::Region(_) = arg {
        return arg;
    }
    value_for(cx, inference, arg).unwrap_or(arg)
}

/// The variable of types or constants that a number is, if it is one.
pub(crate) fn variable_at(cx: &Cx, number: u32) -> Option<Variable>
{
    match cx.head(number) {
        Head::Infer(variable) => Some(variable),
        _ => None,
    }
}

/// What `value_for` answers.
#[derive(Debug)]
struct Resolving<'a> {
    inference: &'a Inference,
}

impl PureFolder<Cx> for Resolving<'_> {



    fn may_answer(&self, marks: Marks) -> bool {
        marks.has_infer()
    }

    fn answer(
        &self,
        alloc: Global,
        make: &mut Cx,
        arg: GenericArg,
        binders: u32,
    ) -> Result<Option<GenericArg>, Stop> {
        let _ = alloc;
        let _ = binders;
        Ok(value_for(make, self.inference, arg))
    }

    fn recall_laws(&self) {}
}

/// The type, constant, list or whatever else it is, with all values put in.
pub(crate) fn resolved<N: Numbered>(
    alloc: Global,
    cx: &mut Cx,
    inference: &Inference,
    value: N,
) -> Result<N, Stop>
{
    if !cx.has_marked(value, &Unsolved) {
        return Ok(value);
    }
    fold_answers(alloc, cx, value, &Resolving { inference })
}

/// The argument, with all values put in.
pub(crate) fn resolved_arg(
    alloc: Global,
    cx: &mut Cx,
    inference: &Inference,
    arg: GenericArg,
) -> Result<GenericArg, Stop>
{
    if let Some(lone) = Lone::of(cx, arg) {
        return Ok(lone.value(inference).unwrap_or(arg));
    }
    resolved(alloc, cx, inference, arg)
}

impl Rounds {
    /// The value of the variable of that number, if it is of that kind and has one.
    pub(crate) fn value(&self, kind: VariableKind, number: u32) -> Option<GenericArg>
    {
        kept_value(&self.inference, kind, number)
    }
}
