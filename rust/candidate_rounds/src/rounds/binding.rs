// Made of `crates/candidate_rounds/src/rounds/binding.rt` by `bench/plain.py`: an edit of this file is lost.

//! Variables that get values.


use kit::{eprintln, format, prelude::*, print, println, vec};
use crate::rounds::Rounds;
use crate::rounds::inference::Inference;
use crate::rounds::resolving::{Lone, is_same_kind};
use candidate_eval::eval::variable::VariableKind;
use ir_context::decl::context::Cx;
use ir_context::decl::make::Build;
use ir_folds::decl::answering::{PureFolder, fold_answers};
use ir_trees::ir::heads::{Builtin, Flag, Head, Marks, Variable, VariableSort};
use ir_trees::ir::kinds::{Binder, Clause, ClauseKind, GenericArg, Region};
use ir_trees::ir::numbered::Numbered;
use ir_trees::ir::stop::Stop;
use ir_trees::ir::trees::Trees;
use kit::alloc::Global;

/// Whether a variable of the sort may go to the argument: one for integers to an integer type or another variable for integers.
fn fits_sort(cx: &Cx, sort: VariableSort, arg: GenericArg) -> bool
{
    let head = cx.head(arg.number());
    match sort {
        VariableSort::General => matches!(arg, GenericArg::Ty(_)),
        VariableSort::Integer => match head {
            Head::Builtin(builtin) => matches!(builtin, Builtin::Int(_) | Builtin::Uint(_)),
            Head::Infer(variable) => variable.sort == VariableSort::Integer,
            _ => false,
        },
        VariableSort::Floating => match head {
            Head::Builtin(builtin) => matches!(builtin, Builtin::Float(_)),
            Head::Infer(variable) => variable.sort == VariableSort::Floating,
            _ => false,
        },
        VariableSort::Constant => matches!(arg, GenericArg::Const(_)),
    }
}

/// Whether the variable of that number stands anywhere in the argument.
fn holds_variable(cx: &Cx, arg: GenericArg, number: u32) -> bool
{
    match Lone::of(cx, arg) {
        Some(lone) => lone.has_number(number),
        None => cx.mentions(arg, number),
    }
}

/// Whether the argument, of which its sort isn't looked at, may be the value of a variable of that number and universe: it
/// doesn't hold it, is closed, and names no placeholder of a universe above the variable's.
fn is_allowed(cx: &Cx, number: u32, universe: u32, value: GenericArg) -> bool
{
    if let Some(lone) = Lone::of(cx, value) {
        return !lone.has_number(number);
    }
    if cx.mentions(value, number) {
        return false;
    }
    if cx.has_escaping_bound_vars(value) {
        return false;
    }
    !cx.has_placeholder_above(value, universe)
}

/// Whether two variables are the same.
fn is_same_variable(a: Variable, b: Variable) -> bool
{
    a.sort == b.sort && a.number == b.number
}

/// What is put in the place of an argument: the value in that of the variable.
fn put_for(cx: &Cx, variable: Variable, value: GenericArg, arg: GenericArg) -> Option<GenericArg>
{
    match cx.head(arg.number()) {
        Head::Infer(other) if is_same_variable(variable, other) => Some(value),
        _ => None,
    }
}

/// What `put_for` answers.
#[derive(Clone, Copy, Debug)]
struct Assigning {
    variable: Variable,
    value: GenericArg,
}

impl PureFolder<Cx> for Assigning {



    fn may_answer(&self, marks: Marks) -> bool {
        marks.has_infer()
    }

    fn answer(
        &self,
        alloc: Global,
        make: &mut Cx,
        arg: GenericArg,
        binders: u32,
    ) -> Result<Option<GenericArg>, Stop> {
        let _ = alloc;
        let _ = binders;
        Ok(put_for(make, self.variable, self.value, arg))
    }

    fn recall_laws(&self) {}
}

/// The argument, with the value put in for the variable.
fn put_value(
    alloc: Global,
    cx: &mut Cx,
    variable: Variable,
    value: GenericArg,
    arg: GenericArg,
) -> Result<GenericArg, Stop>
{
    if let Some(put) = put_for(cx, variable, value, arg) {
        return Ok(put);
    }
    fold_answers(alloc, cx, arg, &Assigning { variable, value })
}

/// Whether a variable of types or constants may stand in the argument: where it says no, none does.
fn is_open(cx: &Cx, arg: GenericArg) -> bool
{
    if let Some(lone) = Lone::of(cx, arg) {
        return lone.is_variable();
    }
    if matches!(arg, GenericArg::Region(_)) {
        return true;
    }
    cx.has(arg, Flag::TyInfer) || cx.has(arg, Flag::ConstInfer)
}

/// The variable of that number gets its value, once a variable has the value: the value itself, or its own with the value put
/// in, which is noted only where that changes it. It stops where a growth is refused, and where its own value with the value put in
/// can't be made; nothing is noted then.
fn renew_value(
    alloc: Global,
    cx: &mut Cx,
    inference: &mut Inference,
    number: u32,
    variable: Variable,
    value: GenericArg,
) -> Result<(), Stop>
{
    let Some(entry) = inference.entry(number) else {
        return Ok(());
    };
    if number == variable.number {
        return inference.assign(number, value);
    }
    let Some(old) = entry.value else {
        return Ok(());
    };
    if !holds_variable(cx, old, variable.number) {
        return Ok(());
    }
    let new = put_value(alloc, cx, variable, value, old)?;
    inference.assign(number, new)
}

/// The universe of the variable of that number falls to that one, if it is above it and the variable stands in the value. The only stop
/// is `Stop::Memory`.
fn renew_universe(
    cx: &Cx,
    inference: &mut Inference,
    number: u32,
    value: GenericArg,
    universe: u32,
) -> Result<(), Stop>
{
    let Some(entry) = inference.entry(number) else {
        return Ok(());
    };
    if entry.universe <= universe {
        return Ok(());
    }
    if !cx.mentions(value, number) {
        return Ok(());
    }
    inference.lower(number, universe)
}

/// Notes that the variable may get the value, where a variable stands in it. `Stop::Memory` comes where a growth was refused,
/// `Stop::NodesFull` where the variable's number is too large to be noted; nothing is noted then.
fn make_room(
    cx: &Cx,
    inference: &mut Inference,
    variable: Variable,
    value: GenericArg,
) -> Result<(), Stop>
{
    if !is_open(cx, value) {
        return Ok(());
    }
    inference.widen(variable.number)
}

/// All variables get the values that they have once the variable has the value. Only those are looked at in whose values a variable may
/// stand.
fn renew_values(
    alloc: Global,
    cx: &mut Cx,
    inference: &mut Inference,
    variable: Variable,
    value: GenericArg,
) -> Result<(), Stop>
{
    let (first, end) = inference.open_values();
    for number in first..end {
        renew_value(alloc, cx, inference, number, variable, value)?;
    }
    renew_value(alloc, cx, inference, variable.number, variable, value)
}

/// The universes of all variables in the value fall to that one, where they are above it; none is, where that is the newest. Besides
/// `Stop::Memory`, `Stop::NodesFull` comes where more variables are there than can be numbered.
fn renew_universes(
    cx: &Cx,
    inference: &mut Inference,
    value: GenericArg,
    universe: u32,
) -> Result<(), Stop>
{
    if inference.newest_universe() <= universe {
        return Ok(());
    }
    let count = inference.next_variables(0)?;
    for number in 0..count {
        renew_universe(cx, inference, number, value, universe)?;
    }
    Ok(())
}

/// All variables become what they are once the variable, of that universe, has the value.
fn renew_all(
    alloc: Global,
    cx: &mut Cx,
    inference: &mut Inference,
    variable: Variable,
    value: GenericArg,
    universe: u32,
) -> Result<(), Stop>
{
    make_room(cx, inference, variable, value)?;
    renew_values(alloc, cx, inference, variable, value)?;
    renew_universes(cx, inference, value, universe)
}

/// The variable gets the value, as `Rounds::bind` says.
fn bind_in(
    alloc: Global,
    cx: &mut Cx,
    inference: &mut Inference,
    variable: Variable,
    value: GenericArg,
) -> Result<(), Stop>
{
    let Some(entry) = inference.entry(variable.number) else {
        return Ok(());
    };
    let changes = inference.changes();
    if let Err(stop) = renew_all(alloc, cx, inference, variable, value, entry.universe) {
        inference.undo_to(changes);
        return Err(stop);
    }
    Ok(())
}

/// The clause that one region outlives another.
fn outlives(cx: &mut Cx, a: Region, b: Region) -> Result<Clause, Stop>
{
    let vars = cx.mk_vars(&[])?;
    cx.mk_clause(Binder {
        vars,
        value: ClauseKind::RegionOutlives(a, b),
    })
}

/// The clauses that two regions are equal: each outlives the other.
fn equal_regions(cx: &mut Cx, a: Region, b: Region) -> Result<(Clause, Clause), Stop>
{
    let one = outlives(cx, a, b)?;
    let other = outlives(cx, b, a)?;
    Ok((one, other))
}

/// Whether two regions are the same.
fn is_same_region(cx: &Cx, a: Region, b: Region) -> bool
{
    cx.region_kind(a) == cx.region_kind(b)
}

/// Records two region constraints; none, where it stops. The only stop is `Stop::Memory`.
fn record_both(inference: &mut Inference, one: Clause, other: Clause) -> Result<(), Stop>
{
    let changes = inference.changes();
    inference.record_region(one)?;
    if let Err(stop) = inference.record_region(other) {
        inference.undo_to(changes);
        return Err(stop);
    }
    Ok(())
}

impl Rounds {
    /// Whether the variable is there, and may get the value: it is of its sort, doesn't hold it, is closed, and names no placeholder of a
    /// universe above the variable's.
    pub(crate) fn may_take(&self, variable: Variable, value: GenericArg) -> bool
    {
        let Some(entry) = self.inference.entry(variable.number) else {
            return false;
        };
        if !is_same_kind(entry.kind, VariableKind::Term(variable.sort)) {
            return false;
        }
        if !fits_sort(&self.cx, variable.sort, value) {
            return false;
        }
        is_allowed(&self.cx, variable.number, entry.universe, value)
    }

    /// The variable, which has none yet, gets the value, which it may take: it is put into all values that hold the variable, and what
    /// stands in it is of no universe above the variable's. `Stop::Memory` comes where a growth was refused, `Stop::NodesFull` where no
    /// numbers are left or a tree would be higher than 1,024; nothing is known then that wasn't.
    pub(crate) fn bind(
        &mut self,
        alloc: Global,
        variable: Variable,
        value: GenericArg,
    ) -> Result<(), Stop>
    {
        bind_in(alloc, &mut self.cx, &mut self.inference, variable, value)
    }

    /// Records that two regions are equal, where they differ: each outlives the other. `Stop::Memory` comes where a growth was refused,
    /// `Stop::NodesFull` where no numbers are left; nothing is recorded then.
    pub(crate) fn record_equal_regions(&mut self, a: Region, b: Region) -> Result<(), Stop>
    {
        if is_same_region(&self.cx, a, b) {
            return Ok(());
        }
        let (one, other) = equal_regions(&mut self.cx, a, b)?;
        record_both(&mut self.inference, one, other)
    }

    /// What holds between calls, said to a caller that needs it. Nothing is done.
    pub(crate) fn recall_well_kept(&self)
    {
        let _ = &self.inference;
    }

    /// Takes back all changes of what is known but the first so many, of which each open probe has no more.
    pub(crate) fn undo_to(&mut self, changes: usize)
    {
        self.inference.undo_to(changes);
    }
}
