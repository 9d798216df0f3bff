// Made of `crates/candidate_rounds/src/rounds/giving.rt` by `bench/plain.py`: an edit of this file is lost.

//! What a Yes of the table gives a goal that asks.


use kit::{eprintln, format, prelude::*, print, println, vec};
use crate::rounds::Rounds;
use crate::rounds::fresh::{Leaves, leaf, variable};
use crate::rounds::goals::GoalKey;
use crate::rounds::keys::{greatest_said, newest_of};
use crate::rounds::responding::variable_in;
use candidate_eval::eval::refusal::NoSolutionOrStop;
use candidate_eval::eval::response::CanonicalResponse;
use candidate_eval::eval::variable::CanonicalVar;
use ir_context::decl::context::Cx;
use ir_folds::decl::answering::{PureFolder, fold_answers};
use ir_trees::ir::heads::{ConstHead, Head, Marks};
use ir_trees::ir::kinds::{Args, Clause, GenericArg, Placeholder, RegionKind, VarKind};
use ir_trees::ir::numbered::Numbered;
use ir_trees::ir::stop::Stop;
use ir_trees::ir::trees::Trees;
use kit::alloc::Global;

/// Whether the argument is the variable of that number.
fn is_variable(cx: &Cx, arg: GenericArg, number: usize) -> bool
{
    match cx.variable_number(arg) {
        Some(other) => other as usize == number,
        None => false,
    }
}

/// The goal's own variable for the one of that place that a response leaves open, if it has one: of these variables, which have these
/// numbers, the first whose value is that one, and which is of the same kind and universe still.
fn own_variable(
    cx: &Cx,
    variables: &[CanonicalVar],
    numbers: &[u32],
    values: &[GenericArg],
    place: usize,
    left_open: CanonicalVar,
) -> Option<u32>
{
    for i in 0..variables.len() {
        if i >= numbers.len() || i >= values.len() {
            return None;
        }
        if is_variable(cx, values[i], place) && variables[i] == left_open {
            return Some(numbers[i]);
        }
    }
    None
}

/// How the universes are lifted that a response's key doesn't have: those above that one, up to the greatest that the response names,
/// for which the newest of the state stands.
#[derive(Clone, Copy, Debug)]
struct Lift {
    above: u32,
    greatest: u32,
    newest: u32,
}

/// What stands for what a response says of its own: variables of these numbers for those that it leaves open, and placeholders of
/// universes that are lifted.
#[derive(Clone, Copy, Debug)]
struct Translation<'a> {
    names: &'a [u32],
    lift: Lift,
}

/// The placeholder that a head is, if it is one, with its kind.
fn placeholder_in(head: Head) -> Option<(VarKind, Placeholder)>
{
    match head {
        Head::Placeholder(placeholder) => Some((VarKind::Ty, placeholder)),
        Head::Const(ConstHead::Placeholder(placeholder)) => Some((VarKind::Const, placeholder)),
        Head::Region(RegionKind::Placeholder(placeholder)) => Some((VarKind::Region, placeholder)),
        _ => None,
    }
}

/// What stands for a placeholder, if its universe is lifted. It stops as `translated` does.
fn lifted(cx: &mut Cx, lift: Lift, arg: GenericArg) -> Result<Option<GenericArg>, Stop>
{
    let Some((kind, placeholder)) = placeholder_in(cx.head(arg.number())) else {
        return Ok(None);
    };
    if placeholder.universe <= lift.above {
        return Ok(None);
    }
    let below = lift.greatest.saturating_sub(placeholder.universe);
    let universe = Leaves::Placeholders(lift.newest.saturating_sub(below));
    Ok(Some(leaf(cx, universe, kind, placeholder.index)?))
}

/// What stands for a variable or a placeholder that a response says of its own. `Stop::Memory` comes where a growth was refused,
/// `Stop::NodesFull` where no number is left.
fn translated(
    cx: &mut Cx,
    translation: &Translation<'_>,
    arg: GenericArg,
) -> Result<Option<GenericArg>, Stop>
{
    let Some((kind, number)) = variable_in(cx, arg) else {
        return lifted(cx, translation.lift, arg);
    };
    let name = translation.names.get(number as usize).copied().unwrap_or(0);
    Ok(Some(variable(cx, kind, name)?))
}

impl PureFolder<Cx> for Translation<'_> {



    fn may_answer(&self, marks: Marks) -> bool {
        marks.has_infer() || marks.has_placeholder()
    }

    fn answer(
        &self,
        _alloc: Global,
        cx: &mut Cx,
        arg: GenericArg,
        _binders: u32,
    ) -> Result<Option<GenericArg>, Stop> {
        translated(cx, self, arg)
    }

    fn recall_laws(&self) {}
}

/// The list of the variables of these kinds that have these numbers.
fn own_row(
    alloc: Global,
    cx: &mut Cx,
    variables: &[CanonicalVar],
    numbers: &[u32],
) -> Result<Args, Stop>
{
    let mut list = Vec::new(alloc);
    for i in 0..numbers.len() {
        list.push(variable(cx, variables[i].kind, numbers[i])?)?;
    }
    cx.mk_arg_list(list)
}

impl Rounds {
    /// A fresh variable for one that a response leaves open, of no universe that there isn't. `Stop::Memory` comes where a growth was
    /// refused, `Stop::NodesFull` where no number is left.
    pub(crate) fn open_variable(&mut self, left_open: CanonicalVar) -> Result<u32, Stop>
    {
        self.inference
            .open_variable(left_open.kind, left_open.universe)
    }

    /// The number for each variable that the response leaves open: of the goal's own variable, if it has one, or of a fresh one.
    fn names(
        &mut self,
        alloc: Global,
        key: &GoalKey,
        numbers: &[u32],
        response: &CanonicalResponse,
    ) -> Result<Vec<u32>, Stop>
    {
        self.recall_well_kept();
        let mut names = Vec::new(alloc);
        for place in 0..response.vars.len() {
            let left_open = response.vars[place];
            let values = self.cx.args(response.values);
            let variables = key.variables.as_slice();
            let name = match own_variable(&self.cx, variables, numbers, values, place, left_open) {
                Some(own) => own,
                None => self.open_variable(left_open)?,
            };
            names.push(name)?;
        }
        Ok(names)
    }

    /// So many more universes. Besides `Stop::Memory`, `Stop::NodesFull` comes where they can't all be told apart.
    fn add_universes(&mut self, count: u32) -> Result<(), Stop>
    {
        self.inference.add_universes(count)
    }

    /// New universes for those that a response names and its key doesn't have, and how they are lifted to them.
    fn lift(
        &mut self,
        alloc: Global,
        key: &GoalKey,
        response: &CanonicalResponse,
    ) -> Result<Lift, Stop>
    {
        let above = newest_of(alloc, &self.cx, key)?;
        let greatest = greatest_said(alloc, &self.cx, response)?;
        self.add_universes(greatest.saturating_sub(above))?;
        Ok(Lift {
            above,
            greatest,
            newest: self.inference.newest_universe(),
        })
    }

    /// Records the constraints, with what stands for what a response says of its own.
    fn record_given(
        &mut self,
        alloc: Global,
        translation: &Translation<'_>,
        constraints: &[Clause],
    ) -> Result<(), Stop>
    {
        self.recall_well_kept();
        for i in 0..constraints.len() {
            self.record_translated(alloc, translation, constraints[i])?;
        }
        Ok(())
    }

    /// Records one constraint so.
    fn record_translated(
        &mut self,
        alloc: Global,
        translation: &Translation<'_>,
        constraint: Clause,
    ) -> Result<(), Stop>
    {
        let region = self.translate(alloc, translation, constraint)?;
        self.record_region(region)
    }

    /// The list or clause, with what stands for what a response says of its own. What is said of `Rounds::resolve_ty_if_possible` holds
    /// here, too.
    fn translate<N: Numbered>(
        &mut self,
        alloc: Global,
        translation: &Translation<'_>,
        value: N,
    ) -> Result<N, Stop>
    {
        fold_answers(alloc, &mut self.cx, value, translation)
    }

    /// The list of the key's variables, which have these numbers.
    fn own_variables(&mut self, alloc: Global, key: &GoalKey, numbers: &[u32]) -> Result<Args, Stop>
    {
        own_row(alloc, &mut self.cx, key.variables.as_slice(), numbers)
    }

    /// The variables of these numbers, which are the key's, are made equal to the values that the response says, and its constraints
    /// are recorded. What the response leaves open is the goal's own variables, or fresh ones, and universes that the key doesn't have are
    /// new ones. It is refused where they can't be made equal. `Stop::Memory` comes where a growth was refused, `Stop::NodesFull` where no
    /// numbers or universes are left, a tree would be higher than 1,024, or a node has more children than can be counted.
    pub(crate) fn give(
        &mut self,
        alloc: Global,
        key: &GoalKey,
        numbers: &[u32],
        response: &CanonicalResponse,
    ) -> Result<(), NoSolutionOrStop>
    {
        self.recall_well_kept();
        let names = self.names(alloc, key, numbers, response)?;
        let lift = self.lift(alloc, key, response)?;
        let translation = Translation {
            names: names.as_slice(),
            lift,
        };
        let row = self.own_variables(alloc, key, numbers)?;
        let values = self.translate(alloc, &translation, response.values)?;
        self.equate_args(alloc, row, values)?;
        self.record_given(alloc, &translation, response.regions.as_slice())?;
        Ok(())
    }
}
