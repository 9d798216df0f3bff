// Made of `crates/candidate_rounds/src/rounds/opening.rt` by `bench/plain.py`: an edit of this file is lost.

//! Aliases that may be any type: a fresh variable stands for each, and what they are is left to be proved.


use kit::{eprintln, format, prelude::*, print, println, vec};
use crate::rounds::Rounds;
use crate::rounds::resolving::type_of;
use crate::rounds::values::is_alias;
use candidate_eval::eval::context::EvalCtxt;
use candidate_eval::eval::refusal::NoSolutionOrStop;
use candidate_eval::eval::variable::VariableKind;
use ir_context::decl::context::Cx;
use ir_context::decl::make::Build;
use ir_folds::decl::answering::{PureFolder, fold_answers};
use ir_trees::ir::heads::{ConstHead, Flag, Head, Marks, VariableSort};
use ir_trees::ir::kinds::{
    Args, Binder, Clause, ClauseKind, Const, GenericArg, Goal, GoalSource, ParamEnv, Ty, VarKind,
};
use ir_trees::ir::numbered::Numbered;
use ir_trees::ir::stop::Stop;
use ir_trees::ir::trees::Trees;
use ir_trees::ir::walked::Walked;
use kit::alloc::Global;

/// The type or constant that a number is, if no bound variable escapes from it.
fn closed_term(cx: &Cx, number: u32) -> Option<GenericArg>
{
    let arg = cx.argument(number)?;
    if let GenericArg::Region(_) = arg {
        return None;
    }
    if cx.has_escaping_bound_vars(arg) {
        return None;
    }
    Some(arg)
}

/// Whether the head of a number is that of an alias.
fn is_alias_at(cx: &Cx, number: u32) -> bool
{
    matches!(
        cx.head(number),
        Head::Alias(_, _) | Head::Const(ConstHead::Unevaluated(_))
    )
}

/// Whether a child of a number is an alias from which a bound variable escapes, or has one below it that isn't within a closed type or
/// constant. `None`, where there are more children than can be counted.
fn has_loose_alias(cx: &Cx, tight: &mut Walked<u32>, number: u32) -> Option<bool>
{
    if !cx.marks(number).has(Flag::Alias) {
        return Some(false);
    }
    if tight.has(number) {
        return Some(false);
    }
    for place in 0..usize::MAX {
        let Some(child) = cx.child(number, place) else {
            tight.note(number, place);
            return Some(false);
        };
        if closed_term(cx, child).is_some() {
            continue;
        }
        if is_alias_at(cx, child) {
            return Some(true);
        }
        if has_loose_alias(cx, tight, child)? {
            return Some(true);
        }
    }
    None
}

/// The open part that a number is, if it is one. `Stop::NodesFull` comes where a node has more children than can be counted.
fn open_part(cx: &Cx, tight: &mut Walked<u32>, number: u32) -> Result<Option<GenericArg>, Stop>
{
    let Some(arg) = closed_term(cx, number) else {
        return Ok(None);
    };
    if is_alias_at(cx, number) {
        return Ok(Some(arg));
    }
    match has_loose_alias(cx, tight, number) {
        Some(true) => Ok(Some(arg)),
        Some(false) => Ok(None),
        None => Err(Stop::NodesFull),
    }
}

/// Notes a part, unless it is among those noted. The only stop is `Stop::Memory`.
fn note_part(cx: &Cx, parts: &mut Vec<GenericArg>, part: GenericArg) -> Result<(), Stop>
{
    for i in 0..parts.len() {
        if cx.same(parts[i], part) {
            return Ok(());
        }
    }
    Ok(parts.push(part)?)
}

/// Notes the open parts below a number, where those below the walked numbers are noted. It stops by `Stop::Memory`, or by
/// `Stop::NodesFull` where there are more children than can be counted.
fn note_parts(
    cx: &Cx,
    tight: &mut Walked<u32>,
    walked: &mut Walked<u32>,
    parts: &mut Vec<GenericArg>,
    number: u32,
) -> Result<(), Stop>
{
    if !cx.marks(number).has(Flag::Alias) {
        return Ok(());
    }
    if walked.has(number) {
        return Ok(());
    }
    for place in 0..usize::MAX {
        let Some(child) = cx.child(number, place) else {
            walked.note(number, place);
            return Ok(());
        };
        if let Some(part) = open_part(cx, tight, child)? {
            note_part(cx, parts, part)?;
            continue;
        }
        note_parts(cx, tight, walked, parts, child)?;
    }
    Err(Stop::NodesFull)
}

/// The open parts of both lists, each once. It stops as `note_parts` does.
fn open_parts(alloc: Global, cx: &Cx, a: Args, b: Args) -> Result<Vec<GenericArg>, Stop>
{
    let mut parts = Vec::new(alloc);
    let mut tight = Walked::new(alloc);
    let mut walked = Walked::new(alloc);
    note_parts(cx, &mut tight, &mut walked, &mut parts, a.0)?;
    note_parts(cx, &mut tight, &mut walked, &mut parts, b.0)?;
    Ok(parts)
}

/// The kind of a variable for the argument.
fn kind_of(arg: GenericArg) -> VarKind
{
    match arg {
        GenericArg::Ty(_) => VarKind::Ty,
        GenericArg::Const(_) => VarKind::Const,
        GenericArg::Region(_) => VarKind::Region,
    }
}

/// The kinds of variables for the arguments. The only stop is `Stop::Memory`.
fn kinds_of(alloc: Global, args: &[GenericArg]) -> Result<Vec<VarKind>, Stop>
{
    let mut kinds = Vec::new(alloc);
    for i in 0..args.len() {
        kinds.push(kind_of(args[i]))?;
    }
    Ok(kinds)
}

/// Open parts, and what stands in their places, each at the place of its part.
#[derive(Debug)]
struct Opened {
    parts: Vec<GenericArg>,
    variables: Vec<GenericArg>,
}

/// Both sides of an equation without open parts, and the goals that each of these and what stands in its place are one.
#[derive(Debug)]
struct Sides {
    left: Args,
    right: Args,
    goals: Vec<(GoalSource, Goal<Clause>)>,
}

/// What stands in the place of the argument, if it is one of the parts.
fn variable_for(
    cx: &Cx,
    parts: &[GenericArg],
    variables: &[GenericArg],
    arg: GenericArg,
) -> Option<GenericArg>
{
    for i in 0..parts.len() {
        if cx.same(parts[i], arg) {
            return Some(variables[i]);
        }
    }
    None
}

impl PureFolder<Cx> for Opened {



    fn may_answer(&self, marks: Marks) -> bool {
        let _ = marks;
        true
    }

    fn answer(
        &self,
        alloc: Global,
        make: &mut Cx,
        arg: GenericArg,
        binders: u32,
    ) -> Result<Option<GenericArg>, Stop> {
        let _ = alloc;
        let _ = binders;
        Ok(variable_for(make, self.parts.as_slice(), self.variables.as_slice(), arg))
    }

    fn recall_laws(&self) {}
}

/// The clause that two types are one.
fn types_are_one(cx: &mut Cx, a: Ty, b: Ty) -> Result<Clause, Stop>
{
    let vars = cx.mk_vars(&[])?;
    cx.mk_clause(Binder {
        vars,
        value: ClauseKind::AliasRelate(a, b),
    })
}

/// The clause that two constants are one.
fn constants_are_one(cx: &mut Cx, a: Const, b: Const) -> Result<Clause, Stop>
{
    let vars = cx.mk_vars(&[])?;
    cx.mk_clause(Binder {
        vars,
        value: ClauseKind::ConstEquate(a, b),
    })
}

/// The constant that an argument is.
fn const_of(arg: GenericArg) -> Const
{
    match arg {
        GenericArg::Const(constant) => constant,
        GenericArg::Ty(_) | GenericArg::Region(_) => unreachable!(),
    }
}

/// The clause that a part and what stands in its place are one. `Stop::Memory` comes where a growth was refused, `Stop::NodesFull` where no
/// number is left, or the clause would be higher than 1,024.
fn are_one(cx: &mut Cx, part: GenericArg, other: GenericArg) -> Result<Clause, Stop>
{
    match part {
        GenericArg::Ty(ty) => types_are_one(cx, ty, type_of(other)),
        GenericArg::Const(constant) => constants_are_one(cx, constant, const_of(other)),
        GenericArg::Region(_) => unreachable!(),
    }
}

/// The goals that each part and what stands in its place are one. It stops as `are_one` does.
fn all_to_be(
    alloc: Global,
    cx: &mut Cx,
    env: ParamEnv,
    parts: &[GenericArg],
    others: &[GenericArg],
) -> Result<Vec<(GoalSource, Goal<Clause>)>, Stop>
{
    let mut goals = Vec::new(alloc);
    for i in 0..parts.len() {
        let predicate = are_one(cx, parts[i], others[i])?;
        let goal = Goal {
            param_env: env,
            predicate,
        };
        goals.push((GoalSource::Misc, goal))?;
    }
    Ok(goals)
}

/// The list of the one argument. `Stop::Memory` comes where a growth was refused, `Stop::NodesFull` where no number is left or the list
/// would be higher than 1,024.
fn list_of(cx: &mut Cx, arg: GenericArg) -> Result<Args, Stop>
{
    cx.mk_args(&[arg])
}

impl Rounds {
    /// The list with all values put in, and listed types in the place of their aliases. It stops as `Rounds::resolve_ty_if_possible`
    /// does.
    fn readied(&mut self, alloc: Global, list: Args) -> Result<Args, Stop>
    {
        self.recall_well_kept();
        let resolved = self.resolve_args_if_possible(list)?;
        self.with_listed_types(alloc, resolved)
    }

    /// The open parts of two lists, each once, and a fresh variable for each.
    fn opening(&mut self, alloc: Global, a: Args, b: Args) -> Result<Opened, Stop>
    {
        let parts = open_parts(alloc, &self.cx, a, b)?;
        let kinds = kinds_of(alloc, parts.as_slice())?;
        let list = self.fresh_args_for_item(kinds.as_slice())?;
        let variables = Vec::from_slice(alloc, self.cx.args(list))?;
        Ok(Opened { parts, variables })
    }

    /// Both lists with all values put in, and listed types in the place of their aliases. It stops as `readied` does.
    fn both_readied(&mut self, alloc: Global, a: Args, b: Args) -> Result<(Args, Args), Stop>
    {
        self.recall_well_kept();
        let a = self.readied(alloc, a)?;
        let b = self.readied(alloc, b)?;
        Ok((a, b))
    }

    /// The list with what stands in the place of open parts. It stops as `Rounds::resolve_ty_if_possible` does.
    fn opened(&mut self, alloc: Global, list: Args, by: &Opened) -> Result<Args, Stop>
    {
        if by.parts.as_slice().is_empty() {
            return Ok(list);
        }
        fold_answers(alloc, &mut self.cx, list, by)
    }

    /// The goals that each part and what stands in its place are one. It stops as `are_one` does.
    fn goals_of(
        &mut self,
        alloc: Global,
        env: ParamEnv,
        by: &Opened,
    ) -> Result<Vec<(GoalSource, Goal<Clause>)>, Stop>
    {
        all_to_be(
            alloc,
            &mut self.cx,
            env,
            by.parts.as_slice(),
            by.variables.as_slice(),
        )
    }

    /// Both lists with a fresh variable in the place of each open part, and the goals that both are one.
    fn open_sides(&mut self, alloc: Global, env: ParamEnv, a: Args, b: Args) -> Result<Sides, Stop>
    {
        let by = self.opening(alloc, a, b)?;
        let left = self.opened(alloc, a, &by)?;
        let right = self.opened(alloc, b, &by)?;
        let goals = self.goals_of(alloc, env, &by)?;
        Ok(Sides { left, right, goals })
    }

    /// Two lists are made equal with fresh variables for their open parts: the goals that are left. After a refusal and a stop what is known
    /// may be more.
    fn equate_openly(
        &mut self,
        alloc: Global,
        env: ParamEnv,
        a: Args,
        b: Args,
    ) -> Result<Vec<(GoalSource, Goal<Clause>)>, NoSolutionOrStop>
    {
        self.recall_well_kept();
        let (a, b) = self.both_readied(alloc, a, b)?;
        let sides = self.open_sides(alloc, env, a, b)?;
        self.equate_args(alloc, sides.left, sides.right)?;
        Ok(sides.goals)
    }

    /// Whether an alias stands in the list once all values are put in. It stops as `Rounds::resolve_ty_if_possible` does.
    fn has_alias(&mut self, list: Args) -> Result<bool, Stop>
    {
        let resolved = self.resolve_args_if_possible(list)?;
        Ok(self.cx.has(resolved, Flag::Alias))
    }

    /// Whether aliases are open and one stands in the lists. It stops as `has_alias` does.
    fn asks_openly(&mut self, a: Args, b: Args) -> Result<bool, Stop>
    {
        if !self.opens_aliases() {
            return Ok(false);
        }
        if self.has_alias(a)? {
            return Ok(true);
        }
        self.has_alias(b)
    }

    /// Two lists are made equal: the goals that are left. After a refusal and a stop what is known may be more.
    fn equation_below(
        &mut self,
        alloc: Global,
        env: ParamEnv,
        a: Args,
        b: Args,
    ) -> Result<Vec<(GoalSource, Goal<Clause>)>, NoSolutionOrStop>
    {
        self.recall_well_kept();
        if self.asks_openly(a, b)? {
            return self.equate_openly(alloc, env, a, b);
        }
        self.equate_args(alloc, a, b)?;
        Ok(Vec::new(alloc))
    }

    /// Two lists are made equal: the goals that are left. Where they can't be made equal, and where it stops, what is known is what it
    /// was.
    pub(crate) fn equation_of_args(
        &mut self,
        alloc: Global,
        env: ParamEnv,
        a: Args,
        b: Args,
    ) -> Result<Vec<(GoalSource, Goal<Clause>)>, NoSolutionOrStop>
    {
        self.recall_well_kept();
        let changes = self.inference.changes();
        let result = self.equation_below(alloc, env, a, b);
        if result.is_err() {
            self.undo_to(changes);
        }
        result
    }

    /// The list of the one argument. It stops as `list_of` does.
    fn single(&mut self, arg: GenericArg) -> Result<Args, Stop>
    {
        list_of(&mut self.cx, arg)
    }

    /// The lists of each of two arguments. It stops as `single` does.
    fn singles(&mut self, a: GenericArg, b: GenericArg) -> Result<(Args, Args), Stop>
    {
        let a = self.single(a)?;
        let b = self.single(b)?;
        Ok((a, b))
    }

    /// Two types, constants or regions are made equal: the goals that are left. Where they can't be made equal, and where it stops, what
    /// is known is what it was.
    pub(crate) fn equation(
        &mut self,
        alloc: Global,
        env: ParamEnv,
        a: GenericArg,
        b: GenericArg,
    ) -> Result<Vec<(GoalSource, Goal<Clause>)>, NoSolutionOrStop>
    {
        self.recall_well_kept();
        if !self.opens_aliases() {
            self.equate(alloc, a, b)?;
            return Ok(Vec::new(alloc));
        }
        let (a, b) = self.singles(a, b)?;
        self.equation_of_args(alloc, env, a, b)
    }

    /// Two lists are made equal, and the goals that are left are pending. Where they can't be made equal, and where it stops, what is known
    /// is what it was.
    pub(crate) fn lead_args(
        &mut self,
        alloc: Global,
        env: ParamEnv,
        a: Args,
        b: Args,
    ) -> Result<(), NoSolutionOrStop>
    {
        self.recall_well_kept();
        let changes = self.inference.changes();
        let goals = self.equation_of_args(alloc, env, a, b)?;
        match self.leave(goals.as_slice()) {
            Ok(()) => Ok(()),
            Err(stop) => {
                self.undo_to(changes);
                Err(NoSolutionOrStop::Stop(stop))
            }
        }
    }

    /// Two types, constants or regions are made equal, and the goals that are left are pending, as `lead_args` has it of lists.
    pub(crate) fn lead(
        &mut self,
        alloc: Global,
        env: ParamEnv,
        a: GenericArg,
        b: GenericArg,
    ) -> Result<(), NoSolutionOrStop>
    {
        self.recall_well_kept();
        if !self.opens_aliases() {
            return self.equate(alloc, a, b);
        }
        let (a, b) = self.singles(a, b)?;
        self.lead_args(alloc, env, a, b)
    }

    /// Whether the type is an alias that may be any type.
    pub(crate) fn is_open_alias(&self, ty: Ty) -> bool
    {
        self.opens_aliases() && is_alias(&self.cx, GenericArg::Ty(ty))
    }

    /// A fresh variable of types. `Stop::Memory` comes where a growth was refused, `Stop::NodesFull` where no number is left.
    pub(crate) fn open_type(&mut self) -> Result<Ty, Stop>
    {
        self.recall_well_kept();
        let kind = VariableKind::Term(VariableSort::General);
        Ok(type_of(self.new_variable(kind, false)?))
    }
}
