// Made of `crates/candidate_rounds/src/rounds/keys.rt` by `bench/plain.py`: an edit of this file is lost.

//! Keys of goals of traits: what they are, which of them may be computed, and which verdicts may be read.


use kit::{eprintln, format, prelude::*, print, println, vec};
use crate::rounds::Rounds;
use crate::rounds::goals::{GoalKey, Verdict};
use crate::rounds::inference::Inference;
use crate::rounds::resolving::{is_same_kind, resolved};
use crate::rounds::responding::{note_below, open_variables, renumbered};
use crate::rounds::walking::has_marked;
use candidate_eval::eval::certainty::Certainty;
use candidate_eval::eval::clauses::predicate_in;
use candidate_eval::eval::response::CanonicalResponse;
use candidate_eval::eval::variable::{CanonicalVar, VariableKind};
use ir_context::decl::context::Cx;
use ir_trees::ir::heads::{ConstHead, Flag, Head, Marks, VariableSort};
use ir_trees::ir::kinds::{Args, Clause, ConstKind, Goal, RegionKind, TyKind};
use ir_trees::ir::marks::Mark;
use ir_trees::ir::node::Node;
use ir_trees::ir::numbered::Numbered;
use ir_trees::ir::stop::Stop;
use ir_trees::ir::trees::Trees;
use ir_trees::ir::walked::Walked;
use kit::alloc::Global;

/// A goal's key, and the numbers of the goal's variables, in the order of the key's.
#[derive(Debug)]
pub(crate) struct Asked {
    pub key: GoalKey,
    pub numbers: Vec<u32>,
}

/// The arguments of what the goal says of a trait.
fn arguments(cx: &Cx, goal: Goal<Clause>) -> Args
{
    match predicate_in(cx, goal.predicate) {
        Some(predicate) => predicate.trait_ref.args,
        None => unreachable!(),
    }
}

/// The universe of the placeholder that a number is, or the root.
fn universe_at(cx: &Cx, number: u32) -> u32
{
    match cx.head(number) {
        Head::Placeholder(placeholder) => placeholder.universe,
        Head::Const(ConstHead::Placeholder(placeholder)) => placeholder.universe,
        Head::Region(RegionKind::Placeholder(placeholder)) => placeholder.universe,
        _ => 0,
    }
}

/// The greater one.
fn greater(a: u32, b: u32) -> u32
{
    if a < b { b } else { a }
}

/// The greatest of a universe and those of the placeholders below a number, where none of those below the walked numbers is greater
/// than that universe. `Stop::NodesFull` comes where a node has more children than can be counted.
fn greatest_below(
    cx: &Cx,
    walked: &mut Walked<u32>,
    number: u32,
    universe: u32,
) -> Result<u32, Stop>
{
    if !cx.marks(number).has_placeholder() {
        return Ok(universe);
    }
    if walked.has(number) {
        return Ok(universe);
    }
    let mut greatest = universe;
    for place in 0..usize::MAX {
        let Some(child) = cx.child(number, place) else {
            walked.note(number, place);
            return Ok(greatest);
        };
        let with_child = greater(greatest, universe_at(cx, child));
        greatest = greatest_below(cx, walked, child, with_child)?;
    }
    Err(Stop::NodesFull)
}

/// The greatest universe of these variables, or the root.
fn greatest_of(variables: &[CanonicalVar]) -> u32
{
    let mut greatest = 0;
    for i in 0..variables.len() {
        greatest = greater(greatest, variables[i].universe);
    }
    greatest
}

/// The greatest universe of the placeholders and variables of a key, or the root. It stops as `greatest_below` does, as what follows
/// does, too.
pub(crate) fn newest_of(alloc: Global, cx: &Cx, key: &GoalKey) -> Result<u32, Stop>
{
    let mut walked = Walked::new(alloc);
    let variables = greatest_of(key.variables.as_slice());
    let env = greatest_below(cx, &mut walked, key.goal.param_env.0, variables)?;
    greatest_below(cx, &mut walked, arguments(cx, key.goal).0, env)
}

/// The greatest of a universe and those of the placeholders in clauses. Between calls, no universe below a number that was walked is
/// greater.
fn greatest_in(
    cx: &Cx,
    walked: &mut Walked<u32>,
    clauses: &[Clause],
    universe: u32,
) -> Result<u32, Stop>
{
    let mut greatest = universe;
    for i in 0..clauses.len() {
        let with_root = greater(greatest, universe_at(cx, clauses[i].0));
        greatest = greatest_below(cx, walked, clauses[i].0, with_root)?;
    }
    Ok(greatest)
}

/// The greatest universe of the placeholders in what a response says, or the root.
pub(crate) fn greatest_said(
    alloc: Global,
    cx: &Cx,
    response: &CanonicalResponse,
) -> Result<u32, Stop>
{
    let mut walked = Walked::new(alloc);
    let values = greatest_below(cx, &mut walked, response.values.0, 0)?;
    greatest_in(cx, &mut walked, response.regions.as_slice(), values)
}

/// The mark of a variable that isn't among these or is of another kind, and of a placeholder of a universe above that one.
#[derive(Debug)]
struct OutOfScope<'a> {
    newest: u32,
    variables: &'a [CanonicalVar],
}

impl OutOfScope<'_> {
    /// Whether the variable of that number isn't among these, or is of another kind.
    fn is_variable(&self, kind: VariableKind, number: u32) -> bool
    {
        match self.variables.get(number as usize) {
            Some(variable) => !is_same_kind(variable.kind, kind),
            None => true,
        }
    }
}

impl Mark for OutOfScope<'_> {

    fn is_on(&self, node: &Node) -> bool {
        match node {
            Node::Ty(TyKind::Infer(var)) => {
                let variable = var.variable();
                self.is_variable(VariableKind::Term(variable.sort), variable.number)
            }
            Node::Ty(TyKind::Placeholder(placeholder)) => placeholder.universe > self.newest,
            Node::Const(ConstKind::Infer(number)) => {
                self.is_variable(VariableKind::Term(VariableSort::Constant), *number)
            }
            Node::Const(ConstKind::Placeholder(placeholder)) => placeholder.universe > self.newest,
            Node::Region(RegionKind::Var(number)) => self.is_variable(
                VariableKind::Region,
                *number,
            ),
            Node::Region(RegionKind::Placeholder(placeholder)) => {
                placeholder.universe > self.newest
            }
            _ => false,
        }
    }

    fn may_stand(&self, kept: Marks) -> bool {
        kept.has_infer() || kept.has_placeholder()
    }

}

/// What `OutOfScope` marks, but for placeholders of regions.
#[derive(Debug)]
struct OutOfScopeTerm<'a>(OutOfScope<'a>);

impl Mark for OutOfScopeTerm<'_> {

    fn is_on(&self, node: &Node) -> bool {
        match node {
            Node::Region(RegionKind::Placeholder(_)) => false,
            _ => self.0.is_on(node),
        }
    }

    fn may_stand(&self, kept: Marks) -> bool {
        self.0.may_stand(kept)
    }

}

/// Whether a list has closed trees alone, without parameters and without the mark.
pub(crate) fn stands<N: Numbered, M: Mark>(alloc: Global, cx: &Cx, mark: &M, list: N) -> bool
{
    let mut walked = Walked::new(alloc);
    !has_marked(cx, &mut walked, list, mark)
        && (!cx.has_escaping_bound_vars(list) && !cx.has(list, Flag::Param))
}

/// Whether the goal of the key may be computed: its trees are closed trees of its variables, without parameters.
pub(crate) fn may_be_asked(alloc: Global, cx: &Cx, key: &GoalKey) -> Result<bool, Stop>
{
    let mark = OutOfScope {
        newest: newest_of(alloc, cx, key)?,
        variables: key.variables.as_slice(),
    };
    let env = stands(alloc, cx, &mark, key.goal.param_env);
    Ok(env && stands(alloc, cx, &mark, arguments(cx, key.goal)))
}

/// Whether a parameter stands in one of the clauses.
fn any_has_param(cx: &Cx, clauses: &[Clause]) -> bool
{
    for i in 0..clauses.len() {
        if cx.has(clauses[i], Flag::Param) {
            return true;
        }
    }
    false
}

/// Whether the values of the response to a key may be given to goals that ask: they are closed trees of the variables that it leaves
/// open, though of regions of any universes, and neither they nor its constraints hold a parameter.
fn may_be_given(
    alloc: Global,
    cx: &Cx,
    key: &GoalKey,
    response: &CanonicalResponse,
) -> Result<bool, Stop>
{
    let mark = OutOfScopeTerm(OutOfScope {
        newest: newest_of(alloc, cx, key)?,
        variables: response.vars.as_slice(),
    });
    let values = stands(alloc, cx, &mark, response.values);
    Ok(values && !any_has_param(cx, response.regions.as_slice()))
}

/// Whether goals that ask read the verdict: what a Yes says must be such that it may be given.
pub(crate) fn may_be_read(
    alloc: Global,
    cx: &Cx,
    key: &GoalKey,
    verdict: &Verdict,
) -> Result<bool, Stop>
{
    match verdict {
        Verdict::Yes(response, _) => {
            let given = may_be_given(alloc, cx, key, response)?;
            Ok(matches!(response.certainty, Certainty::Yes) && given)
        }
        Verdict::Maybe(_, _) | Verdict::Refused => Ok(true),
    }
}

/// The goal, with all values put in. It stops as `resolved` does.
fn resolved_goal(
    alloc: Global,
    cx: &mut Cx,
    inference: &Inference,
    goal: Goal<Clause>,
) -> Result<Goal<Clause>, Stop>
{
    let param_env = resolved(alloc, cx, inference, goal.param_env)?;
    let predicate = resolved(alloc, cx, inference, goal.predicate)?;
    Ok(Goal {
        param_env,
        predicate,
    })
}

/// The numbers of the variables of a goal, each once, in the order in which they first occur, the environment first. It stops as
/// `note_below` does.
fn numbers_of_goal(alloc: Global, cx: &Cx, goal: Goal<Clause>) -> Result<Vec<u32>, Stop>
{
    let mut walked = Walked::new(alloc);
    let mut numbers = Vec::new(alloc);
    note_below(cx, &mut walked, &mut numbers, goal.param_env.0)?;
    note_below(cx, &mut walked, &mut numbers, goal.predicate.0)?;
    Ok(numbers)
}

/// The goal, whose variables all have these numbers, with its variables numbered anew. Where there are no numbers it stays as it is.
/// It stops as `renumbered` does.
fn numbered_goal(
    alloc: Global,
    cx: &mut Cx,
    numbers: &[u32],
    goal: Goal<Clause>,
) -> Result<Goal<Clause>, Stop>
{
    if numbers.is_empty() {
        return Ok(goal);
    }
    let param_env = renumbered(alloc, cx, numbers, goal.param_env)?;
    let predicate = renumbered(alloc, cx, numbers, goal.predicate)?;
    Ok(Goal {
        param_env,
        predicate,
    })
}

/// The key of a goal of a trait at what is known, and the numbers of its variables. It stops as its parts do.
fn key_at(
    alloc: Global,
    cx: &mut Cx,
    inference: &Inference,
    goal: Goal<Clause>,
) -> Result<Asked, Stop>
{
    let goal = resolved_goal(alloc, cx, inference, goal)?;
    let numbers = numbers_of_goal(alloc, cx, goal)?;
    let variables = open_variables(alloc, inference, numbers.as_slice())?;
    let goal = numbered_goal(alloc, cx, numbers.as_slice(), goal)?;
    let key = GoalKey { goal, variables };
    Ok(Asked { key, numbers })
}

impl Rounds {
    /// The key of a goal of a trait, and the numbers of its variables. Nodes are made, and nothing else is changed. `Stop::Memory` comes
    /// where a growth was refused, `Stop::NodesFull` where no numbers are left, a tree would be higher than 1,024, or the variables or
    /// the children of a node are too many.
    pub(crate) fn key_of(&mut self, alloc: Global, goal: Goal<Clause>) -> Result<Asked, Stop>
    {
        key_at(alloc, &mut self.cx, &self.inference, goal)
    }
}
