// Made of `crates/candidate_assembly/src/assembly/characterize.rt` by `bench/plain.py`: an edit of this file is lost.

//! Whether a clause of the environment is global: whether it says nothing of what is generic there.


use kit::{eprintln, format, prelude::*, print, println, vec};
use candidate_eval::eval::certainty::{Certainty, MaybeCause, MaybeInfo, OpaqueTypesJank};
use candidate_eval::eval::context::EvalCtxt;
use candidate_eval::eval::refusal::NoSolutionOrStop;
use candidate_eval::eval::source::ParamEnvSource;
use ir_context::decl::Cx;
use ir_folds::decl::open::replace_bound_vars;
use ir_trees::ir::heads::{ConstHead, Flag, Head, Marks, PartHead};
use ir_trees::ir::kinds::{
    Args, Clause, ConstKind, GenericArg, ParamEnv, RegionKind, TyKind, VarKind,
};
use ir_trees::ir::marks::Mark;
use ir_trees::ir::node::Node;
use ir_trees::ir::numbered::Numbered;
use ir_trees::ir::stop::Stop;
use ir_trees::ir::trees::Trees;
use kit::alloc::Global;

/// The mark of a bound variable, of any kind.
#[derive(Debug)]
struct AnyBound;

impl Mark for AnyBound {

    fn is_on(&self, node: &Node) -> bool {
        matches!(
            node,
            Node::Ty(TyKind::Bound(_))
                | Node::Const(ConstKind::Bound(_))
                | Node::Region(RegionKind::Bound(_))
        )
    }

    fn may_stand(&self, kept: Marks) -> bool {
        kept.has_bound()
    }

}

/// The mark of what may still say something: a placeholder, a variable or an alias, of any kind.
#[derive(Debug)]
struct OfInterest;

impl Mark for OfInterest {

    fn is_on(&self, node: &Node) -> bool {
        matches!(
            node,
            Node::Ty(TyKind::Placeholder(_) | TyKind::Infer(_) | TyKind::Alias(_))
                | Node::Const(
                    ConstKind::Placeholder(_) | ConstKind::Infer(_) | ConstKind::Unevaluated(_, _)
                )
                | Node::Region(RegionKind::Placeholder(_) | RegionKind::Var(_))
        )
    }

    fn may_stand(&self, kept: Marks) -> bool {
        kept.has_infer() || (kept.has_placeholder() || kept.has(Flag::Alias))
    }

}

/// How deep a part stands: in how many types, itself counted, and in how many constants.
#[derive(Clone, Copy, Debug)]
struct Nesting {
    types: u32,
    constants: u32,
}

/// What a part says by itself.
#[derive(Clone, Copy, Debug)]
enum Said {
    /// It is found, and that sure.
    Found(Certainty),
    /// Nothing is found in it.
    Nothing,
    /// Its parts say it.
    Parts,
}

/// What is found where types are nested too deep: a higher limit may help, and nothing is kept.
const TOO_DEEP: Certainty = Certainty::Maybe(MaybeInfo {
    cause: MaybeCause::Overflow {
        suggest_increasing_limit: true,
        keep_constraints: false,
    },
    opaque_types_jank: OpaqueTypesJank::AllGood,
});

/// What a head says by itself.
fn said_by_head(head: Head) -> Said
{
    match head {
        Head::Placeholder(placeholder)
        | Head::Const(ConstHead::Placeholder(placeholder))
        | Head::Region(RegionKind::Placeholder(placeholder)) => {
            if placeholder.universe == 0 {
                Said::Found(Certainty::Yes)
            } else {
                Said::Nothing
            }
        }
        Head::Infer(_) | Head::Region(RegionKind::Var(_)) => Said::Found(Certainty::AMBIGUOUS),
        _ => Said::Parts,
    }
}

/// What is found in a region with its value in its place, if anything is.
fn found_in_region(head: Head) -> Option<Certainty>
{
    match said_by_head(head) {
        Said::Found(_) => Some(Certainty::Yes),
        Said::Nothing | Said::Parts => None,
    }
}

/// What a type or constant in normal form says by itself.
fn said_by_itself(cx: &Cx, arg: GenericArg, is_too_deep: bool) -> Said
{
    match said_by_head(cx.head(arg.number())) {
        Said::Parts if !cx.has_marked(arg, &OfInterest) => Said::Nothing,
        Said::Parts if is_too_deep => Said::Found(TOO_DEEP),
        said => said,
    }
}

/// The kind of the variable of a binder that a head is, if it is one.
fn variable_kind(head: Head) -> Option<VarKind>
{
    match head {
        Head::Part(PartHead::Var(kind)) => Some(kind),
        _ => None,
    }
}

/// The kinds of the variables of the binder that is first below a number. `Stop::Memory` comes where the list can't grow,
/// `Stop::NodesFull` where there are more variables than can be counted.
fn bound_kinds(alloc: Global, cx: &Cx, number: u32) -> Result<Vec<VarKind>, Stop>
{
    let mut kinds = Vec::new(alloc);
    let Some(binder) = cx.child(number, 0) else {
        return Ok(kinds);
    };
    for place in 0..usize::MAX {
        let Some(variable) = cx.child(binder, place) else {
            return Ok(kinds);
        };
        if let Some(kind) = variable_kind(cx.head(variable)) {
            kinds.push(kind)?;
        }
    }
    Err(Stop::NodesFull)
}

/// Parts of a node that are visited from a place on: as they stand, or with values in the place of the variables that the first of them
/// binds for the others.
#[derive(Clone, Copy, Debug)]
struct Parts {
    number: u32,
    place: usize,
    values: Option<Args>,
    nesting: Nesting,
}

/// What a visit of a part comes to.
#[derive(Clone, Copy, Debug)]
enum Visited {
    /// That was found.
    Found(Certainty),
    /// Nothing is found in it.
    Nothing,
    /// These parts say it.
    Below(Parts),
}

/// What a visit comes to that has ended.
fn ended(found: Option<Certainty>) -> Visited
{
    match found {
        Some(certainty) => Visited::Found(certainty),
        None => Visited::Nothing,
    }
}

/// What stands below a number, under the binder that is first there: placeholders of a fresh universe stand for its variables, if it has any.
fn below_binder<E: EvalCtxt>(
    alloc: Global,
    ecx: &mut E,
    number: u32,
    nesting: Nesting,
) -> Result<Visited, NoSolutionOrStop>
{
    let kinds = bound_kinds(alloc, ecx.cx(), number)?;
    let values = ecx.placeholder_args(kinds.as_slice())?;
    Ok(Visited::Below(Parts {
        number,
        place: 1,
        values: Some(values),
        nesting,
    }))
}

/// What stands below a number, by its binders.
fn below<E: EvalCtxt>(
    alloc: Global,
    ecx: &mut E,
    number: u32,
    nesting: Nesting,
) -> Result<Visited, NoSolutionOrStop>
{
    if ecx.cx().head(number).binders() > 0 {
        return below_binder(alloc, ecx, number, nesting);
    }
    Ok(Visited::Below(Parts {
        number,
        place: 0,
        values: None,
        nesting,
    }))
}

/// Looks at a type or constant in normal form: at what it says by itself, else at its parts, which stand so deep.
fn look<E: EvalCtxt>(
    alloc: Global,
    ecx: &mut E,
    arg: GenericArg,
    is_too_deep: bool,
    nesting: Nesting,
) -> Result<Visited, NoSolutionOrStop>
{
    match said_by_itself(ecx.cx(), arg, is_too_deep) {
        Said::Found(certainty) => Ok(Visited::Found(certainty)),
        Said::Nothing => Ok(Visited::Nothing),
        Said::Parts => below(alloc, ecx, arg.number(), nesting),
    }
}

/// Visits a type, constant or region. What is found is a certainty.
///
/// `NoSolutionOrStop::NoSolution` comes where a normal form is refused, `Stop::ConstDepth` where constants are nested deeper than
/// the declared limit `const_depth`, other stops as they come of the evaluator and of opened binders.
fn visit<E: EvalCtxt>(
    alloc: Global,
    ecx: &mut E,
    env: ParamEnv,
    arg: GenericArg,
    nesting: Nesting,
) -> Result<Visited, NoSolutionOrStop>
{
    let limits = ecx.cx().limits();
    match arg {
        GenericArg::Ty(ty) => {
            let normal = GenericArg::Ty(ecx.structurally_normalize_ty(env, ty)?);
            let parts = Nesting {
                types: nesting.types + 1,
                ..nesting
            };
            let is_too_deep = nesting.types > limits.recursion as u32;
            look(alloc, ecx, normal, is_too_deep, parts)
        }
        GenericArg::Const(_) if nesting.constants >= limits.const_depth as u32 => {
            Err(NoSolutionOrStop::Stop(Stop::ConstDepth))
        }
        GenericArg::Const(constant) => {
            let normal = GenericArg::Const(ecx.structurally_normalize_const(env, constant)?);
            let parts = Nesting {
                constants: nesting.constants + 1,
                ..nesting
            };
            look(alloc, ecx, normal, false, parts)
        }
        GenericArg::Region(region) => {
            let value = ecx.eager_resolve_region(region);
            let found = found_in_region(ecx.cx().head(value.0));
            Ok(ended(found))
        }
    }
}

/// Visits a part that stood under a binder, with the values in the place of the binder's variables.
fn visit_opened<E: EvalCtxt>(
    alloc: Global,
    ecx: &mut E,
    env: ParamEnv,
    number: u32,
    values: Args,
    nesting: Nesting,
) -> Result<Visited, NoSolutionOrStop>
{
    let Some(arg) = ecx.cx().argument(number) else {
        return Ok(Visited::Nothing);
    };
    let arg = replace_bound_vars(alloc, ecx, arg, values)?;
    visit(alloc, ecx, env, arg, nesting)
}

/// Visits a part: what has a binder of its own, as a bound of a `dyn` type has, under that binder.
fn visit_part<E: EvalCtxt>(
    alloc: Global,
    ecx: &mut E,
    env: ParamEnv,
    number: u32,
    nesting: Nesting,
) -> Result<Visited, NoSolutionOrStop>
{
    if let Head::Part(_) = ecx.cx().head(number) {
        return below_binder(alloc, ecx, number, nesting);
    }
    match ecx.cx().argument(number) {
        Some(arg) => visit(alloc, ecx, env, arg, nesting),
        None => Ok(Visited::Nothing),
    }
}

/// Visits the first of the parts, which has that number.
fn visit_first<E: EvalCtxt>(
    alloc: Global,
    ecx: &mut E,
    env: ParamEnv,
    number: u32,
    parts: Parts,
) -> Result<Visited, NoSolutionOrStop>
{
    match parts.values {
        Some(values) => visit_opened(alloc, ecx, env, number, values, parts.nesting),
        None => visit_part(alloc, ecx, env, number, parts.nesting),
    }
}

/// Visits parts, one after the other, and what stands below each. What is still to visit stands in a list, so that parts that are nested deep
/// take no more of the machine's stack.
fn visit_parts<E: EvalCtxt>(
    alloc: Global,
    ecx: &mut E,
    env: ParamEnv,
    parts: Parts,
) -> Result<Option<Certainty>, NoSolutionOrStop>
{
    let mut waiting = Vec::new(alloc);
    let mut here = parts;
    loop {
        if here.place == usize::MAX {
            return Err(NoSolutionOrStop::Stop(Stop::NodesFull));
        }
        if let Some(child) = ecx.cx().child(here.number, here.place) {
            here.place += 1;
            let visited = visit_first(alloc, ecx, env, child, here)?;
            match visited {
                Visited::Found(certainty) => return Ok(Some(certainty)),
                Visited::Nothing => {}
                Visited::Below(below) => {
                    if waiting.push(here).is_err() {
                        return Err(NoSolutionOrStop::Stop(Stop::Memory));
                    }
                    here = below;
                }
            }
        } else {
            let Some(next) = waiting.pop() else {
                return Ok(None);
            };
            here = next;
        }
    }
}

/// Walks over a clause of the environment: where a variable is bound in it that is found, else what its parts say.
fn walk<E: EvalCtxt>(
    alloc: Global,
    ecx: &mut E,
    env: ParamEnv,
    clause: Clause,
) -> Result<Option<Certainty>, NoSolutionOrStop>
{
    if ecx.cx().has_marked(clause, &AnyBound) {
        return Ok(Some(Certainty::Yes));
    }
    let values = ecx.placeholder_args(&[])?;
    let nesting = Nesting {
        types: 1,
        constants: 0,
    };
    let parts = Parts {
        number: clause.0,
        place: 1,
        values: Some(values),
        nesting,
    };
    visit_parts(alloc, ecx, env, parts)
}

/// Whether a clause of the environment is global, and how sure its candidate is at most.
///
/// It isn't where a variable is bound in it. Else its parts are normalised, and the first that says it isn't is the answer: a
/// placeholder of the root universe or a region variable for sure, a variable of types or constants by an ambiguity, and types that are
/// nested deeper than the declared limit `recursion` by an overflow. Where nothing says it, it is global.
///
/// `NoSolutionOrStop::NoSolution` comes where a normal form is refused, `Stop::ConstDepth` where constants are nested deeper than
/// the declared limit `const_depth`, `Stop::Memory` where a growth was refused, `Stop::NodesFull` where numbers or heights run out, and the stops
/// of the evaluator as it accounts for them. After an error nothing is said of the state.
pub fn characterize_param_env_assumption<E: EvalCtxt>(
    alloc: Global,
    ecx: &mut E,
    env: ParamEnv,
    clause: Clause,
) -> Result<(ParamEnvSource, Certainty), NoSolutionOrStop>
{
    debug_assert!(ir_trees::checks::is_sorted(ir_context::decl::make::Make::cx(&*ecx), env), "candidate_assembly::assembly::characterize::characterize_param_env_assumption: `env` is {:?}, no number of its sort in this context", env);
    debug_assert!(ir_trees::checks::is_sorted(ir_context::decl::make::Make::cx(&*ecx), clause), "candidate_assembly::assembly::characterize::characterize_param_env_assumption: `clause` is {:?}, no number of its sort in this context", clause);
    match walk(alloc, ecx, env, clause) {
        Ok(Some(certainty)) => Ok((ParamEnvSource::NonGlobal, certainty)),
        Ok(None) => Ok((ParamEnvSource::Global, Certainty::Yes)),
        Err(error) => Err(error),
    }
}
