// Made of `crates/projection_goals/src/language.rt` by `bench/plain.py`: an edit of this file is lost.

//! What the language says that associated types are: the candidates by its rules.


use kit::{eprintln, format, prelude::*, print, println, vec};
use crate::callable::consider_output;
use crate::kind::{NormalizesTo, holds_error, reference};
use crate::named::{NamedType, discriminant, metadata};
use candidate_assembly::assembly::language::LanguageRule;
use candidate_assembly::assembly::steps::{consider_unconditional, respond_as, with_head_usages};
use candidate_eval::eval::certainty::Certainty;
use candidate_eval::eval::clauses::self_ty;
use candidate_eval::eval::context::{EvalCtxt, ProbeKind};
use candidate_eval::eval::refusal::NoSolutionOrStop;
use candidate_eval::eval::response::Candidate;
use candidate_eval::eval::source::{BuiltinImplSource, CandidateSource};
use ir_context::decl::make::Make;
use ir_trees::ir::kinds::{GenericArg, ParamEnv};
use ir_trees::ir::trees::Trees;
use kit::alloc::Global;

/// The candidate of a goal whose term is that type. It is called in a probe.
fn try_type<E: EvalCtxt>(
    alloc: Global,
    ecx: &mut E,
    env: ParamEnv,
    predicate: NormalizesTo,
    named: NamedType,
) -> Result<Candidate, NoSolutionOrStop>
{
    let ty = named.ty(ecx)?;
    ecx.eq(env, GenericArg::Ty(predicate.term), GenericArg::Ty(ty))?;
    let source = CandidateSource::BuiltinImpl(BuiltinImplSource::Misc);
    respond_as(alloc, ecx, source, Certainty::Yes)
}

/// The candidate of a goal whose term is that type, found in a probe.
fn probe_type<E: EvalCtxt>(
    alloc: Global,
    ecx: &mut E,
    env: ParamEnv,
    predicate: NormalizesTo,
    named: NamedType,
) -> Result<Candidate, NoSolutionOrStop>
{
    let probe = ecx.begin_probe(ProbeKind::Kept)?;
    let answer = try_type(alloc, ecx, env, predicate, named);
    let usages = ecx.end_probe(probe);
    with_head_usages(answer, usages)
}

/// The candidate of a goal whose term is that type, if it is known; an ambiguous one else.
fn consider_type<E: EvalCtxt>(
    alloc: Global,
    ecx: &mut E,
    env: ParamEnv,
    predicate: NormalizesTo,
    named: Option<NamedType>,
) -> Result<Candidate, NoSolutionOrStop>
{
    match named {
        Some(named) => probe_type(alloc, ecx, env, predicate, named),
        None => consider_unconditional(alloc, ecx, env, true, Certainty::AMBIGUOUS),
    }
}

/// What holds an error is an error.
fn consider_error<E: EvalCtxt>(
    alloc: Global,
    ecx: &mut E,
    env: ParamEnv,
    predicate: NormalizesTo,
) -> Result<Candidate, NoSolutionOrStop>
{
    if !holds_error(ecx.cx(), env, predicate) {
        return Err(NoSolutionOrStop::NoSolution);
    }
    probe_type(alloc, ecx, env, predicate, NamedType::Error)
}

/// The metadata of pointers to the self type.
fn consider_metadata<E: EvalCtxt>(
    alloc: Global,
    ecx: &mut E,
    env: ParamEnv,
    predicate: NormalizesTo,
) -> Result<Candidate, NoSolutionOrStop>
{
    let ty = self_ty(ecx.cx(), reference(ecx.cx(), env, predicate));
    let named = metadata(ecx.cx(), ty);
    consider_type(alloc, ecx, env, predicate, named)
}

/// The type of the self type's discriminant.
fn consider_discriminant<E: EvalCtxt>(
    alloc: Global,
    ecx: &mut E,
    env: ParamEnv,
    predicate: NormalizesTo,
) -> Result<Candidate, NoSolutionOrStop>
{
    let ty = self_ty(ecx.cx(), reference(ecx.cx(), env, predicate));
    let head = ecx.cx().head(ty.0);
    let named = discriminant(ecx.cx(), head);
    consider_type(alloc, ecx, env, predicate, named)
}

/// The candidate by the rule of that name: the term is the output of what can be called, the metadata of pointers, or the type of the discriminant.
/// Where the rule doesn't know it, and of the associated types of other traits, the candidate is ambiguous.
///
/// `NoSolution` comes where the self type can't be called so, where no trait is declared to be `Sized`, where an equation is refused, and where the
/// evaluator refuses what is pending; the stops are those of making nodes and lists, and the evaluator's. The state is left alike the one before.
pub(crate) fn consider_rule<E: EvalCtxt>(
    alloc: Global,
    ecx: &mut E,
    env: ParamEnv,
    predicate: NormalizesTo,
    rule: LanguageRule,
) -> Result<Candidate, NoSolutionOrStop>
{
    match rule {
        LanguageRule::Error => consider_error(alloc, ecx, env, predicate),
        LanguageRule::FnTrait(called) => consider_output(alloc, ecx, env, predicate, called),
        LanguageRule::Pointee => consider_metadata(alloc, ecx, env, predicate),
        LanguageRule::DiscriminantKind => consider_discriminant(alloc, ecx, env, predicate),
        LanguageRule::AutoTrait
        | LanguageRule::TraitAlias
        | LanguageRule::Sizedness(_)
        | LanguageRule::CopyClone
        | LanguageRule::FnPtrTrait
        | LanguageRule::Tuple
        | LanguageRule::Destruct
        | LanguageRule::NoDrop => {
            consider_unconditional(alloc, ecx, env, true, Certainty::AMBIGUOUS)
        }
    }
}
