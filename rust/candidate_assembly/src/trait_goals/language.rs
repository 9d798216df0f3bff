// Made of `crates/candidate_assembly/src/trait_goals/language.rt` by `bench/plain.py`: an edit of this file is lost.

//! The rules that the language has for some traits, for goals of traits.


use kit::{eprintln, format, prelude::*, print, println, vec};
use crate::assembly::language::LanguageRule;
use crate::assembly::steps::consider_unconditional;
use crate::trait_goals::aliases::consider_trait_alias;
use crate::trait_goals::auto_traits::consider_auto_trait;
use crate::trait_goals::builtin::{fn_ptr_holds, is_positive, is_tuple, self_head};
use crate::trait_goals::callable::consider_callable;
use crate::trait_goals::no_drop::consider_no_drop;
use crate::trait_goals::parts::consider_column;
use candidate_eval::eval::certainty::Certainty;
use candidate_eval::eval::context::EvalCtxt;
use candidate_eval::eval::refusal::NoSolutionOrStop;
use candidate_eval::eval::response::Candidate;
use candidate_eval::eval::source::{BuiltinImplSource, CandidateSource};
use candidate_eval::structural::Column;
use ir_context::decl::make::Make;
use ir_trees::decl::contents::Sizedness;
use ir_trees::ir::heads::Flag;
use ir_trees::ir::kinds::{ParamEnv, TraitPredicate};
use ir_trees::ir::trees::Trees;
use kit::alloc::Global;

/// The predicate holds an error.
fn consider_error<E: EvalCtxt>(
    alloc: Global,
    ecx: &mut E,
    env: ParamEnv,
    predicate: TraitPredicate,
) -> Result<Candidate, NoSolutionOrStop>
{
    let applies = ecx.cx().has(predicate.trait_ref.args, Flag::Error);
    consider_unconditional(alloc, ecx, env, applies, Certainty::Yes)
}

/// The type is sized, in this sense.
fn consider_sizedness<E: EvalCtxt>(
    alloc: Global,
    ecx: &mut E,
    env: ParamEnv,
    predicate: TraitPredicate,
    sizedness: Sizedness,
) -> Result<Candidate, NoSolutionOrStop>
{
    let applies = is_positive(predicate.polarity);
    let column = Column::Sizedness(sizedness);
    let source = CandidateSource::BuiltinImpl(BuiltinImplSource::Trivial);
    consider_column(alloc, ecx, env, predicate, applies, column, source)
}

/// The type is `Copy`, `Clone` or `TrivialClone` by the rule that the language has for it.
fn consider_copy_clone<E: EvalCtxt>(
    alloc: Global,
    ecx: &mut E,
    env: ParamEnv,
    predicate: TraitPredicate,
) -> Result<Candidate, NoSolutionOrStop>
{
    let applies = is_positive(predicate.polarity);
    let column = Column::CopyClone;
    let source = CandidateSource::BuiltinImpl(BuiltinImplSource::Misc);
    consider_column(alloc, ecx, env, predicate, applies, column, source)
}

/// The type is a function pointer; for a negative goal, it surely is none.
fn consider_fn_ptr_trait<E: EvalCtxt>(
    alloc: Global,
    ecx: &mut E,
    env: ParamEnv,
    predicate: TraitPredicate,
) -> Result<Candidate, NoSolutionOrStop>
{
    let applies = fn_ptr_holds(predicate.polarity, self_head(ecx.cx(), predicate));
    consider_unconditional(alloc, ecx, env, applies, Certainty::Yes)
}

/// The type is a tuple.
fn consider_tuple<E: EvalCtxt>(
    alloc: Global,
    ecx: &mut E,
    env: ParamEnv,
    predicate: TraitPredicate,
) -> Result<Candidate, NoSolutionOrStop>
{
    let applies = is_positive(predicate.polarity) && is_tuple(self_head(ecx.cx(), predicate));
    consider_unconditional(alloc, ecx, env, applies, Certainty::Yes)
}

/// What is so of each type: pointers to it have metadata, it has a discriminant, its values can be dropped.
fn consider_each_type<E: EvalCtxt>(
    alloc: Global,
    ecx: &mut E,
    env: ParamEnv,
    predicate: TraitPredicate,
) -> Result<Candidate, NoSolutionOrStop>
{
    let applies = is_positive(predicate.polarity);
    consider_unconditional(alloc, ecx, env, applies, Certainty::Yes)
}

/// The rule of that name.
///
/// `NoSolution` comes where its side condition doesn't hold or the evaluator refuses it. The state is left alike the one before.
pub(crate) fn consider_rule<E: EvalCtxt>(
    alloc: Global,
    ecx: &mut E,
    env: ParamEnv,
    predicate: TraitPredicate,
    rule: LanguageRule,
) -> Result<Candidate, NoSolutionOrStop>
{
    match rule {
        LanguageRule::Error => consider_error(alloc, ecx, env, predicate),
        LanguageRule::AutoTrait => consider_auto_trait(alloc, ecx, env, predicate),
        LanguageRule::TraitAlias => consider_trait_alias(alloc, ecx, env, predicate),
        LanguageRule::Sizedness(sizedness) => {
            consider_sizedness(alloc, ecx, env, predicate, sizedness)
        }
        LanguageRule::CopyClone => consider_copy_clone(alloc, ecx, env, predicate),
        LanguageRule::FnTrait(called) => consider_callable(alloc, ecx, env, predicate, called),
        LanguageRule::FnPtrTrait => consider_fn_ptr_trait(alloc, ecx, env, predicate),
        LanguageRule::Tuple => consider_tuple(alloc, ecx, env, predicate),
        LanguageRule::Pointee => consider_each_type(alloc, ecx, env, predicate),
        LanguageRule::DiscriminantKind => consider_each_type(alloc, ecx, env, predicate),
        LanguageRule::Destruct => consider_each_type(alloc, ecx, env, predicate),
        LanguageRule::NoDrop => consider_no_drop(alloc, ecx, env, predicate),
    }
}
