// Made of `crates/candidate_eval/src/eval/ambiguity.rt` by `bench/plain.py`: an edit of this file is lost.

//! The answer where too little is known.


use kit::{eprintln, format, prelude::*, print, println, vec};
use crate::eval::certainty::Certainty;
use crate::eval::context::{EvalCtxt, ProbeKind};
use crate::eval::refusal::NoSolutionOrStop;
use crate::eval::response::{Candidate, CanonicalResponse};
use ir_trees::ir::stop::Stop;

/// The response that too little is known: what is pending is set aside for it, and it constrains the variables no more than the
/// state does.
///
/// It is never refused.
pub fn bail_with_ambiguity<E: EvalCtxt>(ecx: &mut E) -> Result<CanonicalResponse, Stop>
{
    let probe = ecx.begin_probe(ProbeKind::SetAside)?;
    let answer = ecx.evaluate_added_goals_and_make_canonical_response(Certainty::AMBIGUOUS);
    let _usages = ecx.end_probe(probe);
    match answer {
        Ok(response) => Ok(response),
        Err(NoSolutionOrStop::Stop(stop)) => Err(stop),
        Err(NoSolutionOrStop::NoSolution) => unreachable!(),
    }
}

/// The answer where candidates don't merge: a refusal, if there is none, and else the response that too little is known.
pub fn flounder<E: EvalCtxt>(
    ecx: &mut E,
    candidates: &[Candidate],
) -> Result<CanonicalResponse, NoSolutionOrStop>
{
    if candidates.is_empty() {
        return Err(NoSolutionOrStop::NoSolution);
    }
    Ok(bail_with_ambiguity(ecx)?)
}
