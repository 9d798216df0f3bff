// Made of `crates/candidate_eval/src/eval/resolving.rt` by `bench/plain.py`: an edit of this file is lost.

//! Environments with all values put in.


use kit::{eprintln, format, prelude::*, print, println, vec};
use crate::eval::context::EvalCtxt;
use ir_context::decl::make::Make;
use ir_trees::ir::kinds::ParamEnv;
use ir_trees::ir::stop::Stop;
use ir_trees::ir::trees::Trees;
use kit::alloc::Global;

/// The environment, with all values put in.
///
/// It stops as `resolve_clause_if_possible` and `mk_param_env` do; `Stop::Memory` comes where the list can't grow, too. After a
/// stop the nodes that were made stay.
pub fn resolve_env_if_possible<E: EvalCtxt>(
    alloc: Global,
    ecx: &mut E,
    env: ParamEnv,
) -> Result<ParamEnv, Stop>
{
    debug_assert!(ir_trees::checks::is_sorted(ir_context::decl::make::Make::cx(&*ecx), env), "candidate_eval::eval::resolving::resolve_env_if_possible: `env` is {:?}, no number of its sort in this context", env);
    let clauses = Vec::from_slice(alloc, ecx.cx().param_env(env))?;
    let mut list = Vec::new(alloc);
    for clause in &clauses {
        let resolved = ecx.resolve_clause_if_possible(*clause)?;
        list.push(resolved)?;
    }
    ecx.mk_param_env(list.as_slice())
}
