//! Makes types equal, many times, by the evaluator of rounds, so that it can be measured: `evaluator equations 100000`, and the same of
//! `probes` and `chains`. It is compiled over the plain libraries that `plain.py` makes. It prints how many equations were accepted. The
//! status is 2 where it wasn't told what to do, and 3 where it came to no end.

use candidate_eval::eval::certainty::Certainty;
use candidate_eval::eval::context::{EvalCtxt, ProbeKind};
use candidate_eval::eval::mode::TypingMode;
use candidate_eval::eval::refusal::NoSolutionOrStop;
use candidate_eval::eval::variable::VariableKind;
use candidate_ir::decl::builder::DeclsBuilder;
use candidate_ir::decl::context::Cx;
use candidate_ir::decl::make::{Build, Make};
use candidate_ir::ir::heads::VariableSort;
use candidate_ir::ir::kinds::{Args, GenericArg, ParamEnv, TyKind, UintTy};
use candidate_ir::ir::stop::Stop;
use candidate_rounds::rounds::Rounds;
use kit::alloc::Global;
use kit::prelude::*;
use std::process::exit;

/// How many variables a chain has.
const LENGTH: u32 = 1000;

const GENERAL: VariableKind = VariableKind::Term(VariableSort::General);

/// What is done many times.
#[derive(Clone, Copy)]
enum Work {
    /// `[?a, u8]` and `[u16, ?b]` are made equal, in one state, with variables of their own each time.
    Equations,
    /// In a probe three variables get values, and a response is made.
    Probes,
    /// In a probe a thousand variables are made equal, each to the next one, and the last one to `u8`; and a response is made.
    Chains,
}

/// An evaluator over one crate, which declares nothing.
fn started(alloc: Global) -> Result<Rounds, Stop> {
    let mut builder = DeclsBuilder::new(alloc);
    let local = builder.add_crate().map_err(|_| Stop::Memory)?;
    builder.set_local(local);
    let cx = Cx::new(builder.finish().map_err(|_| Stop::Memory)?);
    Ok(Rounds::new(alloc, cx, TypingMode::Coherence, Vec::new(alloc), Vec::new(alloc)))
}

fn uint(rounds: &mut Rounds, width: UintTy) -> Result<GenericArg, Stop> {
    Ok(GenericArg::Ty(rounds.mk_ty(TyKind::Uint(width))?))
}

/// `[?a, u8]` and `[u16, ?b]` are made equal.
fn equate_fresh(rounds: &mut Rounds, env: ParamEnv) -> Result<(), NoSolutionOrStop> {
    let a = rounds.new_root_var(GENERAL)?;
    let byte = uint(rounds, UintTy::U8)?;
    let left = rounds.mk_args(&[a, byte])?;
    let short = uint(rounds, UintTy::U16)?;
    let b = rounds.new_root_var(GENERAL)?;
    let right = rounds.mk_args(&[short, b])?;
    EvalCtxt::eq_args(rounds, env, left, right)
}

/// The response of what is known.
fn respond(rounds: &mut Rounds) -> Result<(), NoSolutionOrStop> {
    let _response = EvalCtxt::evaluate_added_goals_and_make_canonical_response(rounds, Certainty::Yes)?;
    Ok(())
}

/// Does it in a probe, whose changes are undone.
fn in_probe(rounds: &mut Rounds, work: impl FnOnce(&mut Rounds) -> Result<(), NoSolutionOrStop>) -> Result<(), NoSolutionOrStop> {
    let probe = EvalCtxt::begin_probe(rounds, ProbeKind::Kept)?;
    let answer = work(rounds);
    let _usages = EvalCtxt::end_probe(rounds, probe);
    answer
}

/// A chain of variables, of which the last is `u8`.
fn chain(rounds: &mut Rounds, env: ParamEnv) -> Result<(), NoSolutionOrStop> {
    let mut last = rounds.new_root_var(GENERAL)?;
    for _ in 1..LENGTH {
        let next = rounds.new_root_var(GENERAL)?;
        EvalCtxt::eq(rounds, env, last, next)?;
        last = next;
    }
    let byte = uint(rounds, UintTy::U8)?;
    EvalCtxt::eq(rounds, env, last, byte)?;
    respond(rounds)
}

/// Does it so many times, and answers how many times it was accepted: each time.
fn do_all(work: Work, count: u32) -> Result<u32, NoSolutionOrStop> {
    let mut started = started(Global)?;
    let rounds = &mut started;
    let env = rounds.mk_param_env(&[])?;
    let variables = [rounds.new_root_var(GENERAL)?, rounds.new_root_var(GENERAL)?, rounds.new_root_var(GENERAL)?];
    let variables = rounds.mk_args(&variables)?;
    let types = [uint(rounds, UintTy::U8)?, uint(rounds, UintTy::U16)?, uint(rounds, UintTy::U32)?];
    let types = rounds.mk_args(&types)?;
    for _ in 0..count {
        match work {
            Work::Equations => equate_fresh(rounds, env)?,
            Work::Probes => in_probe(rounds, |rounds| {
                EvalCtxt::eq_args(rounds, env, variables, types)?;
                respond(rounds)
            })?,
            Work::Chains => in_probe(rounds, |rounds| chain(rounds, env))?,
        }
    }
    Ok(count)
}

/// What is asked for, and how many times.
fn asked() -> Option<(Work, u32)> {
    let mut args = std::env::args().skip(1);
    let work = match args.next()?.as_str() {
        "equations" => Work::Equations,
        "probes" => Work::Probes,
        "chains" => Work::Chains,
        _ => return None,
    };
    Some((work, args.next()?.parse().ok()?))
}

fn main() {
    let Some((work, count)) = asked() else {
        eprintln!("usage: evaluator equations|probes|chains COUNT");
        exit(2);
    };
    match do_all(work, count) {
        Ok(accepted) => println!("{accepted}"),
        Err(_) => {
            eprintln!("it came to no end");
            exit(3);
        }
    }
}
