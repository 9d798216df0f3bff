//! An evaluator around another one, by which tests see what candidates have used: it numbers probes, says of each candidate in which probe it
//! was found, and notes which of these numbers are handed to `ignore_candidate_head_usages`.

use candidate_eval::eval::certainty::Certainty;
use candidate_eval::eval::context::{EvalCtxt, ProbeKind};
use candidate_eval::eval::mode::TypingMode;
use candidate_eval::eval::refusal::NoSolutionOrStop;
use candidate_eval::eval::response::{CandidateHeadUsages, CanonicalResponse};
use candidate_eval::eval::InferCtxtLike;
use candidate_ir::decl::make::{Build, Make};
use candidate_ir::decl::Cx;
use candidate_ir::ir::kinds::{
    AliasTy, Args, Clause, Const, GenericArg, Goal, GoalSource, ParamEnv, Region, Ty, VarKind,
};
use candidate_ir::ir::making::New;
use candidate_ir::ir::stop::Stop;
use kit::alloc::Global;
use kit::prelude::*;

/// What it records of an evaluator. In all else it is that evaluator, which isn't told what is ignored: it knows no such numbers.
pub struct Recorder<'a, E> {
    inner: &'a mut E,
    alloc: Global,
    /// How many probes began.
    begun: u32,
    /// The numbers of the probes whose usages were ignored, in order.
    ignored: Vec<u32>,
    /// Whether something isn't recorded, since a growth was refused or there are no more numbers.
    is_cut: bool,
}

/// A probe of the evaluator that is recorded, with its number.
pub struct NumberedProbe<P> {
    probe: P,
    number: u32,
}

impl<'a, E> Recorder<'a, E> {
    /// Nothing is recorded yet.
    pub fn new(alloc: Global, inner: &'a mut E) -> Recorder<'a, E> {
        Recorder {
            inner,
            alloc,
            begun: 0,
            ignored: Vec::new(alloc),
            is_cut: false,
        }
    }

    /// The numbers of the probes whose usages were ignored so far, in order, from 1 on.
    pub fn ignored(&self) -> &[u32] {
        self.ignored.as_slice()
    }

    /// Whether something isn't recorded, since a growth was refused or there are no more numbers.
    pub fn is_cut(&self) -> bool {
        self.is_cut
    }

    /// What the probe of that number has used: itself.
    fn usages_of(&mut self, number: u32) -> CandidateHeadUsages {
        match CandidateHeadUsages::of(self.alloc, &[number]) {
            Ok(usages) => usages,
            Err(_) => {
                self.is_cut = true;
                CandidateHeadUsages::new(self.alloc)
            }
        }
    }

    /// Notes that the usages are ignored.
    fn note(&mut self, usages: &CandidateHeadUsages) {
        if self.ignored.extend_from_slice(usages.heads()).is_err() {
            self.is_cut = true;
        }
    }
}

impl<E: EvalCtxt> Build for Recorder<'_, E> {
    fn make(&mut self, new: New<'_>) -> Result<u32, Stop> {
        self.inner.make(new)
    }
}

impl<E: EvalCtxt> Make for Recorder<'_, E> {
    fn cx(&self) -> &Cx {
        self.inner.cx()
    }
}

impl<E: EvalCtxt> InferCtxtLike for Recorder<'_, E> {
    fn shallow_resolve(&self, ty: Ty) -> Ty {
        self.inner.shallow_resolve(ty)
    }
}

impl<E: EvalCtxt> EvalCtxt for Recorder<'_, E> {
    type Probe = NumberedProbe<E::Probe>;

    fn typing_mode(&self) -> TypingMode {
        self.inner.typing_mode()
    }

    fn resolve_ty_if_possible(&mut self, ty: Ty) -> Result<Ty, Stop> {
        self.inner.resolve_ty_if_possible(ty)
    }

    fn resolve_const_if_possible(&mut self, constant: Const) -> Result<Const, Stop> {
        self.inner.resolve_const_if_possible(constant)
    }

    fn resolve_args_if_possible(&mut self, list: Args) -> Result<Args, Stop> {
        self.inner.resolve_args_if_possible(list)
    }

    fn resolve_clause_if_possible(&mut self, clause: Clause) -> Result<Clause, Stop> {
        self.inner.resolve_clause_if_possible(clause)
    }

    fn eager_resolve_region(&self, region: Region) -> Region {
        self.inner.eager_resolve_region(region)
    }

    fn structurally_normalize_ty(&mut self, env: ParamEnv, ty: Ty) -> Result<Ty, NoSolutionOrStop> {
        self.inner.structurally_normalize_ty(env, ty)
    }

    fn structurally_normalize_const(
        &mut self,
        env: ParamEnv,
        constant: Const,
    ) -> Result<Const, NoSolutionOrStop> {
        self.inner.structurally_normalize_const(env, constant)
    }

    fn fresh_args_for_item(&mut self, kinds: &[VarKind]) -> Result<Args, Stop> {
        self.inner.fresh_args_for_item(kinds)
    }

    fn placeholder_args(&mut self, kinds: &[VarKind]) -> Result<Args, Stop> {
        self.inner.placeholder_args(kinds)
    }

    fn eq_args(&mut self, env: ParamEnv, a: Args, b: Args) -> Result<(), NoSolutionOrStop> {
        self.inner.eq_args(env, a, b)
    }

    fn eq(&mut self, env: ParamEnv, a: GenericArg, b: GenericArg) -> Result<(), NoSolutionOrStop> {
        EvalCtxt::eq(self.inner, env, a, b)
    }

    fn eq_and_get_goals(
        &mut self,
        env: ParamEnv,
        a: GenericArg,
        b: GenericArg,
    ) -> Result<Vec<(GoalSource, Goal<Clause>)>, NoSolutionOrStop> {
        self.inner.eq_and_get_goals(env, a, b)
    }

    fn add_goal(&mut self, source: GoalSource, goal: Goal<Clause>) -> Result<(), Stop> {
        self.inner.add_goal(source, goal)
    }

    fn add_goals(&mut self, source: GoalSource, goals: &[Goal<Clause>]) -> Result<(), Stop> {
        self.inner.add_goals(source, goals)
    }

    fn try_evaluate_added_goals(&mut self) -> Result<Certainty, NoSolutionOrStop> {
        self.inner.try_evaluate_added_goals()
    }

    fn evaluate_added_goals_and_make_canonical_response(
        &mut self,
        certainty: Certainty,
    ) -> Result<CanonicalResponse, NoSolutionOrStop> {
        self.inner
            .evaluate_added_goals_and_make_canonical_response(certainty)
    }

    /// Its number is that of the probes that began before, and one more.
    fn begin_probe(&mut self, kind: ProbeKind) -> Result<NumberedProbe<E::Probe>, Stop> {
        let probe = self.inner.begin_probe(kind)?;
        match self.begun.checked_add(1) {
            Some(number) => self.begun = number,
            None => self.is_cut = true,
        }
        Ok(NumberedProbe {
            probe,
            number: self.begun,
        })
    }

    /// What the evaluator says of usages is dropped: the probe's number is answered.
    fn end_probe(&mut self, probe: NumberedProbe<E::Probe>) -> CandidateHeadUsages {
        let NumberedProbe { probe, number } = probe;
        drop(self.inner.end_probe(probe));
        self.usages_of(number)
    }

    fn opaques_with_sub_unified_hidden_type(&mut self, ty: Ty) -> Result<Vec<AliasTy>, Stop> {
        self.inner.opaques_with_sub_unified_hidden_type(ty)
    }

    /// Their numbers are recorded.
    fn ignore_candidate_head_usages(&mut self, usages: CandidateHeadUsages) {
        self.note(&usages);
    }

    fn delay_bug(&mut self, text: &str) -> Result<(), Stop> {
        self.inner.delay_bug(text)
    }
}
