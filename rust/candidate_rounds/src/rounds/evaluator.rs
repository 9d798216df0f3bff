// Made of `crates/candidate_rounds/src/rounds/evaluator.rt` by `bench/plain.py`: an edit of this file is lost.

//! The evaluator as generic code knows it. What a call says beyond its trait is in clauses of its own, beside the trait's.


use kit::{eprintln, format, prelude::*, print, println, vec};
use crate::rounds::Rounds;
use crate::rounds::fresh::Leaves;
use crate::rounds::resolving::{region_of, resolved, resolved_root, type_of};
use crate::rounds::settling::MAX_PASSES;
use candidate_eval::eval::InferCtxtLike;
use candidate_eval::eval::certainty::Certainty;
use candidate_eval::eval::context::{EvalCtxt, ProbeKind};
use candidate_eval::eval::mode::TypingMode;
use candidate_eval::eval::refusal::NoSolutionOrStop;
use candidate_eval::eval::response::{CandidateHeadUsages, CanonicalResponse};
use candidate_eval::eval::variable::VariableKind;
use ir_context::decl::context::Cx;
use ir_context::decl::make::{Build, Make};
use ir_trees::ir::kinds::{
    AliasTy, Args, Binder, Clause, ClauseKind, ClosureSig, Const, ConstKind, ExistentialPredicate,
    GenericArg, Goal, GoalSource, ParamEnv, Preds, Region, RegionKind, Sig, Ty, TyKind, VarKind,
    Vars,
};
use ir_trees::ir::making::New;
use ir_trees::ir::stop::Stop;
use ir_trees::ir::trees::Trees;
use kit::alloc::Global;

impl Build for Rounds {




    #[inline(always)]
    fn make(&mut self, new: New<'_>) -> Result<u32, Stop> {
        self.cx.make(new)
    }
}

impl Make for Rounds {
    fn cx(&self) -> &Cx {
        &self.cx
    }
}

impl InferCtxtLike for Rounds {




    fn shallow_resolve(&self, ty: Ty) -> Ty {
        self.recall_well_kept();
        type_of(resolved_root(&self.cx, &self.inference, GenericArg::Ty(ty)))
    }
}

/// A probe that began and hasn't ended yet.
#[derive(Debug)]
pub struct OpenProbe(());

impl Rounds {
    /// The allocator of all that it keeps.
    fn allocator(&self) -> Global {
        *self.normal.allocator()
    }
}

impl EvalCtxt for Rounds {
    type Probe = OpenProbe;







    fn typing_mode(&self) -> TypingMode {
        self.mode
    }

    /// All values are put in: the value of each variable that has one stands in its place. `Stop::Memory` comes where a growth was
    /// refused, `Stop::NodesFull` where no numbers are left or what came of a part of the tree would be higher than 1,024. After a
    /// stop the nodes that were made stay. The same holds of the three calls below.
    fn resolve_ty_if_possible(&mut self, ty: Ty) -> Result<Ty, Stop>
    {
        let alloc = self.allocator();
        resolved(alloc, &mut self.cx, &self.inference, ty)
    }

    fn resolve_const_if_possible(&mut self, constant: Const) -> Result<Const, Stop>
    {
        let alloc = self.allocator();
        resolved(alloc, &mut self.cx, &self.inference, constant)
    }

    fn resolve_args_if_possible(&mut self, list: Args) -> Result<Args, Stop>
    {
        let alloc = self.allocator();
        resolved(alloc, &mut self.cx, &self.inference, list)
    }

    fn resolve_clause_if_possible(&mut self, clause: Clause) -> Result<Clause, Stop>
    {
        let alloc = self.allocator();
        resolved(alloc, &mut self.cx, &self.inference, clause)
    }

    fn eager_resolve_region(&self, region: Region) -> Region {
        match self.cx.region_kind(region) {
            RegionKind::Var(number) => match self.value(VariableKind::Region, number) {
                Some(value) => region_of(value),
                None => region,
            },
            _ => region,
        }
    }

    /// All values are put in, and if it is a listed alias then, its type stands in its place. It is never refused, and stops as
    /// `resolve_ty_if_possible` does.
    fn structurally_normalize_ty(&mut self, env: ParamEnv, ty: Ty) -> Result<Ty, NoSolutionOrStop>
    {
        self.recall_well_kept();
        let _ = env;
        let resolved = self.resolve_ty_if_possible(ty)?;
        let normal = self.listed_or_itself(resolved);
        if self.is_open_alias(normal) {
            return Ok(self.open_type()?);
        }
        Ok(normal)
    }

    /// All values are put in. No constant is ever listed, and none is refused; it stops as `resolve_ty_if_possible` does.
    fn structurally_normalize_const(
        &mut self,
        env: ParamEnv,
        constant: Const,
    ) -> Result<Const, NoSolutionOrStop>
    {
        self.recall_well_kept();
        let _ = env;
        Ok(self.resolve_const_if_possible(constant)?)
    }

    /// `Stop::Memory` comes where a growth was refused, `Stop::NodesFull` where no numbers are left.
    fn fresh_args_for_item(&mut self, kinds: &[VarKind]) -> Result<Args, Stop>
    {
        self.recall_well_kept();
        let alloc = self.allocator();
        let first = self.inference.next_variables(kinds.len())?;
        let args = self.make_leaves(alloc, Leaves::Variables(first), kinds)?;
        self.add_variables(kinds)?;
        Ok(args)
    }

    /// `Stop::Memory` comes where a growth was refused, `Stop::NodesFull` where no numbers are left.
    fn placeholder_args(&mut self, kinds: &[VarKind]) -> Result<Args, Stop>
    {
        self.recall_well_kept();
        let alloc = self.allocator();
        if kinds.len() >= u32::MAX as usize {
            return Err(Stop::NodesFull);
        }
        let universe = self.inference.next_universe()?;
        let args = self.make_leaves(alloc, Leaves::Placeholders(universe), kinds)?;
        if !kinds.is_empty() {
            self.enter()?;
        }
        Ok(args)
    }

    /// Where they can't be made equal, and where it stops, what is known is what it was. Besides `Stop::Memory`, `Stop::NodesFull`
    /// comes where no numbers are left, a tree would be higher than 1,024, or a node has more children than can be counted. The same
    /// holds of the two calls below.
    fn eq_args(&mut self, env: ParamEnv, a: Args, b: Args) -> Result<(), NoSolutionOrStop>
    {
        self.recall_well_kept();
        let alloc = self.allocator();
        self.lead_args(alloc, env, a, b)
    }

    fn eq(&mut self, env: ParamEnv, a: GenericArg, b: GenericArg) -> Result<(), NoSolutionOrStop>
    {
        self.recall_well_kept();
        let alloc = self.allocator();
        self.lead(alloc, env, a, b)
    }

    fn eq_and_get_goals(
        &mut self,
        env: ParamEnv,
        a: GenericArg,
        b: GenericArg,
    ) -> Result<Vec<(GoalSource, Goal<Clause>)>, NoSolutionOrStop>
    {
        self.recall_well_kept();
        let alloc = self.allocator();
        self.equation(alloc, env, a, b)
    }

    /// The only stop is `Stop::Memory`; nothing is changed then.
    fn add_goal(&mut self, source: GoalSource, goal: Goal<Clause>) -> Result<(), Stop>
    {
        self.inference.add(source, goal)
    }

    /// The only stop is `Stop::Memory`; nothing is changed then.
    fn add_goals(&mut self, source: GoalSource, goals: &[Goal<Clause>]) -> Result<(), Stop>
    {
        self.inference.add_all(source, goals)
    }

    /// Where it is refused, or stops, nothing that is known changes. `Stop::Memory` comes where a growth was refused, `Stop::NodesFull`
    /// where no numbers are left, a tree would be higher than 1,024, a variable would be bound too far out, or the children of a node
    /// are too many.
    fn try_evaluate_added_goals(&mut self) -> Result<Certainty, NoSolutionOrStop>
    {
        self.recall_well_kept();
        let alloc = self.allocator();
        let changes = self.inference.changes();
        match self.settle(alloc, MAX_PASSES) {
            Ok(()) => Ok(self.certainty()),
            Err(refusal) => {
                self.undo_to(changes);
                Err(refusal)
            }
        }
    }

    /// What is pending is evaluated, as `try_evaluate_added_goals` does, and then comes the response. Where it is refused, or stops,
    /// nothing that is known changes; it stops as that call and `make_canonical_response` do.
    fn evaluate_added_goals_and_make_canonical_response(
        &mut self,
        certainty: Certainty,
    ) -> Result<CanonicalResponse, NoSolutionOrStop>
    {
        self.recall_well_kept();
        let alloc = self.allocator();
        let changes = self.inference.changes();
        let settled = self.try_evaluate_added_goals()?;
        match self.make_canonical_response(alloc, certainty.and(settled)) {
            Ok(response) => Ok(response),
            Err(stop) => {
                self.undo_to(changes);
                Err(NoSolutionOrStop::Stop(stop))
            }
        }
    }

    /// The only stop is `Stop::Memory`; nothing is changed then.
    fn begin_probe(&mut self, kind: ProbeKind) -> Result<OpenProbe, Stop>
    {
        match kind {
            ProbeKind::Kept => {
                self.probes.push(self.inference.changes())?;
                Ok(OpenProbe(()))
            }
            ProbeKind::SetAside => {
                self.begin_aside()?;
                Ok(OpenProbe(()))
            }
        }
    }

    /// The state is again what it was when the probe began.
    fn end_probe(&mut self, probe: OpenProbe) -> CandidateHeadUsages
    {
        let OpenProbe(()) = probe;
        let alloc = self.allocator();
        let Some(changes) = self.probes.pop() else {
            return CandidateHeadUsages::new(alloc);
        };
        self.inference.undo_to(changes);
        CandidateHeadUsages::new(alloc)
    }

    /// Where the type stands for a general variable these are all that the evaluator was given, else none. The only stop is
    /// `Stop::Memory`.
    fn opaques_with_sub_unified_hidden_type(&mut self, ty: Ty) -> Result<Vec<AliasTy>, Stop>
    {
        let alloc = self.allocator();
        if !self.cx.kind(self.shallow_resolve(ty)).is_ty_var() {
            return Ok(Vec::new(alloc));
        }
        self.recall_well_kept();
        self.cx.recall_well_formed();
        Ok(Vec::from_slice(alloc, self.opaques.as_slice())?)
    }

    /// Of those goals nothing is kept.
    fn ignore_candidate_head_usages(&mut self, usages: CandidateHeadUsages)
    {
        drop(usages);
    }

    /// The text stands last among those of the context. The only stop is `Stop::Memory`; nothing is changed then.
    fn delay_bug(&mut self, text: &str) -> Result<(), Stop>
    {
        self.cx.delay_bug(text)
    }







}
