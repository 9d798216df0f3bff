// Made of `crates/candidate_rounds/src/rounds/states.rt` by `bench/plain.py`: an edit of this file is lost.

//! The state: variables, goals, probes.


use kit::{eprintln, format, prelude::*, print, println, vec};
use crate::rounds::Rounds;
use crate::rounds::fresh::{Leaves, leaf_args, variable};
use crate::rounds::goals::Goals;
use crate::rounds::inference::Inference;
use candidate_eval::eval::mode::TypingMode;
use candidate_eval::eval::variable::VariableKind;
use ir_context::decl::context::Cx;
use ir_trees::ir::kinds::{AliasTy, Args, GenericArg, Ty, VarKind};
use ir_trees::ir::stop::Stop;
use ir_trees::ir::trees::Trees;
use kit::alloc::Global;

impl Rounds {
    /// An evaluator over the context that knows nothing of variables yet. It normalises each alias of `normal` to the type that
    /// stands beside it; the opaque types of `opaques` may be hidden behind a variable. `may_be_listed` and `may_be_hidden` test
    /// what these have to be.
    pub fn new(
        alloc: Global,
        cx: Cx,
        mode: TypingMode,
        normal: Vec<(Ty, Ty)>,
        opaques: Vec<AliasTy>,
    ) -> Rounds
    {
        Rounds::over(alloc, cx, mode, normal, false, opaques)
    }

    /// An evaluator as `new` makes it, but that an alias that isn't listed is open in coherence: it may be any type.
    pub fn with_open_aliases(
        alloc: Global,
        cx: Cx,
        mode: TypingMode,
        normal: Vec<(Ty, Ty)>,
        opaques: Vec<AliasTy>,
    ) -> Rounds
    {
        Rounds::over(alloc, cx, mode, normal, true, opaques)
    }

    /// An evaluator that knows nothing of variables yet.
    fn over(
        alloc: Global,
        cx: Cx,
        mode: TypingMode,
        normal: Vec<(Ty, Ty)>,
        opens: bool,
        opaques: Vec<AliasTy>,
    ) -> Rounds
    {
        cx.recall_well_formed_table();
        Rounds {
            cx,
            mode,
            normal,
            opens,
            opaques,
            goals: Goals::new(alloc),
            inference: Inference::new(alloc),
            probes: Vec::new(alloc),
            above: 0,
            leaks: false,
        }
    }

    /// Whether aliases that aren't listed are open: it was made so, and its mode is coherence.
    pub fn opens_aliases(&self) -> bool
    {
        self.opens && self.mode == TypingMode::Coherence
    }

    /// What it was given besides the context may be given. Nothing is done.
    pub fn recall_given(&self)
    {
        self.recall_well_kept();
    }

    /// The context, and what the evaluator was given besides it.
    pub fn into_parts(self) -> (Cx, Vec<(Ty, Ty)>, Vec<AliasTy>)
    {
        (self.cx, self.normal, self.opaques)
    }

    /// A variable, of the newest universe, or, where it is a root, of the root's. `Stop::Memory` comes where a growth was refused,
    /// `Stop::NodesFull` where no number is left.
    pub(crate) fn new_variable(
        &mut self,
        kind: VariableKind,
        is_root: bool,
    ) -> Result<GenericArg, Stop>
    {
        let number = self.inference.next_variable()?;
        let arg = variable(&mut self.cx, kind, number)?;
        self.inference.add_variable(kind, is_root)?;
        Ok(arg)
    }

    /// A variable that comes with a goal, of the root universe. `Stop::Memory` comes where a growth was refused, `Stop::NodesFull`
    /// where no number is left.
    pub fn new_root_var(&mut self, kind: VariableKind) -> Result<GenericArg, Stop>
    {
        self.recall_well_kept();
        self.new_variable(kind, true)
    }

    /// What stands for parameters of these kinds: nodes are made, and nothing else.
    pub(crate) fn make_leaves(
        &mut self,
        alloc: Global,
        leaves: Leaves,
        kinds: &[VarKind],
    ) -> Result<Args, Stop>
    {
        leaf_args(alloc, &mut self.cx, leaves, kinds)
    }

    /// Fresh variables, in the place of parameters of these kinds; none, where it stops.
    pub(crate) fn add_variables(&mut self, kinds: &[VarKind]) -> Result<(), Stop>
    {
        self.inference.add_variables(kinds)
    }

    /// There is a newer universe.
    pub(crate) fn enter(&mut self) -> Result<(), Stop>
    {
        self.inference.enter()
    }

    /// Begins a probe in which nothing is pending.
    pub(crate) fn begin_aside(&mut self) -> Result<(), Stop>
    {
        self.probes.push(self.inference.changes())?;
        match self.inference.set_aside() {
            Ok(()) => Ok(()),
            Err(stop) => {
                self.probes.pop();
                Err(stop)
            }
        }
    }
}
