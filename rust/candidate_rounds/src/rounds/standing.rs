// Made of `crates/candidate_rounds/src/rounds/standing.rt` by `bench/plain.py`: an edit of this file is lost.

//! Whether a goal stands at what is known, so that it may be asked.


use kit::{eprintln, format, prelude::*, print, println, vec};
use crate::rounds::Rounds;
use crate::rounds::inference::Inference;
use crate::rounds::keys::stands;
use crate::rounds::resolving::is_same_kind;
use candidate_eval::eval::variable::VariableKind;
use ir_trees::ir::heads::VariableSort;
use ir_trees::ir::kinds::{Args, ConstKind, ParamEnv, RegionKind, TraitPredicate, TyKind};
use ir_trees::ir::marks::Mark;
use ir_trees::ir::node::Node;
use kit::alloc::Global;

/// The mark of what is strange to what is known: a variable that isn't there, is of another kind or has a value, or a placeholder of a
/// universe above the newest.
#[derive(Debug)]
struct OutOfScope<'a> {
    inference: &'a Inference,
}

impl OutOfScope<'_> {
    /// Whether the variable of that number isn't there, is of another kind or has a value.
    fn is_variable(&self, kind: VariableKind, number: u32) -> bool
    {
        match self.inference.entry(number) {
            Some(entry) => entry.value.is_some() || !is_same_kind(entry.kind, kind),
            None => true,
        }
    }

    /// Whether the universe is above the newest.
    fn is_above(&self, universe: u32) -> bool
    {
        universe > self.inference.newest_universe()
    }
}

impl Mark for OutOfScope<'_> {

    fn is_on(&self, node: &Node) -> bool {
        match node {
            Node::Ty(TyKind::Infer(of)) => {
                let variable = of.variable();
                self.is_variable(VariableKind::Term(variable.sort), variable.number)
            }
            Node::Const(ConstKind::Infer(number)) => {
                self.is_variable(VariableKind::Term(VariableSort::Constant), *number)
            }
            Node::Region(RegionKind::Var(number)) => {
                self.is_variable(VariableKind::Region, *number)
            }
            Node::Ty(TyKind::Placeholder(placeholder))
            | Node::Const(ConstKind::Placeholder(placeholder))
            | Node::Region(RegionKind::Placeholder(placeholder)) => {
                self.is_above(placeholder.universe)
            }
            _ => false,
        }
    }

}

impl Rounds {
    /// Whether the goal of an environment and a predicate stands at what is known, as `compute_trait_goal` and what lists candidates ask:
    /// the arguments are those that the trait takes, and in them and in the environment stands no parameter, no bound variable that
    /// escapes, no variable but those that are there and have no value, and no placeholder of a universe that isn't there.
    ///
    /// A goal in which a variable with a value stands may stand all the same, where the value makes sense; it gets a no here until its
    /// values are put in (`resolve_args_if_possible`, `resolve_clause_if_possible`).
    pub fn stands_here(&self, alloc: Global, param_env: ParamEnv, predicate: TraitPredicate) -> bool
    {
        debug_assert!(ir_trees::checks::is_sorted(ir_context::decl::make::Make::cx(&*self), param_env), "candidate_rounds::rounds::standing::Rounds::stands_here: `param_env` is {:?}, no number of its sort in this context", param_env);
        debug_assert!(ir_trees::checks::is_sorted(ir_context::decl::make::Make::cx(&*self), predicate.trait_ref.args), "candidate_rounds::rounds::standing::Rounds::stands_here: `predicate.trait_ref.args` is {:?}, no number of its sort in this context", predicate.trait_ref.args);
        self.recall_well_kept();
        if !self.cx.trait_ref_args_fit(predicate.trait_ref) {
            return false;
        }
        let strange = OutOfScope {
            inference: &self.inference,
        };
        stands(alloc, &self.cx, &strange, param_env)
            && stands(alloc, &self.cx, &strange, predicate.trait_ref.args)
    }

    /// Whether an environment and a list stand at what is known, as all that a goal of some other kind mentions has to. What arguments a
    /// definition takes isn't looked at; else it is a no where `stands_here` has one.
    pub fn list_stands_here(&self, alloc: Global, param_env: ParamEnv, list: Args) -> bool
    {
        debug_assert!(ir_trees::checks::is_sorted(ir_context::decl::make::Make::cx(&*self), param_env), "candidate_rounds::rounds::standing::Rounds::list_stands_here: `param_env` is {:?}, no number of its sort in this context", param_env);
        debug_assert!(ir_trees::checks::is_sorted(ir_context::decl::make::Make::cx(&*self), list), "candidate_rounds::rounds::standing::Rounds::list_stands_here: `list` is {:?}, no number of its sort in this context", list);
        self.recall_well_kept();
        let strange = OutOfScope {
            inference: &self.inference,
        };
        stands(alloc, &self.cx, &strange, param_env) && stands(alloc, &self.cx, &strange, list)
    }
}
