// Made of `crates/projection_goals/src/asked.rt` by `bench/plain.py`: an edit of this file is lost.

//! Whether a goal may be asked, and what it mentions.


use kit::{eprintln, format, prelude::*, print, println, vec};
use crate::kind::{NormalizesTo, trait_of};
use ir_context::decl::Cx;
use ir_context::decl::make::Make;
use ir_trees::ir::heads::Flag;
use ir_trees::ir::kinds::{AliasKind, Args, AssocId, GenericArg, ParamEnv, TraitRef, TyKind};
use ir_trees::ir::stop::Stop;
use ir_trees::ir::trees::Trees;
use kit::alloc::Global;

impl NormalizesTo {
    /// Whether it is a goal of the context, as the calls for such goals ask: a projection, with the arguments that it and its trait take, and
    /// neither a parameter nor an escaping bound variable in them or in the term.
    pub fn may_be_asked(self, cx: &Cx, param_env: ParamEnv) -> bool
    {
        debug_assert!(ir_trees::checks::is_sorted(&*cx, param_env), "projection_goals::asked::NormalizesTo::may_be_asked: `param_env` is {:?}, no number of its sort in this context", param_env);
        debug_assert!(ir_trees::checks::is_sorted(&*cx, self.alias.args), "projection_goals::asked::NormalizesTo::may_be_asked: `self.alias.args` is {:?}, no number of its sort in this context", self.alias.args);
        debug_assert!(ir_trees::checks::is_sorted(&*cx, self.term), "projection_goals::asked::NormalizesTo::may_be_asked: `self.term` is {:?}, no number of its sort in this context", self.term);
        let _ = param_env;
        self.fits(cx) && self.is_closed(cx)
    }

    /// Whether it is about a projection, with the arguments that this and its trait take.
    fn fits(self, cx: &Cx) -> bool
    {
        let AliasKind::Projection = self.alias.kind else {
            return false;
        };
        if !cx.args_fit(TyKind::Alias(self.alias)) {
            return false;
        }
        cx.trait_ref_args_fit(TraitRef {
            def_id: trait_of(cx, AssocId(self.alias.id.0)),
            args: self.alias.args,
        })
    }

    /// Whether neither a parameter nor an escaping bound variable stands in it.
    fn is_closed(self, cx: &Cx) -> bool
    {
        if cx.has(self.alias.args, Flag::Param) {
            return false;
        }
        if cx.has(self.term, Flag::Param) {
            return false;
        }
        if cx.has_escaping_bound_vars(self.alias.args) {
            return false;
        }
        !cx.has_escaping_bound_vars(self.term)
    }

    /// The list of all that it mentions: the projection's arguments, and then the term. Whoever finds that the list stands at a state knows
    /// that the goal does. `Stop::Memory` comes where a growth was refused, `Stop::NodesFull` where the list wasn't made; nothing is made
    /// then.
    pub fn mentioned<M: Make>(self, alloc: Global, make: &mut M) -> Result<Args, Stop>
    {
        debug_assert!(ir_trees::checks::is_sorted(ir_context::decl::make::Make::cx(&*make), self.alias.args), "projection_goals::asked::NormalizesTo::mentioned: `self.alias.args` is {:?}, no number of its sort in this context", self.alias.args);
        debug_assert!(ir_trees::checks::is_sorted(ir_context::decl::make::Make::cx(&*make), self.term), "projection_goals::asked::NormalizesTo::mentioned: `self.term` is {:?}, no number of its sort in this context", self.term);
        let mut list = Vec::from_slice(alloc, make.cx().args(self.alias.args))?;
        list.push(GenericArg::Ty(self.term))?;
        make.mk_args(list.as_slice())
    }
}
