// Made of `crates/ir_trees/src/ir/trees.rt` by `bench/plain.py`: an edit of this file is lost.

//! What numbers stand for.


use kit::{eprintln, format, prelude::*, print, println, vec};
use crate::ir::flags::{TypeFlags, bit_if};
use crate::ir::heads::{Flag, Head, Marks};
use crate::ir::kinds::{
    Args, Binder, Clause, ClauseKind, ClosureSig, Const, ConstKind, ExistentialPredicate,
    GenericArg, ParamEnv, Pred, Preds, Region, RegionKind, Sig, TraitId, TraitRef, Ty, TyKind, Var,
    VarKind, Vars,
};
use crate::ir::marks::{Mark, PlaceholderAbove, VariableNumber, number_holds};
use crate::ir::node::Node;
use crate::ir::numbered::Numbered;
use crate::ir::unify::{RightSide, numbers_may_unify};
use crate::ir::walked::Walked;
use crate::ir::walks::{number_escapes, part, width};
use kit::alloc::Global;

/// What has given numbers, each of which stands for one tree.
pub trait Trees: Sized {
    // The trees of the numbers given so far, from the first on.

    /// Where walks take memory for what they note.
    fn allocator(&self) -> Global;

    /// Which flags' marks stand in the tree of a number.
    fn marks(&self, number: u32) -> Marks
        ;

    /// Equal trees have one number.
    fn recall_distinct(&self)
        ;

    /// Whether there is a node of that number.
    #[doc(hidden)]
    fn has_node(&self, number: u32) -> bool {
        let _ = number;
        true
    }

    /// The node of a number.
    fn node(&self, number: u32) -> &Node
        ;

    /// The type, constant or region of a number, if it is of one: bounds of `dyn` types, signatures, clauses, binders with their
    /// variables and lists have numbers, too.
    fn argument(&self, number: u32) -> Option<GenericArg>
    {
        match self.node(number) {
            Node::Ty(_) => Some(GenericArg::Ty(Ty(number))),
            Node::Const(_) => Some(GenericArg::Const(Const(number))),
            Node::Region(_) => Some(GenericArg::Region(Region(number))),
            _ => None,
        }
    }

    /// The head of a number's tree.
    #[inline(always)]
    fn head(&self, number: u32) -> Head
    {
        self.node(number).head()
    }

    /// The number of the tree of that place below a number, from 0 on, if there are so many. The members of a list stand in the
    /// list's place; where the number is itself a list's or a binder's, its member is read at once.
    fn child(&self, number: u32, place: usize) -> Option<u32>
    {
        let node = self.node(number);
        if node.has_single_children() {
            return node.child_if_there(place);
        }
        let mut left = place;
        for i in 0..node.child_count() {
            let child = node.child(i);
            let width = width(self, child);
            if left < width {
                return Some(part(self, child, left));
            }
            left -= width;
        }
        None
    }

    /// The number of the variable to be solved that the argument is, if it is one. Types, constants and regions have their
    /// numbers in one row.
    fn variable_number(&self, arg: GenericArg) -> Option<u32>
    {
        debug_assert!(crate::checks::is_sorted(&*self, arg), "ir_trees::ir::trees::Trees::variable_number: `arg` is {:?}, no number of its sort in this context", arg);
        self.head(arg.number()).variable_number()
    }

    /// The kind of a type: making it again gives an equal tree.
    fn kind(&self, ty: Ty) -> TyKind
    {
        debug_assert!(crate::checks::is_sorted(&*self, ty), "ir_trees::ir::trees::Trees::kind: `ty` is {:?}, no number of its sort in this context", ty);
        match self.node(ty.0) {
            Node::Ty(kind) => *kind,
            _ => unreachable!(),
        }
    }

    /// The arguments of a list.
    fn args(&self, args: Args) -> &[GenericArg]
    {
        debug_assert!(crate::checks::is_sorted(&*self, args), "ir_trees::ir::trees::Trees::args: `args` is {:?}, no number of its sort in this context", args);
        match self.node(args.0) {
            Node::Args(list) => list.as_slice(),
            _ => unreachable!(),
        }
    }

    /// The bounds of a list, of which each is read by `pred`.
    fn preds(&self, preds: Preds) -> &[Pred]
    {
        match self.node(preds.0) {
            Node::Preds(list) => list.as_slice(),
            _ => unreachable!(),
        }
    }

    /// One bound.
    fn pred(&self, pred: Pred) -> Binder<ExistentialPredicate>
    {
        match self.node(pred.0) {
            Node::Pred(bound) => *bound,
            _ => unreachable!(),
        }
    }

    /// The kind of a constant.
    fn const_kind(&self, constant: Const) -> ConstKind
    {
        debug_assert!(crate::checks::is_sorted(&*self, constant), "ir_trees::ir::trees::Trees::const_kind: `constant` is {:?}, no number of its sort in this context", constant);
        match self.node(constant.0) {
            Node::Const(kind) => *kind,
            _ => unreachable!(),
        }
    }

    /// The kind of a region.
    fn region_kind(&self, region: Region) -> RegionKind
    {
        debug_assert!(crate::checks::is_sorted(&*self, region), "ir_trees::ir::trees::Trees::region_kind: `region` is {:?}, no number of its sort in this context", region);
        match self.node(region.0) {
            Node::Region(kind) => *kind,
            _ => unreachable!(),
        }
    }

    /// The signature of a closure, under its binder.
    fn sig(&self, sig: Sig) -> Binder<ClosureSig>
    {
        match self.node(sig.0) {
            Node::Sig(sig) => *sig,
            _ => unreachable!(),
        }
    }

    /// The clause of a number, under its binder.
    fn clause(&self, clause: Clause) -> Binder<ClauseKind>
    {
        debug_assert!(crate::checks::is_sorted(&*self, clause), "ir_trees::ir::trees::Trees::clause: `clause` is {:?}, no number of its sort in this context", clause);
        match self.node(clause.0) {
            Node::Clause(clause) => *clause,
            _ => unreachable!(),
        }
    }

    /// The clauses of an environment, of which each is read by `clause`.
    fn param_env(&self, env: ParamEnv) -> &[Clause]
    {
        debug_assert!(crate::checks::is_sorted(&*self, env), "ir_trees::ir::trees::Trees::param_env: `env` is {:?}, no number of its sort in this context", env);
        match self.node(env.0) {
            Node::Clauses(list) => list.as_slice(),
            _ => unreachable!(),
        }
    }

    /// The variables of a binder, of which each is read by `var`.
    fn vars(&self, vars: Vars) -> &[Var]
    {
        match self.node(vars.0) {
            Node::Vars(list) => list.as_slice(),
            _ => unreachable!(),
        }
    }

    /// What one variable of a binder stands for.
    fn var(&self, var: Var) -> VarKind
    {
        match self.node(var.0) {
            Node::Var(kind) => *kind,
            _ => unreachable!(),
        }
    }

    /// The principal of the bounds of a `dyn` type, if they have one.
    fn principal(&self, preds: Preds) -> Option<TraitId>
    {
        let bounds = self.preds(preds);
        for i in 0..bounds.len() {
            if let ExistentialPredicate::Trait(trait_ref) = self.pred(bounds[i]).value {
                return Some(trait_ref.def_id);
            }
        }
        None
    }

    /// Whether two are equal as trees: clauses with equal binders, lists with equal members in one order.
    fn same<N: Numbered>(&self, a: N, b: N) -> bool
    {
        self.recall_distinct();
        a.number() == b.number()
    }

    /// Quick rejection: whether two could be made equal, by their heads.
    ///
    /// A general variable, an alias, an error or a bound type may be equal to any type, and so may a
    /// parameter on the right side where that is an impl header; an integer variable may be equal to
    /// integer types and variables, a floating-point variable to floating-point ones. All else needs
    /// equal heads, and children that may be equal. Regions always may, lists if they are equally
    /// long and each pair may.
    ///
    /// After a no they have no common instance, whatever stands in the place of aliases, errors and
    /// bound variables, and of a header's parameters; a yes promises nothing. Equal numbers are
    /// answered at once. Else both sides are walked, pair by pair, up to the first no. Each pair of
    /// numbers is gone into once, but for some sixteen that aren't noted: where no more have children,
    /// no memory is taken. Where memory is refused for a pair, it isn't noted, and is gone into again
    /// where it stands again.
    fn may_unify<N: Numbered>(&self, a: N, b: N, right: RightSide) -> bool
    {
        numbers_may_unify(self, a.number(), b.number(), right)
    }

    /// Whether two lists could be made equal: they are equally long, and each pair may; what is said
    /// of `may_unify` holds here, too.
    fn args_may_unify(&self, a: Args, b: Args, right: RightSide) -> bool
    {
        debug_assert!(crate::checks::is_sorted(&*self, a), "ir_trees::ir::trees::Trees::args_may_unify: `a` is {:?}, no number of its sort in this context", a);
        debug_assert!(crate::checks::is_sorted(&*self, b), "ir_trees::ir::trees::Trees::args_may_unify: `b` is {:?}, no number of its sort in this context", b);
        numbers_may_unify(self, a.0, b.0, right)
    }

    /// Whether a head with the flag's mark stands anywhere in it.
    fn has<N: Numbered>(&self, of: N, flag: Flag) -> bool
    {
        self.marks(of.number()).has(flag)
    }

    /// Whether a head that the mark is on stands anywhere in it. Each number is gone into once, as each pair is for `may_unify`.
    fn has_marked<N: Numbered, M: Mark>(&self, of: N, mark: &M) -> bool
    {
        let mut walked = Walked::new(self.allocator());
        number_holds(self, &mut walked, of.number(), mark)
    }

    /// Whether a parameter stands anywhere in the reference.
    fn has_param(&self, trait_ref: TraitRef) -> bool
    {
        debug_assert!(crate::checks::is_sorted(&*self, trait_ref.args), "ir_trees::ir::trees::Trees::has_param: `trait_ref.args` is {:?}, no number of its sort in this context", trait_ref.args);
        self.has(trait_ref.args, Flag::Param)
    }

    /// Whether a bound variable stands in it that no binder in it binds; of a clause, not its own binder either. Each number is gone into
    /// once under so many binders, as each pair is for `may_unify`.
    fn has_escaping_bound_vars<N: Numbered>(&self, of: N) -> bool
    {
        number_escapes(self, of.number(), 0)
    }

    /// Whether the variable of that number, which may be of any kind, stands anywhere in the argument.
    fn mentions(&self, arg: GenericArg, variable: u32) -> bool
    {
        debug_assert!(crate::checks::is_sorted(&*self, arg), "ir_trees::ir::trees::Trees::mentions: `arg` is {:?}, no number of its sort in this context", arg);
        self.has_marked(arg, &VariableNumber(variable))
    }

    /// Whether a type's or a constant's placeholder of a universe above that one stands anywhere in the argument.
    fn has_placeholder_above(&self, arg: GenericArg, universe: u32) -> bool
    {
        debug_assert!(crate::checks::is_sorted(&*self, arg), "ir_trees::ir::trees::Trees::has_placeholder_above: `arg` is {:?}, no number of its sort in this context", arg);
        self.has_marked(arg, &PlaceholderAbove(universe))
    }

    /// The flags whose marks stand anywhere in the type.
    fn flags(&self, ty: Ty) -> TypeFlags
    {
        debug_assert!(crate::checks::is_sorted(&*self, ty), "ir_trees::ir::trees::Trees::flags: `ty` is {:?}, no number of its sort in this context", ty);
        let marks = self.marks(ty.0);
        let infer = bit_if(marks.has(Flag::TyInfer), 1)
            + bit_if(marks.has(Flag::RegionInfer), 2)
            + bit_if(marks.has(Flag::ConstInfer), 4);
        let placeholder = bit_if(marks.has(Flag::TyPlaceholder), 8)
            + bit_if(marks.has(Flag::RegionPlaceholder), 16)
            + bit_if(marks.has(Flag::ConstPlaceholder), 32);
        let bound = bit_if(marks.has(Flag::TyBound), 64)
            + bit_if(marks.has(Flag::RegionBound), 128)
            + bit_if(marks.has(Flag::ConstBound), 256);
        let other = bit_if(marks.has(Flag::Param), 512)
            + bit_if(marks.has(Flag::Alias), 1024)
            + bit_if(marks.has(Flag::Error), 2048);
        TypeFlags(infer + placeholder + bound + other)
    }

    /// True: a list of bounds has bounds alone.
    fn holds_bounds(&self, preds: Preds) -> bool
    {
        let _ = self.preds(preds);
        true
    }
}
