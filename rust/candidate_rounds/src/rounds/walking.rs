// Made of `crates/candidate_rounds/src/rounds/walking.rt` by `bench/plain.py`: an edit of this file is lost.

//! Walks over the trees of numbers that go once into each number: equal trees have one number, and may stand in many places.


use kit::{eprintln, format, prelude::*, print, println, vec};
use crate::rounds::inference::Inference;
use crate::rounds::resolving::kept_value;
use candidate_eval::eval::variable::VariableKind;
use ir_context::decl::context::Cx;
use ir_trees::ir::heads::{Variable, VariableSort};
use ir_trees::ir::kinds::{ConstKind, TyKind};
use ir_trees::ir::marks::{Mark, number_holds};
use ir_trees::ir::node::Node;
use ir_trees::ir::numbered::Numbered;
use ir_trees::ir::walked::Walked;
use kit::alloc::Global;

/// The mark of what is active where two equal trees meet.
#[derive(Debug)]
struct Active<'a> {
    inference: &'a Inference,
}

impl Active<'_> {
    /// Whether the variable has a value.
    fn has_value(&self, variable: Variable) -> bool
    {
        kept_value(
            self.inference,
            VariableKind::Term(variable.sort),
            variable.number,
        )
        .is_some()
    }
}

impl Mark for Active<'_> {

    fn is_on(&self, node: &Node) -> bool {
        match node {
            Node::Ty(TyKind::Infer(var)) => self.has_value(var.variable()),
            Node::Const(ConstKind::Infer(number)) => self.has_value(Variable {
                sort: VariableSort::Constant,
                number: *number,
            }),
            Node::Ty(TyKind::FnPtr(_) | TyKind::UnsafeBinder(_) | TyKind::Alias(_)) => true,
            Node::Const(ConstKind::Unevaluated(_, _)) => true,
            Node::Pred(_) | Node::Clause(_) | Node::Sig(_) => true,
            _ => false,
        }
    }

}

/// Whether a head that the mark is on stands anywhere in it, where none stands in the trees of the noted numbers.
pub(crate) fn has_marked<N: Numbered, M: Mark>(
    cx: &Cx,
    walked: &mut Walked<u32>,
    of: N,
    mark: &M,
) -> bool
{
    number_holds(cx, walked, of.number(), mark)
}

/// Whether nothing is active in the tree of that number, at whatever state these variables are of. After a no something may be.
pub(crate) fn is_passive(alloc: Global, cx: &Cx, inference: &Inference, number: u32) -> bool
{
    let mut walked = Walked::new(alloc);
    !number_holds(cx, &mut walked, number, &Active { inference })
}
