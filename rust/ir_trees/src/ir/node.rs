// Made of `crates/ir_trees/src/ir/node.rt` by `bench/plain.py`: an edit of this file is lost.

//! One node of the table.


use kit::{eprintln, format, prelude::*, print, println, vec};
use crate::ir::heads::{Head, ListHead, Marks, PartHead};
use crate::ir::kinds::{
    Binder, Clause, ClauseKind, ClosureSig, ConstKind, ExistentialPredicate, GenericArg, Pred,
    RegionKind, TyKind, Var, VarKind, one_of_three,
};
use crate::ir::numbered::Numbered;
use kit::hash::{Hash, Hasher};

/// A node of the table: a type, a constant, a region, a list or a part of one of these, with the numbers of its children.
#[derive(Debug)]
pub enum Node {
    Ty(TyKind),
    Const(ConstKind),
    Region(RegionKind),
    Args(Vec<GenericArg>),
    Preds(Vec<Pred>),
    Clauses(Vec<Clause>),
    Pred(Binder<ExistentialPredicate>),
    Clause(Binder<ClauseKind>),
    Sig(Binder<ClosureSig>),
    Vars(Vec<Var>),
    Var(VarKind),
}

/// What is kept of a node's tree.
#[derive(Clone, Copy, Debug)]
pub struct Kept {
    pub height: u32,
    pub marks: Marks,
}

impl Node {
    /// The head of the node's tree.
    #[inline(always)]
    pub fn head(&self) -> Head
    {
        match self {
            Node::Ty(kind) => kind.head(),
            Node::Const(kind) => kind.head(),
            Node::Region(kind) => Head::Region(*kind),
            Node::Args(_) => Head::List(ListHead::Args),
            Node::Preds(_) => Head::List(ListHead::Preds),
            Node::Clauses(_) => Head::List(ListHead::Clauses),
            Node::Pred(bound) => Head::Part(PartHead::Pred(bound.head())),
            Node::Clause(clause) => Head::Part(PartHead::Clause(clause.head())),
            Node::Sig(_) => Head::Part(PartHead::Sig),
            Node::Vars(_) => Head::Part(PartHead::Vars),
            Node::Var(kind) => Head::Part(PartHead::Var(*kind)),
        }
    }

    /// Whether it is a list, whose members stand in its place among the children of another node.
    pub(crate) fn is_list(&self) -> bool
    {
        matches!(self, Node::Args(_) | Node::Preds(_) | Node::Clauses(_))
    }

    /// How many nodes it names; those of a list are its members.
    #[inline(always)]
    pub fn child_count(&self) -> usize
    {
        match self {
            Node::Ty(kind) => kind.child_count(),
            Node::Const(ConstKind::Unevaluated(_, _)) => 1,
            Node::Const(_) | Node::Region(_) | Node::Var(_) => 0,
            Node::Args(list) => list.len(),
            Node::Preds(list) => list.len(),
            Node::Clauses(list) => list.len(),
            Node::Pred(bound) => bound.child_count(),
            Node::Clause(clause) => clause.child_count(),
            Node::Sig(_) => 3,
            Node::Vars(list) => list.len(),
        }
    }

    /// The number of the node that it names at that place. The caller sees to it that `i` is below `child_count`.
    #[inline(always)]
    pub fn child(&self, i: usize) -> u32
    {
        match self {
            Node::Ty(kind) => kind.child(i),
            Node::Const(ConstKind::Unevaluated(_, args)) => args.0,
            Node::Const(_) | Node::Region(_) | Node::Var(_) => unreachable!(),
            Node::Args(list) => list[i].number(),
            Node::Preds(list) => list[i].0,
            Node::Clauses(list) => list[i].0,
            Node::Pred(bound) => bound.child(i),
            Node::Clause(clause) => clause.child(i),
            Node::Sig(sig) => {
                one_of_three(i, sig.vars.0, sig.value.inputs.0, sig.value.output.0)
            }
            Node::Vars(list) => list[i].0,
        }
    }

    /// Whether each of its children is one tree, and none a list: the children of a list and of a binder are.
    pub(crate) fn has_single_children(&self) -> bool
    {
        self.is_list() || matches!(self, Node::Vars(_))
    }

    /// The number of its child of that place, from 0 on, if there are so many.
    pub(crate) fn child_if_there(&self, place: usize) -> Option<u32>
    {
        if place < self.child_count() {
            Some(self.child(place))
        } else {
            None
        }
    }

    /// Whether it names a definition that is none of the first so many.
    pub(crate) fn names_unknown(&self, definitions: usize) -> bool
    {
        match self {
            Node::Ty(kind) => kind.head().names_unknown(definitions),
            Node::Const(kind) => kind.head().names_unknown(definitions),
            Node::Pred(_) | Node::Clause(_) => self.head().names_unknown(definitions),
            Node::Region(_) | Node::Args(_) | Node::Preds(_) | Node::Clauses(_) => false,
            Node::Sig(_) | Node::Vars(_) | Node::Var(_) => false,
        }
    }

    /// Whether two nodes, which have equally many children, have the same.
    fn has_children_of(&self, other: &Node) -> bool
    {
        for i in 0..self.child_count() {
            if self.child(i) != other.child(i) {
                return false;
            }
        }
        true
    }

    /// Whether its children are these, which are as many.
    pub fn has_children(&self, numbers: &[u32]) -> bool
    {
        for i in 0..self.child_count() {
            if self.child(i) != numbers[i] {
                return false;
            }
        }
        true
    }

    /// Whether two nodes have one head and equally many children.
    pub(crate) fn has_root_of(&self, other: &Node) -> bool
    {
        if !self.head().is_same(other.head()) {
            return false;
        }
        self.child_count() == other.child_count()
    }
}

/// Nodes are equal where their heads and the numbers of their children are: over one table, where their trees are.
impl PartialEq for Node {



    fn eq(&self, other: &Node) -> bool {
        self.has_root_of(other) && self.has_children_of(other)
    }
}

impl Eq for Node {

}

impl Hash for Node {



    fn hash<H: Hasher>(&self, state: &mut H) {
        self.head().hash(state);
        let count = self.child_count();
        count.hash(state);
        for i in 0..count {
            self.child(i).hash(state);
        }
    }
}
