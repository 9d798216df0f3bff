// Made of `crates/ir_trees/src/ir/nodes.rt` by `bench/plain.py`: an edit of this file is lost.

//! The table of nodes, which contracts see as the list of their trees.


use kit::{eprintln, format, prelude::*, print, println, vec};
use crate::ir::heads::Marks;
use crate::ir::kinds::{
    Args, Binder, ExistentialPredicate, GenericArg, Pred, Preds, Var, VarKind, Vars,
};
use crate::ir::making::New;
use crate::ir::node::{Kept, Node};
use crate::ir::seed::Seeded;
use crate::ir::stop::Stop;
use crate::ir::trees::Trees;
use kit::indexmap::IndexMap;
use kit::alloc::Global;
use kit::marker::Model;

/// A table of nodes, in which each node stands once. A number is the place of its node, and equal trees have one number.
#[derive(Debug)]
pub struct Nodes {
    /// Each node once, in the order in which they were made.
    rows: IndexMap<Node, Kept, Seeded>,
}

impl Model for Nodes {




}

impl Trees for Nodes {

    fn allocator(&self) -> Global {
        *self.rows.allocator()
    }

    fn marks(&self, number: u32) -> Marks {
        self.kept(number).marks
    }

    fn recall_distinct(&self) {
        let _rows = self.rows.len();
    }

    fn has_node(&self, number: u32) -> bool {
        (number as usize) < self.rows.len()
    }

    fn node(&self, number: u32) -> &Node {
        match self.rows.get_index(number as usize) {
            Some((node, _)) => node,
            None => panic!("ir_trees::ir::trees::Trees::node: no node has the number {number}"),
        }
    }
}

/// No tree is higher.
const MAX_HEIGHT: u32 = 1024;

/// How many numbers a context gives.
const MAX_NODES: usize = 0xffff_ffff;

/// What the head of a node adds to the height of its tree.
#[inline(always)]
fn own_height(node: &Node) -> u32
{
    match node {
        Node::Ty(_) => 1,
        Node::Const(_) => 1,
        _ => 0,
    }
}

impl Nodes {
    /// A table without nodes, which hashes with the seed.
    pub fn with_seed(alloc: Global, seed: u64) -> Self
    {
        Nodes {
            rows: IndexMap::with_hasher(alloc, Seeded::new(seed)),
        }
    }

    /// What is kept of a number's tree.
    #[inline(always)]
    fn kept(&self, number: u32) -> Kept
    {
        match self.rows.get_index(number as usize) {
            Some((_, kept)) => *kept,
            None => unreachable!(),
        }
    }

    /// What is kept of the tree of a node, which may be too high for the table.
    #[inline(always)]
    fn node_kept(&self, node: &Node) -> Kept
    {
        let mut highest = 0;
        let mut marks = node.head().marks();
        for i in 0..node.child_count() {
            let kept = self.kept(node.child(i));
            marks = marks.joined(kept.marks);
            if highest < kept.height {
                highest = kept.height;
            }
        }
        let height = highest + own_height(node);
        Kept { height, marks }
    }

    /// The number of the node, if there is one.
    fn find(&self, node: &Node) -> Option<u32>
    {
        match self.rows.get_index_of(node) {
            Some(index) => Some(index as u32),
            None => None,
        }
    }

    /// The number of the node, which is added if the table hasn't got it.
    #[inline(always)]
    fn put(&mut self, node: Node, kept: Kept) -> Result<u32, Stop>
    {
        let (index, _) = self.rows.insert_full(node, kept)?;
        Ok(index as u32)
    }

    /// Cuts the table back to the first so many nodes.
    pub fn truncate(&mut self, len: usize)
    {
        self.rows.truncate(len);
    }

    /// No variable of a binder has children.
    pub fn recall_variables_are_leaves(&self)
    {
        let _rows = self.rows.len();
    }

    /// How many nodes there are, at most 2^32 - 1.
    pub fn len(&self) -> usize
    {
        self.rows.len()
    }

    /// The number of the node. It is inlined, so that each sort of node is added without asking of which sort it is.
    #[inline(always)]
    pub fn add(&mut self, node: Node) -> Result<u32, Stop>
    {
        let kept = self.node_kept(&node);
        if self.len() >= MAX_NODES || kept.height > MAX_HEIGHT {
            return match self.find(&node) {
                Some(number) => Ok(number),
                None => Err(Stop::NodesFull),
            };
        }
        self.put(node, kept)
    }

    /// The number of what is made. It is inlined, too.
    #[inline(always)]
    pub fn make(&mut self, new: New<'_>) -> Result<u32, Stop>
    {
        debug_assert!(crate::checks::is_made_of(&*self, &new), "ir_trees::ir::nodes::Nodes::make: {new:?} has a number that is none of its sort in this context");
        match new {
            New::Ty(kind) => self.add(Node::Ty(kind)),
            New::Const(kind) => self.add(Node::Const(kind)),
            New::Region(kind) => self.add(Node::Region(kind)),
            New::Args(list) => {
                let list = list.kit_to_vec(*self.rows.allocator())?;
                self.add(Node::Args(list))
            }
            New::Vars(kinds) => Ok(self.mk_vars(kinds)?.0),
            New::Preds(bounds) => Ok(self.mk_preds(bounds)?.0),
            New::Sig(sig) => self.add(Node::Sig(sig)),
            New::Clause(clause) => self.add(Node::Clause(clause)),
            New::ParamEnv(clauses) => {
                let clauses = clauses.kit_to_vec(*self.rows.allocator())?;
                self.add(Node::Clauses(clauses))
            }
        }
    }

    /// The list of these arguments, which it takes.
    #[inline(never)]
    pub fn mk_arg_list(&mut self, list: Vec<GenericArg>) -> Result<Args, Stop>
    {
        Ok(Args(self.add(Node::Args(list))?))
    }

    /// The list of these bounds of a `dyn` type.
    fn mk_pred_list(&mut self, list: Vec<Pred>) -> Result<Preds, Stop>
    {
        Ok(Preds(self.add(Node::Preds(list))?))
    }

    fn add_preds(&mut self, bounds: &[Binder<ExistentialPredicate>]) -> Result<Preds, Stop>
    {
        let mut list = Vec::new(*self.rows.allocator());
        for bound in bounds {
            let number = self.add(Node::Pred(*bound))?;
            list.push(Pred(number))?;
        }
        self.mk_pred_list(list)
    }

    /// The bounds of a `dyn` type, with a node for each and one for the list.
    fn mk_preds(&mut self, bounds: &[Binder<ExistentialPredicate>]) -> Result<Preds, Stop>
    {
        let len = self.len();
        match self.add_preds(bounds) {
            Ok(preds) => Ok(preds),
            Err(stop) => {
                self.truncate(len);
                Err(stop)
            }
        }
    }

    /// The list of these variables of a binder.
    fn mk_var_list(&mut self, list: Vec<Var>) -> Result<Vars, Stop>
    {
        Ok(Vars(self.add(Node::Vars(list))?))
    }

    fn add_vars(&mut self, kinds: &[VarKind]) -> Result<Vars, Stop>
    {
        let mut list = Vec::new(*self.rows.allocator());
        for kind in kinds {
            let number = self.add(Node::Var(*kind))?;
            list.push(Var(number))?;
        }
        self.mk_var_list(list)
    }

    /// The variables of a binder, with a node for each and one for the list.
    fn mk_vars(&mut self, kinds: &[VarKind]) -> Result<Vars, Stop>
    {
        let len = self.len();
        match self.add_vars(kinds) {
            Ok(vars) => Ok(vars),
            Err(stop) => {
                self.truncate(len);
                Err(stop)
            }
        }
    }
}
