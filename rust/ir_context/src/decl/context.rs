// Made of `crates/ir_context/src/decl/context.rt` by `bench/plain.py`: an edit of this file is lost.

//! The context: declarations, and the table in which types are made.


use kit::{eprintln, format, prelude::*, print, println, vec};
use crate::decl::finished::Decls;
use crate::decl::make::Build;
use kit::indexmap::IndexMap;
use ir_trees::decl::arity::{bounds_fit, clause_fits, const_fits, takes_after_self, ty_fits};
use ir_trees::decl::contents::{Contents, ImplId, trait_place};
use ir_trees::decl::definition::{CrateId, Declaration, DefinitionSort};
use ir_trees::decl::heads::ImplList;
use ir_trees::decl::limits::Limits;
use ir_trees::decl::misplaced::is_args;
use ir_trees::ir::at::at;
use ir_trees::ir::classes::ImplClass;
use ir_trees::ir::heads::Marks;
use ir_trees::ir::kinds::{
    Args, Binder, ClauseKind, ConstKind, ExistentialPredicate, GenericArg, TraitId, TraitRef,
    TyKind,
};
use ir_trees::ir::making::New;
use ir_trees::ir::node::Node;
use ir_trees::ir::nodes::Nodes;
use ir_trees::ir::stop::Stop;
use ir_trees::ir::trees::Trees;
use kit::alloc::Global;
use kit::marker::Model;

/// Declarations without a fault, and the types, constants, regions and lists made so far.
///
/// A number stands for one tree until it is taken back.
#[derive(Debug)]
pub struct Cx {
    crates: u32,
    local: CrateId,
    limits: Limits,
    pub(crate) definitions: Vec<Declaration>,
    pub(crate) contents: Contents,
    pub(crate) nodes: Nodes,
    declared_nodes: usize,
    delayed_bugs: Vec<String>,
    /// The impls of each trait, by what they are for.
    impl_lists: IndexMap<ImplList, Vec<(usize, ImplId)>>,
}

impl Model for Cx {




}

impl Cx {
    /// A context over the declarations; the numbers that their builder gave stay.
    pub fn new(decls: Decls) -> Self
    {
        let Decls {
            crates,
            local,
            limits,
            definitions,
            contents,
            nodes,
            impl_lists,
        } = decls;
        let delayed_bugs = Vec::new(*definitions.allocator());
        Cx {
            crates,
            local,
            limits,
            definitions,
            contents,
            declared_nodes: nodes.len(),
            nodes,
            delayed_bugs,
            impl_lists,
        }
    }

    /// Where walks end, as it is declared: no limit is 0.
    pub fn limits(&self) -> Limits
    {
        self.limits
    }

    /// Puts off a fault: its text stands last among `delayed_bugs` then.
    ///
    /// The only error is `Stop::Memory`, where a growth was refused; nothing is changed then.
    pub fn delay_bug(&mut self, text: &str) -> Result<(), Stop>
    {
        let text = String::from_str(*self.definitions.allocator(), text)?;
        self.delayed_bugs.push(text)?;
        Ok(())
    }

    /// The texts of the faults that were put off so far, in their order.
    pub fn delayed_bugs(&self) -> &[String]
    {
        self.delayed_bugs.as_slice()
    }

    /// Whether the number is that of a list of arguments.
    pub(crate) fn is_args(&self, args: Args) -> bool
    {
        is_args(&self.nodes, args)
    }

    /// No variable of a binder has children.
    pub fn recall_variables_are_leaves(&self)
    {
        self.nodes.recall_variables_are_leaves();
    }

    /// How many numbers of types, constants, regions and lists are given.
    pub fn node_count(&self) -> usize
    {
        self.nodes.len()
    }

    /// Takes back all numbers but the first so many, and but those of the declarations. They stand for nothing then, and are
    /// given again.
    pub fn truncate(&mut self, node_count: usize)
    {
        self.nodes.truncate(node_count.max(self.declared_nodes));
    }

    /// Whether the definition of that number belongs to the local crate.
    pub fn is_local(&self, definition: u32) -> bool
    {
        match at(self.definitions.as_slice(), definition as usize) {
            Some(declaration) => declaration.krate() == self.local,
            None => false,
        }
    }

    /// Whether the definition of that number, a data type or a trait, has the flag `fundamental`.
    pub fn is_fundamental(&self, definition: u32) -> bool
    {
        match at(self.definitions.as_slice(), definition as usize) {
            Some(declaration) => declaration.is_fundamental(),
            None => false,
        }
    }

    /// Every node has the children that its definition takes.
    pub fn recall_well_formed(&self)
    {
        let _ = &self.nodes;
    }

    /// Nothing is wrong with what is declared.
    pub fn recall_well_formed_table(&self)
    {
        let _ = &self.nodes;
    }

    /// The lists of what is declared are counted by a machine, and the trees that are declared are among those of the table.
    pub fn recall_counted(&self)
    {
        let _ = self.contents.adts.len();
        let _ = self.contents.traits.len();
        let _ = self.contents.bounds.len();
    }

    /// Whether the arguments of a type are those that it takes: as many as its definition has parameters, of their kinds.
    pub fn args_fit(&self, kind: TyKind) -> bool
    {
        ty_fits(self.definitions.as_slice(), &self.nodes, kind)
    }

    /// Whether the arguments of a constant are those that it takes.
    pub fn const_args_fit(&self, kind: ConstKind) -> bool
    {
        const_fits(self.definitions.as_slice(), &self.nodes, kind)
    }

    /// Whether the arguments of each bound of a `dyn` type are those that it takes, which has no self type.
    pub fn bounds_args_fit(&self, bounds: &[Binder<ExistentialPredicate>]) -> bool
    {
        bounds_fit(self.definitions.as_slice(), &self.nodes, bounds)
    }

    /// Whether the arguments of a clause are those that it takes.
    pub fn clause_args_fit(&self, clause: Binder<ClauseKind>) -> bool
    {
        clause_fits(self.definitions.as_slice(), &self.nodes, clause)
    }

    /// Whether the arguments of a reference are those that its trait takes, the self type first.
    pub fn trait_ref_args_fit(&self, trait_ref: TraitRef) -> bool
    {
        debug_assert!(ir_trees::checks::is_sorted(&*self, trait_ref.args), "ir_context::decl::context::Cx::trait_ref_args_fit: `trait_ref.args` is {:?}, no number of its sort in this context", trait_ref.args);
        takes_after_self(
            self.definitions.as_slice(),
            DefinitionSort::Trait,
            trait_ref.def_id.0,
            self.nodes.args(trait_ref.args),
        )
    }

    /// The impls of the trait that are listed there, each with its place among the trait's impls.
    pub(crate) fn listed(&self, of: TraitId, class: ImplClass) -> &[(usize, ImplId)]
    {
        let of = trait_place(self.definitions.as_slice(), of);
        match self.impl_lists.get(&ImplList { of, class }) {
            Some(listed) => listed.as_slice(),
            None => &[],
        }
    }

    /// Makes a list of arguments as `mk_args` does, of a list that the context keeps.
    pub fn mk_arg_list(&mut self, list: Vec<GenericArg>) -> Result<Args, Stop>
    {
        self.nodes.mk_arg_list(list)
    }
}

/// The arguments of what is made in a context are those that it takes.
impl Build for Cx {




    #[inline(always)]
    fn make(&mut self, new: New<'_>) -> Result<u32, Stop> {
        let made = self.nodes.make(new);
        self.nodes.recall_distinct();
        made
    }
}

impl Trees for Cx {

    fn allocator(&self) -> Global {
        *self.definitions.allocator()
    }

    fn marks(&self, number: u32) -> Marks {
        self.nodes.marks(number)
    }

    fn recall_distinct(&self) {
        self.nodes.recall_distinct();
    }

    fn has_node(&self, number: u32) -> bool {
        self.nodes.has_node(number)
    }

    fn node(&self, number: u32) -> &Node {
        self.nodes.node(number)
    }
}
