//! What is asked of nodes whatever their sort: types, constants, regions, and lists of arguments, clauses and environments.

use crate::notation::answers::Item;
use crate::notation::parts::{sort_at, NodeSort};
use crate::notation::values::Value;
use candidate_ir::decl::context::Cx;
use candidate_ir::ir::kinds::{Args, Clause, Const, ParamEnv, Region, TraitRef, Ty};
use candidate_ir::ir::numbered::Numbered;
use kit::prelude::*;

/// A node, with its sort.
#[derive(Clone, Copy)]
pub enum Term {
    Ty(Ty),
    Const(Const),
    Region(Region),
    Args(Args),
    Clause(Clause),
    Env(ParamEnv),
}

impl Numbered for Term {
    fn number(self) -> u32 {
        match self {
            Term::Ty(ty) => ty.number(),
            Term::Const(constant) => constant.number(),
            Term::Region(region) => region.number(),
            Term::Args(list) => list.number(),
            Term::Clause(clause) => clause.number(),
            Term::Env(env) => env.number(),
        }
    }

    fn with_number(self, number: u32) -> Self {
        match self {
            Term::Ty(ty) => Term::Ty(ty.with_number(number)),
            Term::Const(constant) => Term::Const(constant.with_number(number)),
            Term::Region(region) => Term::Region(region.with_number(number)),
            Term::Args(list) => Term::Args(list.with_number(number)),
            Term::Clause(clause) => Term::Clause(clause.with_number(number)),
            Term::Env(env) => Term::Env(env.with_number(number)),
        }
    }
}

/// What stands at the number, if it is of one of these sorts.
pub fn term_at(cx: &Cx, number: u32) -> Option<Term> {
    match sort_at(cx, number) {
        Some(NodeSort::Ty) => Some(Term::Ty(Ty(number))),
        Some(NodeSort::Const) => Some(Term::Const(Const(number))),
        Some(NodeSort::Region) => Some(Term::Region(Region(number))),
        Some(NodeSort::Args) => Some(Term::Args(Args(number))),
        Some(NodeSort::Clause) => Some(Term::Clause(Clause(number))),
        Some(NodeSort::Env) => Some(Term::Env(ParamEnv(number))),
        _ => None,
    }
}

impl Value {
    /// The node, or of a reference the list of its arguments.
    pub fn term(self, cx: &Cx) -> Option<Term> {
        let Value::Reference(reference) = self else {
            return term_at(cx, self.node());
        };
        match term_at(cx, reference.args.0) {
            Some(Term::Args(list)) => Some(Term::Args(list)),
            _ => None,
        }
    }

    /// What is answered where a node was made in the place of that one: a reference over another list, or the node.
    pub fn remade(self, made: Term) -> Item {
        match (self, made) {
            (Value::Reference(reference), Term::Args(args)) => {
                Item::Reference(TraitRef { args, ..reference })
            }
            _ => Item::Node(made.number()),
        }
    }
}
