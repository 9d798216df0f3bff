// Made of `crates/ir_builder/src/decl/supers.rt` by `bench/plain.py`: an edit of this file is lost.

//! Which clauses may be a trait's super clauses.


use kit::{eprintln, format, prelude::*, print, println, vec};
use ir_trees::decl::contents::{Contents, TraitContents};
use ir_trees::decl::definition::{Declaration, DefinitionKind};
use ir_trees::decl::misplaced::is_clause;
use ir_trees::ir::at::at;
use ir_trees::ir::heads::{ClauseHead, Head};
use ir_trees::ir::kinds::{Args, Binder, Clause, ClauseKind, PredicatePolarity};
use ir_trees::ir::nodes::Nodes;
use ir_trees::ir::numbered::Numbered;
use ir_trees::ir::trees::Trees;

/// The number of the first member of a list.
fn first(nodes: &Nodes, args: Args) -> Option<u32>
{
    let list = nodes.args(args);
    if list.is_empty() {
        return None;
    }
    Some(list[0].number())
}

/// The number of what a clause is about.
fn subject(nodes: &Nodes, clause: Binder<ClauseKind>) -> Option<u32>
{
    match clause.value {
        ClauseKind::Trait(predicate) => match first(nodes, predicate.trait_ref.args) {
            Some(number) => Some(number),
            None => None,
        },
        ClauseKind::Projection(predicate) => {
            match first(nodes, predicate.projection_term.args) {
                Some(number) => Some(number),
                None => Some(predicate.term.0),
            }
        }
        ClauseKind::TypeOutlives(ty, _) => Some(ty.0),
        ClauseKind::RegionOutlives(region, _) => Some(region.0),
        ClauseKind::AliasRelate(left, _) => Some(left.0),
        ClauseKind::ConstEquate(left, _) => Some(left.0),
    }
}

/// Whether it says that a trait holds, that an associated type is a type, or that a type outlives a region.
fn says_of_type(head: ClauseHead) -> bool
{
    match head {
        ClauseHead::Trait(_, polarity) => matches!(polarity, PredicatePolarity::Positive),
        ClauseHead::Projection(_) => true,
        ClauseHead::TypeOutlives => true,
        ClauseHead::RegionOutlives => false,
        ClauseHead::AliasRelate => false,
        ClauseHead::ConstEquate => false,
    }
}

fn is_self(head: Head) -> bool
{
    match head {
        Head::Param(index) => index == 0,
        _ => false,
    }
}

/// Whether the clause may be a super clause: it says one of these, about `Self`.
fn is_super_clause(nodes: &Nodes, clause: Clause) -> bool
{
    if !is_clause(nodes, clause) {
        return false;
    }
    let binder = nodes.clause(clause);
    if !says_of_type(binder.head()) {
        return false;
    }
    match subject(nodes, binder) {
        Some(number) => is_self(nodes.head(number)),
        None => false,
    }
}

fn is_no_super(nodes: &Nodes, clause: Clause) -> bool
{
    !is_super_clause(nodes, clause)
}

/// The number of the first super clause that says something else, or of something else.
pub(crate) fn first_no_super(
    nodes: &Nodes,
    contents: &Contents,
    kind: DefinitionKind,
) -> Option<usize>
{
    let DefinitionKind::Trait(_, place) = kind else {
        return None;
    };
    let of = at(contents.traits.as_slice(), place as usize)?;
    of.supers
        .iter()
        .position(|clause| is_no_super(nodes, *clause))
}

fn any_is_no_super(nodes: &Nodes, of: Option<&TraitContents>) -> bool
{
    match of {
        Some(of) => clauses_have_no_super(nodes, of.supers.as_slice()),
        None => false,
    }
}

fn clauses_have_no_super(nodes: &Nodes, clauses: &[Clause]) -> bool
{
    clauses.iter().any(|clause| is_no_super(nodes, *clause))
}

pub(crate) fn has_wrong_super(nodes: &Nodes, contents: &Contents, kind: DefinitionKind) -> bool
{
    match kind {
        DefinitionKind::Trait(_, place) => {
            any_is_no_super(nodes, at(contents.traits.as_slice(), place as usize))
        }
        _ => false,
    }
}

/// Whether some trait has a super clause that says something else, or of something else.
pub(crate) fn any_has_wrong_super(
    nodes: &Nodes,
    definitions: &[Declaration],
    contents: &Contents,
) -> bool
{
    definitions.iter().any(|definition| has_wrong_super(nodes, contents, definition.kind()))
}
