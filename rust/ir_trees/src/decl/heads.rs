// Made of `crates/ir_trees/src/decl/heads.rt` by `bench/plain.py`: an edit of this file is lost.

//! The impls of traits, listed by the heads of the types that they are for.


use kit::{eprintln, format, prelude::*, print, println, vec};
use crate::decl::contents::{Contents, Impl, ImplId};
use crate::decl::misplaced::is_args;
use crate::ir::at::at;
use crate::ir::classes::ImplClass;
use crate::ir::heads::Head;
use crate::ir::kinds::{GenericArg, Ty};
use crate::ir::nodes::Nodes;
use crate::ir::trees::Trees;
use kit::indexmap::IndexMap;
use kit::alloc::{AllocError, Global};

/// One list: the place of its trait among the traits, and what its impls are for.
#[derive(Clone, Copy, PartialEq, Eq, Hash, Debug)]
pub struct ImplList {
    pub of: usize,
    pub class: ImplClass,
}

/// The type that the impl is for: the first of its header's arguments.
pub fn impl_self_ty(nodes: &Nodes, impls: &[Impl], of: ImplId) -> Option<Ty>
{
    let trait_ref = at(impls, of.0 as usize)?.trait_ref;
    if !is_args(nodes, trait_ref.args) {
        return None;
    }
    match *nodes.args(trait_ref.args).first()? {
        GenericArg::Ty(ty) => Some(ty),
        GenericArg::Const(_) | GenericArg::Region(_) => None,
    }
}

/// Adds an impl to a list, with its place among the impls of its trait.
fn push_place(
    alloc: Global,
    lists: &mut IndexMap<ImplList, Vec<(usize, ImplId)>>,
    list: ImplList,
    impl_id: (usize, ImplId),
) -> Result<(), AllocError>
{
    let listed = lists.entry(list)?.or_insert(Vec::new(alloc));
    listed.push(impl_id)?;
    Ok(())
}

/// Adds an impl of the trait in that place to each list that it belongs to.
fn list_impl(
    alloc: Global,
    lists: &mut IndexMap<ImplList, Vec<(usize, ImplId)>>,
    of: usize,
    head: Head,
    impl_id: (usize, ImplId),
) -> Result<(), AllocError>
{
    let class = head.class();
    push_place(alloc, lists, ImplList { of, class }, impl_id)?;
    match head.number_class() {
        Some(class) => push_place(alloc, lists, ImplList { of, class }, impl_id),
        None => Ok(()),
    }
}

/// Lists the impls of the trait in that place.
fn list_own(
    alloc: Global,
    lists: &mut IndexMap<ImplList, Vec<(usize, ImplId)>>,
    nodes: &Nodes,
    impls: &[Impl],
    of: usize,
    own: &[ImplId],
) -> Result<(), AllocError>
{
    for place in 0..own.len() {
        let impl_id = own[place];
        if let Some(ty) = impl_self_ty(nodes, impls, impl_id) {
            list_impl(alloc, lists, of, nodes.head(ty.0), (place, impl_id))?;
        }
    }
    Ok(())
}

/// The lists of all impls.
pub fn listed_impls(
    alloc: Global,
    nodes: &Nodes,
    contents: &Contents,
) -> Result<IndexMap<ImplList, Vec<(usize, ImplId)>>, AllocError>
{
    let mut lists = IndexMap::new(alloc);
    let impls = contents.impls.as_slice();
    for of in 0..contents.traits.len() {
        list_own(
            alloc,
            &mut lists,
            nodes,
            impls,
            of,
            contents.traits[of].impls.as_slice(),
        )?;
    }
    Ok(lists)
}

/// Whether the one in its place in the first list comes before the one in its place in the second.
fn comes_first(
    first: &[(usize, ImplId)],
    taken: usize,
    second: &[(usize, ImplId)],
    passed: usize,
) -> bool
{
    match (at(first, taken), at(second, passed)) {
        (Some((own, _)), Some((others, _))) => own < others,
        (next, _) => next.is_some(),
    }
}

/// The impls of two lists in the order of their places.
pub fn join(
    alloc: Global,
    first: &[(usize, ImplId)],
    second: &[(usize, ImplId)],
) -> Result<Vec<ImplId>, AllocError>
{
    let mut joined = Vec::with_capacity(alloc, first.len() + second.len())?;
    let mut taken = 0;
    let mut passed = 0;
    while taken < first.len() || passed < second.len() {
        if comes_first(first, taken, second, passed) {
            joined.push_reserved(first[taken].1);
            taken += 1;
        } else {
            joined.push_reserved(second[passed].1);
            passed += 1;
        }
    }
    Ok(joined)
}
