//! The names that rows gave.

use crate::notation::parts::Part;
use candidate_ir::ir::kinds::{
    AdtId, AliasId, AliasKind, AliasTy, Args, AssocId, ConstKind, FnId, ForeignId, TyKind,
};
use kit::prelude::*;

/// What a number stands for that has a name.
#[derive(Clone, Copy)]
pub enum Sort {
    Adt,
    Foreign,
    Trait,
    AssociatedType,
    AssociatedConst,
    Opaque,
    Inherent,
    Free,
    Function,
    Closure,
    Impl,
    /// A node that a row gave a name.
    Node,
}

/// A name, and what it was given to.
#[derive(Clone, Copy)]
pub struct Name<'a> {
    pub word: &'a str,
    pub sort: Sort,
    pub number: u32,
    /// How many arguments it takes.
    pub arity: usize,
}

/// The name of this word that was given last.
pub fn named<'a>(names: &[Name<'a>], word: &str) -> Option<Name<'a>> {
    let mut found = None;
    for name in names {
        if name.word == word {
            found = Some(*name);
        }
    }
    found
}

/// The word of the definition of that number, or of the impl.
pub fn word_of<'a>(names: &[Name<'a>], number: u32, is_impl: bool) -> Option<&'a str> {
    for name in names {
        let is_it = match name.sort {
            Sort::Node => false,
            Sort::Impl => is_impl,
            _ => !is_impl,
        };
        if is_it && name.number == number {
            return Some(name.word);
        }
    }
    None
}

/// The words that declare, and the sort of definition that each of them does.
pub const SORTS: [(&str, Sort); 11] = [
    ("adt", Sort::Adt),
    ("foreign", Sort::Foreign),
    ("trait", Sort::Trait),
    ("assoc", Sort::AssociatedType),
    ("assoc_const", Sort::AssociatedConst),
    ("opaque", Sort::Opaque),
    ("inherent", Sort::Inherent),
    ("free", Sort::Free),
    ("fn", Sort::Function),
    ("closure", Sort::Closure),
    ("impl", Sort::Impl),
];

/// The type or the constant of the definition over the list, if its sort makes one.
pub(crate) fn over_list(sort: Sort, number: u32, args: Args) -> Option<Part> {
    let kind = match sort {
        Sort::Adt => return Some(Part::Ty(TyKind::Adt(AdtId(number), args))),
        Sort::Function => return Some(Part::Ty(TyKind::FnDef(FnId(number), args))),
        Sort::Foreign => return Some(Part::Ty(TyKind::Foreign(ForeignId(number)))),
        Sort::AssociatedConst => {
            return Some(Part::Const(ConstKind::Unevaluated(AssocId(number), args)));
        }
        Sort::AssociatedType => AliasKind::Projection,
        Sort::Opaque => AliasKind::Opaque,
        Sort::Inherent => AliasKind::Inherent,
        Sort::Free => AliasKind::Free,
        Sort::Trait | Sort::Closure | Sort::Impl | Sort::Node => return None,
    };
    let id = AliasId(number);
    Some(Part::Ty(TyKind::Alias(AliasTy { kind, id, args })))
}
