// Made of `crates/ir_trees/src/ir/rebuild.rt` by `bench/plain.py`: an edit of this file is lost.

//! Nodes like others, over other children.


use kit::{eprintln, format, prelude::*, print, println, vec};
use crate::ir::kinds::{
    AliasTerm, AliasTy, Args, Binder, Clause, ClauseKind, ClosureArgs, ClosureSig, Const,
    ConstKind, ExistentialPredicate, ExistentialProjection, ExistentialTraitRef, FnSig, GenericArg,
    Pattern, Preds, ProjectionPredicate, Region, Sig, TraitPredicate, TraitRef, Ty, TyKind, Vars,
};
use crate::ir::node::Node;
use crate::ir::numbered::Numbered;
use kit::alloc::{AllocError, Global};

impl TyKind {
    /// The kind over these children, which are of the same sorts.
    pub fn with_children(self, children: &[u32]) -> TyKind
    {
        match self {
            TyKind::Adt(id, _) => TyKind::Adt(id, Args(children[0])),
            TyKind::Array(_, _) => TyKind::Array(Ty(children[0]), Const(children[1])),
            TyKind::Slice(_) => TyKind::Slice(Ty(children[0])),
            TyKind::Pat(_, Pattern::NotNull) => TyKind::Pat(Ty(children[0]), Pattern::NotNull),
            TyKind::Pat(_, Pattern::Range(_, _)) => TyKind::Pat(
                Ty(children[0]),
                Pattern::Range(Const(children[1]), Const(children[2])),
            ),
            TyKind::RawPtr(_, mutability) => TyKind::RawPtr(Ty(children[0]), mutability),
            TyKind::Ref(_, _, mutability) => {
                TyKind::Ref(Region(children[0]), Ty(children[1]), mutability)
            }
            TyKind::FnDef(id, _) => TyKind::FnDef(id, Args(children[0])),
            TyKind::FnPtr(sig) => TyKind::FnPtr(Binder {
                vars: Vars(children[0]),
                value: FnSig {
                    inputs: Args(children[1]),
                    output: Ty(children[2]),
                    ..sig.value
                },
            }),
            TyKind::UnsafeBinder(_) => TyKind::UnsafeBinder(Binder {
                vars: Vars(children[0]),
                value: Ty(children[1]),
            }),
            TyKind::Dynamic(_, _) => TyKind::Dynamic(Preds(children[0]), Region(children[1])),
            TyKind::Closure(id, args) => TyKind::Closure(
                id,
                ClosureArgs {
                    parent: Args(children[0]),
                    kind: args.kind,
                    sig: Sig(children[1]),
                    upvars: Ty(children[2]),
                },
            ),
            TyKind::Tuple(_) => TyKind::Tuple(Args(children[0])),
            TyKind::Alias(alias) => TyKind::Alias(AliasTy {
                args: Args(children[0]),
                ..alias
            }),
            TyKind::Bool
            | TyKind::Char
            | TyKind::Int(_)
            | TyKind::Uint(_)
            | TyKind::Float(_)
            | TyKind::Str
            | TyKind::Never
            | TyKind::Foreign(_)
            | TyKind::Param(_)
            | TyKind::Placeholder(_)
            | TyKind::Bound(_)
            | TyKind::Infer(_)
            | TyKind::Error => self,
        }
    }
}

impl ConstKind {
    /// The kind over these children, which are of the same sorts.
    pub fn with_children(self, children: &[u32]) -> ConstKind
    {
        match self {
            ConstKind::Unevaluated(id, _) => ConstKind::Unevaluated(id, Args(children[0])),
            ConstKind::Value(_)
            | ConstKind::Param(_)
            | ConstKind::Placeholder(_)
            | ConstKind::Bound(_)
            | ConstKind::Infer(_)
            | ConstKind::Error => self,
        }
    }
}

impl Binder<ExistentialPredicate> {
    /// The bound over these children, which are of the same sorts.
    pub fn with_children(self, children: &[u32]) -> Binder<ExistentialPredicate>
    {
        let value = match self.value {
            ExistentialPredicate::Trait(trait_ref) => {
                ExistentialPredicate::Trait(ExistentialTraitRef {
                    args: Args(children[1]),
                    ..trait_ref
                })
            }
            ExistentialPredicate::Projection(projection) => {
                ExistentialPredicate::Projection(ExistentialProjection {
                    args: Args(children[1]),
                    term: Ty(children[2]),
                    ..projection
                })
            }
            ExistentialPredicate::AutoTrait(id) => ExistentialPredicate::AutoTrait(id),
        };
        Binder {
            vars: Vars(children[0]),
            value,
        }
    }
}

impl Binder<ClauseKind> {
    /// The clause over these children, which are of the same sorts.
    pub fn with_children(self, children: &[u32]) -> Binder<ClauseKind>
    {
        let value = match self.value {
            ClauseKind::Trait(predicate) => ClauseKind::Trait(TraitPredicate {
                trait_ref: TraitRef {
                    def_id: predicate.trait_ref.def_id,
                    args: Args(children[1]),
                },
                polarity: predicate.polarity,
            }),
            ClauseKind::Projection(predicate) => ClauseKind::Projection(ProjectionPredicate {
                projection_term: AliasTerm {
                    def_id: predicate.projection_term.def_id,
                    args: Args(children[1]),
                },
                term: Ty(children[2]),
            }),
            ClauseKind::TypeOutlives(_, _) => {
                ClauseKind::TypeOutlives(Ty(children[1]), Region(children[2]))
            }
            ClauseKind::RegionOutlives(_, _) => {
                ClauseKind::RegionOutlives(Region(children[1]), Region(children[2]))
            }
            ClauseKind::AliasRelate(_, _) => {
                ClauseKind::AliasRelate(Ty(children[1]), Ty(children[2]))
            }
            ClauseKind::ConstEquate(_, _) => {
                ClauseKind::ConstEquate(Const(children[1]), Const(children[2]))
            }
        };
        Binder {
            vars: Vars(children[0]),
            value,
        }
    }
}

impl Binder<ClosureSig> {
    /// The signature over these children: its variables, its inputs and its output.
    pub fn with_children(self, children: &[u32]) -> Binder<ClosureSig>
    {
        Binder {
            vars: Vars(children[0]),
            value: ClosureSig {
                inputs: Ty(children[1]),
                output: Ty(children[2]),
            },
        }
    }
}

/// The arguments of these numbers, of the kinds of the old ones.
pub fn renumbered(
    alloc: Global,
    list: &[GenericArg],
    numbers: &[u32],
) -> Result<Vec<GenericArg>, AllocError>
{
    let mut out = Vec::new(alloc);
    for i in 0..list.len() {
        out.push(list[i].with_number(numbers[i]))?;
    }
    Ok(out)
}

/// The clauses of these numbers.
pub(crate) fn clauses_of(alloc: Global, numbers: &[u32]) -> Result<Vec<Clause>, AllocError>
{
    let mut out = Vec::new(alloc);
    for i in 0..numbers.len() {
        out.push(Clause(numbers[i]))?;
    }
    Ok(out)
}

impl Node {
    /// An equal node, whose list is another.
    pub fn copy(&self, alloc: Global) -> Result<Node, AllocError>
    {
        match self {
            Node::Ty(kind) => Ok(Node::Ty(*kind)),
            Node::Const(kind) => Ok(Node::Const(*kind)),
            Node::Region(kind) => Ok(Node::Region(*kind)),
            Node::Args(list) => Ok(Node::Args(list.as_slice().kit_to_vec(alloc)?)),
            Node::Preds(list) => Ok(Node::Preds(list.as_slice().kit_to_vec(alloc)?)),
            Node::Clauses(list) => Ok(Node::Clauses(list.as_slice().kit_to_vec(alloc)?)),
            Node::Pred(bound) => Ok(Node::Pred(*bound)),
            Node::Clause(clause) => Ok(Node::Clause(*clause)),
            Node::Sig(sig) => Ok(Node::Sig(*sig)),
            Node::Vars(list) => Ok(Node::Vars(list.as_slice().kit_to_vec(alloc)?)),
            Node::Var(kind) => Ok(Node::Var(*kind)),
        }
    }

    /// A node like it over these children, which are of the same sorts.
    pub fn rebuilt(&self, alloc: Global, children: &[u32]) -> Result<Node, AllocError>
    {
        match self {
            Node::Ty(kind) => Ok(Node::Ty(kind.with_children(children))),
            Node::Const(kind) => Ok(Node::Const(kind.with_children(children))),
            Node::Args(list) => Ok(Node::Args(renumbered(alloc, list.as_slice(), children)?)),
            Node::Clauses(_) => Ok(Node::Clauses(clauses_of(alloc, children)?)),
            Node::Clause(clause) => Ok(Node::Clause(clause.with_children(children))),
            Node::Sig(sig) => Ok(Node::Sig(sig.with_children(children))),
            Node::Region(_) | Node::Preds(_) | Node::Pred(_) | Node::Vars(_) | Node::Var(_) => {
                unreachable!()
            }
        }
    }
}
