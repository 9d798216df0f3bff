// Made of `crates/ir_trees/src/lib.rt` by `bench/plain.py`: an edit of this file is lost.

//! Types of the object language as nodes of a table, which contracts see as finite trees, and declarations as data.

use kit::{eprintln, format, prelude::*, print, println, vec};
pub mod decl;
pub mod ir;

impl std::error::Error for crate::ir::stop::Stop {}

impl std::error::Error for crate::decl::fault::DeclFault {}

/// What debug builds ask of numbers.
#[doc(hidden)]
pub mod checks {
    use crate::ir::kinds::{
        Args, Binder, Clause, ClauseKind, Const, ConstKind, ExistentialPredicate, GenericArg, ParamEnv, Pattern, Preds, Region, Sig, Ty, TyKind, Vars,
    };
    use crate::ir::making::New;
    use crate::ir::node::Node;
    use crate::ir::numbered::Numbered;
    use crate::ir::trees::Trees;

    /// Numbers of one sort.
    pub trait Sorted: Copy {
        fn is_of<T: Trees + ?Sized>(self, trees: &T) -> bool;
    }

    macro_rules! sorted {
        ($($of:ident by $pattern:pat),*) => {
            $(impl Sorted for $of {
                fn is_of<T: Trees + ?Sized>(self, trees: &T) -> bool {
                    trees.has_node(self.0) && matches!(trees.node(self.0), $pattern)
                }
            })*
        };
    }

    sorted!(
        Ty by Node::Ty(_),
        Const by Node::Const(_),
        Region by Node::Region(_),
        Args by Node::Args(_),
        Clause by Node::Clause(_),
        ParamEnv by Node::Clauses(_),
        Vars by Node::Vars(_),
        Preds by Node::Preds(_),
        Sig by Node::Sig(_)
    );

    impl Sorted for GenericArg {
        fn is_of<T: Trees + ?Sized>(self, trees: &T) -> bool {
            match self {
                GenericArg::Ty(ty) => ty.is_of(trees),
                GenericArg::Const(constant) => constant.is_of(trees),
                GenericArg::Region(region) => region.is_of(trees),
            }
        }
    }

    /// Whether it is a number of these trees, and of its sort.
    pub fn is_sorted<T: Trees + ?Sized, S: Sorted>(trees: &T, of: S) -> bool {
        of.is_of(trees)
    }

    /// Whether all numbers in what is to be made are of these trees, and of their sorts.
    pub fn is_made_of<T: Trees + ?Sized>(trees: &T, new: &New<'_>) -> bool {
        match new {
            New::Ty(kind) => ty_is_made_of(trees, *kind),
            New::Const(ConstKind::Unevaluated(_, args)) => is_sorted(trees, *args),
            New::Const(_) | New::Region(_) | New::Vars(_) => true,
            New::Args(list) => list.iter().all(|arg| is_sorted(trees, *arg)),
            New::Preds(list) => list.iter().all(|bound| is_sorted(trees, bound.vars) && bound_is_made_of(trees, bound.value)),
            New::Sig(Binder { vars, value }) => is_sorted(trees, *vars) && is_sorted(trees, value.inputs) && is_sorted(trees, value.output),
            New::Clause(Binder { vars, value }) => is_sorted(trees, *vars) && clause_is_made_of(trees, *value),
            New::ParamEnv(clauses) => clauses.iter().all(|clause| is_sorted(trees, *clause)),
        }
    }

    fn ty_is_made_of<T: Trees + ?Sized>(trees: &T, kind: TyKind) -> bool {
        match kind {
            TyKind::Adt(_, args) | TyKind::FnDef(_, args) | TyKind::Tuple(args) => is_sorted(trees, args),
            TyKind::Alias(alias) => is_sorted(trees, alias.args),
            TyKind::Array(ty, length) => is_sorted(trees, ty) && is_sorted(trees, length),
            TyKind::Slice(ty) | TyKind::RawPtr(ty, _) => is_sorted(trees, ty),
            TyKind::Pat(ty, Pattern::Range(first, last)) => is_sorted(trees, ty) && is_sorted(trees, first) && is_sorted(trees, last),
            TyKind::Pat(ty, Pattern::NotNull) => is_sorted(trees, ty),
            TyKind::Ref(region, ty, _) => is_sorted(trees, region) && is_sorted(trees, ty),
            TyKind::FnPtr(Binder { vars, value }) => is_sorted(trees, vars) && is_sorted(trees, value.inputs) && is_sorted(trees, value.output),
            TyKind::UnsafeBinder(Binder { vars, value }) => is_sorted(trees, vars) && is_sorted(trees, value),
            TyKind::Dynamic(bounds, region) => is_sorted(trees, bounds) && is_sorted(trees, region),
            TyKind::Closure(_, args) => is_sorted(trees, args.parent) && is_sorted(trees, args.sig) && is_sorted(trees, args.upvars),
            _ => true,
        }
    }

    fn bound_is_made_of<T: Trees + ?Sized>(trees: &T, bound: ExistentialPredicate) -> bool {
        match bound {
            ExistentialPredicate::Trait(of) => is_sorted(trees, of.args),
            ExistentialPredicate::Projection(of) => is_sorted(trees, of.args) && is_sorted(trees, of.term),
            ExistentialPredicate::AutoTrait(_) => true,
        }
    }

    fn clause_is_made_of<T: Trees + ?Sized>(trees: &T, clause: ClauseKind) -> bool {
        match clause {
            ClauseKind::Trait(of) => is_sorted(trees, of.trait_ref.args),
            ClauseKind::Projection(of) => is_sorted(trees, of.projection_term.args) && is_sorted(trees, of.term),
            ClauseKind::TypeOutlives(ty, region) => is_sorted(trees, ty) && is_sorted(trees, region),
            ClauseKind::RegionOutlives(longer, shorter) => is_sorted(trees, longer) && is_sorted(trees, shorter),
            ClauseKind::AliasRelate(left, right) => is_sorted(trees, left) && is_sorted(trees, right),
            ClauseKind::ConstEquate(left, right) => is_sorted(trees, left) && is_sorted(trees, right),
        }
    }
}
