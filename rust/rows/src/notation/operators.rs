//! Words that make one of what the words before them left.

use crate::notation::parts::Part;
use crate::notation::values::{Last, Value};
use candidate_ir::ir::kinds::{
    AliasTerm, Args, AssocId, Binder, ClauseKind, ClosureArgs, ClosureId, ClosureKind, ClosureSig,
    Const, ExistentialPredicate, ExistentialProjection, ExistentialTraitRef, FnSig, Mutability,
    Pattern, PredicatePolarity, Preds, ProjectionPredicate, Region, Sig, TraitId, TraitPredicate,
    TraitRef, Ty, TyKind, Vars,
};
use kit::prelude::*;

/// The type that the word makes of the last values, and how many of them it takes.
fn type_over(word: &str, last: Last) -> Option<(usize, TyKind)> {
    let (first, second, third) = (last[0].node(), last[1].node(), last[2].node());
    let (count, kind) = match (word, last[0]) {
        ("slice", _) => (1, TyKind::Slice(Ty(first))),
        ("not_null", _) => (1, TyKind::Pat(Ty(first), Pattern::NotNull)),
        ("ptr", _) => (1, TyKind::RawPtr(Ty(first), Mutability::Not)),
        ("ptr_mut", _) => (1, TyKind::RawPtr(Ty(first), Mutability::Mut)),
        ("tuple", _) => (1, TyKind::Tuple(Args(first))),
        ("fn_ptr", Value::Signature(sig)) => (1, TyKind::FnPtr(sig)),
        ("array", _) => (2, TyKind::Array(Ty(second), Const(first))),
        ("ref", _) => (2, TyKind::Ref(Region(first), Ty(second), Mutability::Not)),
        ("ref_mut", _) => (2, TyKind::Ref(Region(first), Ty(second), Mutability::Mut)),
        ("dyn", _) => (2, TyKind::Dynamic(Preds(second), Region(first))),
        ("unsafe_binder", _) => {
            let (vars, value) = (Vars(second), Ty(first));
            (2, TyKind::UnsafeBinder(Binder { vars, value }))
        }
        ("range", _) => {
            let pattern = Pattern::Range(Const(second), Const(first));
            (3, TyKind::Pat(Ty(third), pattern))
        }
        _ => return None,
    };
    Some((count, kind))
}

/// The clause that the word makes of the last values, and how many of them it takes.
fn clause_over(word: &str, last: Last) -> Option<(usize, Binder<ClauseKind>)> {
    let (first, second, third) = (last[0].node(), last[1].node(), last[2].node());
    let (count, vars, value) = match word {
        "holds" | "fails" => {
            let polarity = match word {
                "holds" => PredicatePolarity::Positive,
                _ => PredicatePolarity::Negative,
            };
            let trait_ref = last[0].reference();
            let predicate = TraitPredicate {
                trait_ref,
                polarity,
            };
            (2, second, ClauseKind::Trait(predicate))
        }
        "outlives" => {
            let value = ClauseKind::TypeOutlives(Ty(second), Region(first));
            (3, third, value)
        }
        "region_outlives" => {
            let value = ClauseKind::RegionOutlives(Region(second), Region(first));
            (3, third, value)
        }
        "relate" => {
            let value = ClauseKind::AliasRelate(Ty(second), Ty(first));
            (3, third, value)
        }
        "equate_const" => {
            let value = ClauseKind::ConstEquate(Const(second), Const(first));
            (3, third, value)
        }
        "projected" => {
            let (def_id, args, term) = (AssocId(first), Args(third), Ty(second));
            let projection_term = AliasTerm { def_id, args };
            let predicate = ProjectionPredicate {
                projection_term,
                term,
            };
            (4, last[3].node(), ClauseKind::Projection(predicate))
        }
        _ => return None,
    };
    let vars = Vars(vars);
    Some((count, Binder { vars, value }))
}

/// What the word makes of the last values, and how many of them it takes.
pub(crate) fn node_over(word: &str, last: Last) -> Option<(usize, Part)> {
    if let Some((count, kind)) = type_over(word, last) {
        return Some((count, Part::Ty(kind)));
    }
    if let Some((count, clause)) = clause_over(word, last) {
        return Some((count, Part::Clause(clause)));
    }
    let (first, second, third) = (last[0].node(), last[1].node(), last[2].node());
    let kind = match word {
        "closure" => None,
        "fn_closure" => Some(ClosureKind::Fn),
        "fn_mut_closure" => Some(ClosureKind::FnMut),
        "fn_once_closure" => Some(ClosureKind::FnOnce),
        "sig" => {
            let (inputs, output) = (Ty(second), Ty(first));
            let (vars, value) = (Vars(third), ClosureSig { inputs, output });
            return Some((3, Part::Sig(Binder { vars, value })));
        }
        _ => return None,
    };
    let closure = ClosureArgs {
        parent: Args(last[3].node()),
        kind,
        sig: Sig(third),
        upvars: Ty(second),
    };
    Some((4, Part::Ty(TyKind::Closure(ClosureId(first), closure))))
}

/// What the word makes that is no node, and how many values it takes: a bound of a `dyn` type or the signature of a function, safe
/// or not, of the Rust ABI or not, variadic or not.
pub(crate) fn value_over(word: &str, last: Last) -> Option<(usize, Value)> {
    let (first, second, third) = (last[0].node(), last[1].node(), last[2].node());
    let (safe, rust_abi, variadic) = match word {
        "bound" => {
            let TraitRef { def_id, args } = last[0].reference();
            let value = ExistentialPredicate::Trait(ExistentialTraitRef { def_id, args });
            let vars = Vars(second);
            return Some((2, Value::Bound(Binder { vars, value })));
        }
        "auto" => {
            let value = ExistentialPredicate::AutoTrait(TraitId(first));
            let vars = Vars(second);
            return Some((2, Value::Bound(Binder { vars, value })));
        }
        "projects" => {
            let (def_id, args, term) = (AssocId(first), Args(third), Ty(second));
            let projection = ExistentialProjection { def_id, args, term };
            let value = ExistentialPredicate::Projection(projection);
            let vars = Vars(last[3].node());
            return Some((4, Value::Bound(Binder { vars, value })));
        }
        "signature" => (true, true, false),
        "unsafe_signature" => (false, true, false),
        "foreign_signature" => (true, false, false),
        "variadic_signature" => (true, true, true),
        _ => return None,
    };
    let value = FnSig {
        inputs: Args(second),
        output: Ty(first),
        safe,
        rust_abi,
        variadic,
    };
    let vars = Vars(third);
    Some((3, Value::Signature(Binder { vars, value })))
}
