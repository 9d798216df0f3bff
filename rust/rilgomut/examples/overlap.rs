//! Two impls of a trait `Show` of another crate: one for `bool`, and one for each type that a second trait `Known` holds of.
//! `Known` is the local crate's and holds of `u8` alone, so the two are disjoint. Without the bound they overlap.

use rilgomut::{
    Build, CommonInstance, Cx, DeclsBuilder, Effort, Global, ImplId, ImplPolarity, Make, Making, Overlap, Rounds, Shown, TraitFlags, TyKind, TypingMode,
    UintTy, VarKind, impls_overlap,
};
use std::error::Error;

/// The declarations, with the two impls; the second one has its bound, or none.
fn declare(bounded: bool) -> Result<(Cx, ImplId, ImplId), Box<dyn Error>> {
    let mut builder = DeclsBuilder::new(Global);
    let (local, other) = (builder.add_crate()?, builder.add_crate()?);
    builder.set_local(local);
    let known = builder.add_trait(local, &[], TraitFlags::default())?;
    let show = builder.add_trait(other, &[], TraitFlags::default())?;
    let [byte, truth, parameter] = [TyKind::Uint(UintTy::U8), TyKind::Bool, TyKind::Param(0)].map(|kind| builder.mk_ty(kind));
    let (parameter, positive) = (parameter?, ImplPolarity::Positive);
    let header = builder.mk_trait_ref(known, &[byte?])?;
    builder.add_impl(local, &[], header, positive)?;
    let header = builder.mk_trait_ref(show, &[truth?])?;
    let first = builder.add_impl(local, &[], header, positive)?;
    let header = builder.mk_trait_ref(show, &[parameter])?;
    let second = builder.add_impl(local, &[VarKind::Ty], header, positive)?;
    if bounded {
        let bound = builder.mk_trait_ref(known, &[parameter])?;
        let bound = builder.mk_trait_clause(bound)?;
        builder.push_impl_where(second, bound)?;
    }
    Ok((Cx::new(builder.finish()?), first, second))
}

/// The answer in words.
fn told(overlap: Overlap, shown: Shown) -> String {
    match overlap {
        Overlap::DisjointClause(clause) => format!("no: `{}` of `{}` is refused", shown.where_clause(clause), shown.header(clause.of)),
        Overlap::May(CommonInstance { trait_ref, is_certain: true, .. }) => format!("yes, at `{}`", shown.trait_ref(trait_ref)),
        Overlap::May(instance) => format!("perhaps, at `{}`", shown.trait_ref(instance.trait_ref)),
        other => format!("{other:?}"),
    }
}

fn main() -> Result<(), Box<dyn Error>> {
    for bounded in [true, false] {
        let (cx, first, second) = declare(bounded)?;
        let mut rounds = Rounds::with_open_aliases(Global, cx, TypingMode::Coherence, vec![].into(), vec![].into());
        let overlap = impls_overlap(Global, &mut rounds, first, second, Effort::AsNeeded)?;
        let shown = Shown::new(rounds.cx(), &["Known", "Show"]);
        println!("`{}` and `{}`: {}", shown.header(first), shown.header(second), told(overlap, shown));
    }
    Ok(())
}
