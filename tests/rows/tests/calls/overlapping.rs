//! Whether two impls overlap, asked of the evaluator of rounds.

use crate::asserts::Failures;
use candidate_eval::eval::mode::TypingMode;
use candidate_ir::decl::contents::ImplId;
use candidate_ir::decl::definition::CrateId;
use candidate_ir::decl::make::{Build, Make};
use candidate_ir::decl::{Cx, DeclFault, DeclsBuilder, ImplPolarity, TraitFlags};
use candidate_ir::ir::kinds::{
    Binder, Clause, ClauseKind, GenericArg, InferTy, PredicatePolarity, TraitId, TraitPredicate,
    TraitRef, Ty, TyKind, UintTy, VarKind,
};
use candidate_ir::ir::stop::Stop;
use candidate_rounds::rounds::effort::Effort;
use candidate_rounds::rounds::Rounds;
use kit::alloc::Global;
use kit::prelude::*;
use overlaps::allowance::Allowance;
use overlaps::instance::CommonInstance;
use overlaps::overlap::{impls_overlap, Overlap, WhereClause};

/// The trait for a type of that kind.
fn reference(
    builder: &mut DeclsBuilder,
    def_id: TraitId,
    kind: TyKind,
) -> Result<TraitRef, DeclFault> {
    let Ok(ty) = builder.mk_ty(kind) else {
        return Err(DeclFault::Memory);
    };
    let Ok(args) = builder.mk_args(&[GenericArg::Ty(ty)]) else {
        return Err(DeclFault::Memory);
    };
    Ok(TraitRef { def_id, args })
}

/// That the trait holds of the first parameter.
fn clause(builder: &mut DeclsBuilder, def_id: TraitId) -> Result<Clause, DeclFault> {
    let trait_ref = reference(builder, def_id, TyKind::Param(0))?;
    let polarity = PredicatePolarity::Positive;
    let value = ClauseKind::Trait(TraitPredicate {
        trait_ref,
        polarity,
    });
    let Ok(vars) = builder.mk_vars(&[]) else {
        return Err(DeclFault::Memory);
    };
    match builder.mk_clause(Binder { vars, value }) {
        Ok(clause) => Ok(clause),
        Err(_) => Err(DeclFault::Memory),
    }
}

/// Declares that the trait holds of a type of that kind, or what else the polarity says.
pub fn implement(
    builder: &mut DeclsBuilder,
    local: CrateId,
    id: TraitId,
    parameters: &[VarKind],
    kind: TyKind,
    polarity: ImplPolarity,
) -> Result<ImplId, DeclFault> {
    let of = reference(builder, id, kind)?;
    builder.add_impl(local, parameters, of, polarity)
}

/// The impls of both traits.
fn declare_impls(
    builder: &mut DeclsBuilder,
    local: CrateId,
    bound: TraitId,
    id: TraitId,
) -> Result<(), DeclFault> {
    let (byte, each) = (TyKind::Uint(UintTy::U8), TyKind::Param(0));
    let (positive, kinds) = (ImplPolarity::Positive, [VarKind::Ty]);
    implement(builder, local, bound, &[], byte, positive)?;
    implement(builder, local, id, &[], TyKind::Bool, positive)?;
    let for_byte = implement(builder, local, id, &[], byte, positive)?;
    let for_each = implement(builder, local, id, &kinds, each, positive)?;
    builder.specializes(for_byte, for_each)?;
    let with_clause = implement(builder, local, id, &kinds, each, positive)?;
    let clause = clause(builder, bound)?;
    builder.push_impl_where(with_clause, clause)?;
    let reservation = ImplPolarity::Reservation;
    implement(builder, local, id, &[], TyKind::Bool, reservation)?;
    Ok(())
}

/// The traits with their impls. The builder is the caller's, so that none has to be let go where a call fails.
fn declare_all(builder: &mut DeclsBuilder) -> Result<(), DeclFault> {
    let local = builder.add_crate()?;
    builder.set_local(local);
    let bound = builder.add_trait(local, &[], TraitFlags::default())?;
    let id = builder.add_trait(local, &[], TraitFlags::default())?;
    declare_impls(builder, local, bound, id)
}

/// Two local traits, the first of which holds of `u8` alone; and impls of the second, for `bool`, for `u8`, for each type, which the one for
/// `u8` specialises, and for each of which the first holds; and last a reservation for `bool`.
pub fn declare(alloc: Global) -> Result<Cx, DeclFault> {
    let mut builder = DeclsBuilder::new(alloc);
    declare_all(&mut builder)?;
    Ok(Cx::new(builder.finish()?))
}

/// What an impl is for.
#[derive(Clone, Copy)]
enum Of {
    Bool,
    Byte,
    Each,
}

/// What is wanted: that answer, or an instance of both impls, which is certain or isn't.
#[derive(Clone, Copy)]
enum Want {
    Answer(Overlap),
    Instance(Of, bool),
}

/// That the trait for the type is an instance of both.
fn instance(
    rounds: &mut Rounds,
    def_id: TraitId,
    ty: Ty,
    is_certain: bool,
) -> Result<Overlap, Stop> {
    let args = rounds.mk_args(&[GenericArg::Ty(ty)])?;
    let trait_ref = TraitRef { def_id, args };
    Ok(Overlap::May(CommonInstance {
        trait_ref,
        is_certain,
        leaks: false,
    }))
}

/// The answer that is wanted, of impls of that trait.
fn wanted(rounds: &mut Rounds, def_id: TraitId, want: Want) -> Result<Overlap, Stop> {
    match want {
        Want::Answer(overlap) => Ok(overlap),
        Want::Instance(Of::Bool, is_certain) => {
            let ty = rounds.mk_ty(TyKind::Bool)?;
            instance(rounds, def_id, ty, is_certain)
        }
        Want::Instance(Of::Byte, is_certain) => {
            let ty = rounds.mk_ty(TyKind::Uint(UintTy::U8))?;
            instance(rounds, def_id, ty, is_certain)
        }
        Want::Instance(Of::Each, is_certain) => {
            let ty = rounds.mk_ty(TyKind::Infer(InferTy::TyVar(0)))?;
            instance(rounds, def_id, ty, is_certain)
        }
    }
}

/// The trait of that impl.
fn trait_of(rt: &HostRuntime, cx: &Cx, of: ImplId) -> TraitId {
    let declared = cx.impl_contents(of).expect("an impl");
    declared.trait_ref.def_id
}

/// Whether the impls overlap, and what is wanted of impls of that trait. The evaluator is the caller's, so that none has to be let go where
/// a call fails.
fn overlap_and_wanted(
    alloc: Global,
    rounds: &mut Rounds,
    first: ImplId,
    second: ImplId,
    def_id: TraitId,
    want: Want,
) -> Result<(Overlap, Overlap), Stop> {
    let overlap = impls_overlap(alloc, rounds, first, second, Effort::Rounds(4))?;
    let wanted = wanted(rounds, def_id, want)?;
    Ok((overlap, wanted))
}

/// Whether the impls of these numbers overlap in coherence, and what is wanted.
fn overlap_of(
    rt: &HostRuntime,
    alloc: Global,
    first: u32,
    second: u32,
    want: Want,
) -> Result<(Overlap, Overlap), Stop> {
    let cx = declare(alloc).expect("declarations");
    let mode = TypingMode::Coherence;
    let mut rounds = Rounds::new(alloc, cx, mode, Vec::new(alloc), Vec::new(alloc));
    let def_id = trait_of(rt, rounds.cx(), ImplId(first.min(second)));
    overlap_and_wanted(
        alloc,
        &mut rounds,
        ImplId(first),
        ImplId(second),
        def_id,
        want,
    )
}

/// The first where clause of the impl of that number.
fn of_clause(of: u32) -> Want {
    let of = ImplId(of);
    Want::Answer(Overlap::DisjointClause(WhereClause { of, number: 0 }))
}

/// An overlap that is allowed.
fn allowed(reason: Allowance) -> Want {
    Want::Answer(Overlap::Allowed(reason))
}

/// Compares what the impls of these numbers come to with what is wanted.
fn compare(
    rt: &HostRuntime,
    alloc: Global,
    failures: &mut Failures,
    (first, second): (u32, u32),
    want: Want,
    label: &str,
) {
    match overlap_of(rt, alloc, first, second, want) {
        Ok((overlap, want)) => failures.compare(rt, &overlap, &want, label),
        Err(stop) => failures.compare(rt, &Some(stop), &None, label),
    }
}

#[test]
fn impls_overlap_or_do_not() {
    let rt = HostRuntime;
    let no_common = Want::Answer(Overlap::NoCommonTrait);
    let mut failures = Failures::new();
    for (first, second, want, label) in [
        (0, 1, no_common, "two traits"),
        (1, 6, no_common, "what is no impl"),
        (1, 2, Want::Answer(Overlap::DisjointHeaders), "two types"),
        (1, 3, Want::Instance(Of::Bool, true), "a type, and each"),
        (1, 4, of_clause(4), "a type without the first trait"),
        (2, 4, Want::Instance(Of::Byte, true), "a type that has it"),
        (
            3,
            4,
            Want::Instance(Of::Each, false),
            "each, and each that has it",
        ),
        (2, 2, Want::Instance(Of::Byte, true), "an impl and itself"),
        (
            2,
            3,
            allowed(Allowance::Specializes(ImplId(2))),
            "an impl that specialises another",
        ),
        (1, 5, allowed(Allowance::Reservation), "a reservation"),
    ] {
        compare(&rt, rt.alloc(), &mut failures, (first, second), want, label);
        compare(&rt, rt.alloc(), &mut failures, (second, first), want, label);
    }
    failures.end(&rt);
}
