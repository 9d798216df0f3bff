//! Rows that ask the orphan check, and what is known of impls.

use crate::notation::answers::{Answer, Item, Items};
use crate::notation::refusals::Refusal;
use crate::notation::rows::Row;
use crate::notation::tables::value_of;
use crate::notation::typed::{args_at, ty_at};
use candidate_eval::coherence::{
    orphan_check_trait_ref, trait_ref_is_knowable, trait_ref_is_local_or_fundamental,
    trait_ref_is_plain, Conflict, InCrate, IsFirstInputType, NormalizeErr, OrphanCheckErr,
    OrphanCheckMode, OrphanStop, UncoveredTyParams,
};
use candidate_eval::eval::context::EvalCtxt;
use candidate_eval::eval::knowing::is_knowable;
use candidate_eval::eval::InferCtxtLike;
use candidate_ir::decl::context::Cx;
use candidate_ir::decl::make::{Build, Make};
use candidate_ir::ir::kinds::{Mutability, RegionKind, TraitRef, Ty, TyKind, UintTy};
use candidate_ir::ir::stop::Stop;
use candidate_ir::ir::trees::Trees;
use kit::alloc::Global;
use kit::prelude::*;

/// How a normaliser answers.
#[derive(Clone, Copy)]
enum Way {
    /// With its input.
    Plain,
    /// With `&u8` at `u8`.
    RefersToU8,
    /// It fails at `u8`.
    FailsAtU8,
    /// It stops at `u16`.
    StopsAtU16,
    /// With the first type that it holds, whatever it is asked.
    Holds,
    /// At `u16` with the first type that it holds, and from the second time on with the other one.
    Changes,
}

/// The words of normalisers.
const WAYS: [(&str, Way); 6] = [
    ("plain", Way::Plain),
    ("refers_to_u8", Way::RefersToU8),
    ("fails_at_u8", Way::FailsAtU8),
    ("stops_at_u16", Way::StopsAtU16),
    ("holds", Way::Holds),
    ("changes", Way::Changes),
];

/// A normaliser of a row: how it answers, the numbers of the types that it holds, and how often it was asked.
#[derive(Clone, Copy)]
struct Normalizer {
    way: Way,
    first: u32,
    other: u32,
    calls: usize,
}

/// For which crate a reference is checked.
const CRATES: [(&str, InCrate); 3] = [
    (
        "proper",
        InCrate::Local {
            mode: OrphanCheckMode::Proper,
        },
    ),
    (
        "compat",
        InCrate::Local {
            mode: OrphanCheckMode::Compat,
        },
    ),
    ("remote", InCrate::Remote),
];

fn reference<M: Make>(maker: &mut M, target: Ty) -> Result<Ty, Stop> {
    let region = maker.mk_region(RegionKind::Static)?;
    maker.mk_ty(TyKind::Ref(region, target, Mutability::Not))
}

/// The type of that number; if it is none, the normaliser fails.
fn held(cx: &Cx, number: u32) -> Result<Ty, NormalizeErr<u32>> {
    match ty_at(cx, number) {
        Ok(ty) => Ok(ty),
        Err(_) => Err(NormalizeErr::Failed(number)),
    }
}

/// What the normaliser answers, and that it was asked.
fn normal<M: Make>(
    maker: &mut M,
    ty: Ty,
    normalizer: &mut Normalizer,
) -> Result<Ty, NormalizeErr<u32>> {
    normalizer.calls = normalizer.calls.saturating_add(1);
    match (normalizer.way, maker.cx().kind(ty)) {
        (Way::RefersToU8, TyKind::Uint(UintTy::U8)) => match reference(maker, ty) {
            Ok(ty) => Ok(ty),
            Err(stop) => Err(NormalizeErr::Stop(stop)),
        },
        (Way::FailsAtU8, TyKind::Uint(UintTy::U8)) => Err(NormalizeErr::Failed(7)),
        (Way::StopsAtU16, TyKind::Uint(UintTy::U16)) => {
            Err(NormalizeErr::Stop(Stop::EvaluatorLimit))
        }
        (Way::Holds, _) => held(maker.cx(), normalizer.first),
        (Way::Changes, TyKind::Uint(UintTy::U16)) => {
            let number = normalizer.first;
            normalizer.first = normalizer.other;
            held(maker.cx(), number)
        }
        _ => Ok(ty),
    }
}

/// The types that aren't local, in order, and which of them is the first input.
fn not_local(alloc: Global, types: &[(Ty, IsFirstInputType)]) -> Result<Answer, Refusal> {
    let mut items = Items::new(alloc);
    items.push(Item::Word("not_local"));
    for (ty, is_first) in types {
        items.push(Item::Node(ty.0));
        if *is_first == IsFirstInputType::Yes {
            items.push(Item::Word("first"));
        }
    }
    items.row()
}

/// What no type covers, and the first local type, if there is one.
fn uncovered(alloc: Global, found: &UncoveredTyParams<Ty>) -> Result<Answer, Refusal> {
    let mut items = Items::new(alloc);
    items.push(Item::Word("uncovered"));
    items.push(Item::Node(found.uncovered.0));
    if let Some(local) = found.local_ty {
        items.push(Item::Word("before"));
        items.push(Item::Node(local.0));
    }
    items.row()
}

/// Why a check has no answer: its normaliser failed with a number, or it stopped.
fn stopped(alloc: Global, stop: OrphanStop<u32>) -> Result<Answer, Refusal> {
    match stop {
        OrphanStop::Normalize(number) => {
            let mut items = Items::new(alloc);
            items.push(Item::Word("failed"));
            items.push(Item::Count(number as usize));
            items.row()
        }
        OrphanStop::Stop(stop) => Err(Refusal::Stop(stop)),
    }
}

/// What the orphan check says of a reference.
fn checked(
    alloc: Global,
    outcome: Result<Result<(), OrphanCheckErr<Ty>>, OrphanStop<u32>>,
) -> Result<Answer, Refusal> {
    match outcome {
        Ok(Ok(())) => Ok(Answer::One(Item::Word("passes"))),
        Ok(Err(OrphanCheckErr::NonLocalInputType(types))) => not_local(alloc, types.as_slice()),
        Ok(Err(OrphanCheckErr::UncoveredTyParams(found))) => uncovered(alloc, &found),
        Err(stop) => stopped(alloc, stop),
    }
}

/// What is known of a reference's impls.
fn known(
    alloc: Global,
    outcome: Result<Result<(), Conflict>, OrphanStop<u32>>,
) -> Result<Answer, Refusal> {
    match outcome {
        Ok(Ok(())) => Ok(Answer::One(Item::Word("known"))),
        Ok(Err(Conflict::Upstream)) => Ok(Answer::One(Item::Word("upstream"))),
        Ok(Err(Conflict::Downstream)) => Ok(Answer::One(Item::Word("downstream"))),
        Err(stop) => stopped(alloc, stop),
    }
}

/// What the orphan check says of the reference, or where no crate is named, what is known of its impls; the normaliser counts how often
/// it is asked.
fn coherence<C: InferCtxtLike>(
    alloc: Global,
    infcx: &mut C,
    trait_ref: TraitRef,
    in_crate: Option<InCrate>,
    normalizer: &mut Normalizer,
) -> Result<Answer, Refusal> {
    if infcx.cx().has_param(trait_ref) || !infcx.cx().trait_ref_args_fit(trait_ref) {
        return Err(Refusal::Condition);
    }
    let normalize =
        |cx: &mut C, ty: Ty| -> Result<Ty, NormalizeErr<u32>> { normal(cx, ty, normalizer) };
    match in_crate {
        Some(in_crate) => {
            let outcome = orphan_check_trait_ref(alloc, infcx, trait_ref, in_crate, normalize);
            checked(alloc, outcome)
        }
        None => known(
            alloc,
            trait_ref_is_knowable(alloc, infcx, trait_ref, normalize),
        ),
    }
}

/// What is known of the reference's impls by an evaluator's own normal forms, where nothing is taken as given.
pub fn known_to<E: EvalCtxt>(
    alloc: Global,
    ecx: &mut E,
    reference: TraitRef,
) -> Result<Answer, Refusal> {
    let env = ecx.mk_param_env(&[])?;
    let args = args_at(ecx.cx(), reference.args.0)?;
    let def_id = reference.def_id;
    let outcome = match is_knowable(alloc, ecx, env, TraitRef { def_id, args }) {
        Ok(outcome) => Ok(outcome),
        Err(OrphanStop::Normalize(())) => Err(OrphanStop::Normalize(0)),
        Err(OrphanStop::Stop(stop)) => Err(OrphanStop::Stop(stop)),
    };
    known(alloc, outcome)
}

fn truth(value: bool) -> Answer {
    Answer::One(Item::Truth(value))
}

/// The reference that a row asks about, and the numbers of the types that its normaliser holds.
#[derive(Clone, Copy)]
pub struct Asked {
    pub reference: TraitRef,
    pub first: u32,
    pub other: u32,
}

/// What the row asks of a reference, if it is one of these rows.
pub fn answer<C: InferCtxtLike>(
    alloc: Global,
    infcx: &mut C,
    row: Row<'_>,
    asked: Asked,
) -> Result<Answer, Refusal> {
    let args = args_at(infcx.cx(), asked.reference.args.0)?;
    let def_id = asked.reference.def_id;
    let trait_ref = TraitRef { def_id, args };
    match row.verb {
        "is_plain" => return Ok(truth(trait_ref_is_plain(infcx.cx(), trait_ref))),
        "is_local_or_fundamental" => {
            return Ok(truth(trait_ref_is_local_or_fundamental(
                infcx.cx(),
                trait_ref,
            )));
        }
        _ => {}
    }
    let is_check = row.verb != "knowable";
    let (in_crate, word) = if is_check {
        let in_crate = value_of(&CRATES, row.first).ok_or(Refusal::Condition)?;
        (Some(in_crate), row.second)
    } else {
        (None, row.first)
    };
    let mut normalizer = Normalizer {
        way: value_of(&WAYS, word).ok_or(Refusal::Condition)?,
        first: asked.first,
        other: asked.other,
        calls: 0,
    };
    let answer = coherence(alloc, infcx, trait_ref, in_crate, &mut normalizer);
    if row.verb == "asks" {
        Ok(Answer::One(Item::Count(normalizer.calls)))
    } else {
        answer
    }
}
