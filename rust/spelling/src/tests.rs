// Made of `crates/spelling/src/tests.rt` by `bench/plain.py`: an edit of this file is lost.

//! What is spelled how.


use kit::{eprintln, format, prelude::*, print, println, vec};
use crate::Spelling;
use ir_builder::decl::DeclsBuilder;
use ir_context::decl::Cx;
use ir_context::decl::make::Build;
use ir_trees::decl::contents::{ImplId, ImplPolarity};
use ir_trees::decl::definition::{AssocKind, CrateId};
use ir_trees::decl::{AdtFlags, AdtShape, TraitFlags};
use ir_trees::ir::kinds::{
    AdtId, AliasTerm, AliasTy, AssocId, Binder, BoundVar, ClauseKind, ConstKind, FnSig, GenericArg,
    InferTy, Mutability, Placeholder, PredicatePolarity, ProjectionPredicate, RegionKind, TraitId,
    TraitPredicate, TraitRef, TyKind, UintTy, VarKind,
};
use ir_trees::ir::stop::Stop;
use kit::alloc::Global;

/// What is declared, by the numbers of definitions.
const NAMES: [&str; 4] = ["Vec", "Iterator", "Item", "From"];

/// The numbers of these.
#[derive(Clone, Copy, Debug)]
struct Declared {
    krate: CrateId,
    vec: AdtId,
    iterator: TraitId,
    item: AssocId,
    from: TraitId,
}

fn declare(builder: &mut DeclsBuilder) -> Option<Declared> {
    let krate = builder.add_crate().ok()?;
    builder.set_local(krate);
    let vec = builder
        .add_adt(krate, AdtShape::Struct, &[VarKind::Ty], AdtFlags::default())
        .ok()?;
    let iterator = builder.add_trait(krate, &[], TraitFlags::default()).ok()?;
    let item = builder.add_assoc(iterator, AssocKind::Type, false).ok()?;
    let from = builder
        .add_trait(krate, &[VarKind::Ty], TraitFlags::default())
        .ok()?;
    Some(Declared {
        krate,
        vec,
        iterator,
        item,
        from,
    })
}

/// Declares an impl of the trait for these arguments.
fn implement(
    builder: &mut DeclsBuilder,
    krate: CrateId,
    parameters: &[VarKind],
    of: TraitId,
    list: &[GenericArg],
    polarity: ImplPolarity,
) -> Result<ImplId, Stop>
{
    let args = builder.mk_args(list)?;
    let trait_ref = TraitRef { def_id: of, args };
    match builder.add_impl(krate, parameters, trait_ref, polarity) {
        Ok(of) => Ok(of),
        Err(_) => Err(Stop::Memory),
    }
}

/// `impl<T0> Iterator for Vec<T0> where T0: Iterator`.
fn of_vec(builder: &mut DeclsBuilder, declared: Declared) -> Result<ImplId, Stop> {
    let parameter = GenericArg::Ty(builder.mk_ty(TyKind::Param(0))?);
    let args = builder.mk_args(&[parameter])?;
    let vec = builder.mk_ty(TyKind::Adt(declared.vec, args))?;
    let iterator = declared.iterator;
    let vars = builder.mk_vars(&[])?;
    let trait_ref = TraitRef {
        def_id: iterator,
        args,
    };
    let value = ClauseKind::Trait(TraitPredicate {
        trait_ref,
        polarity: PredicatePolarity::Positive,
    });
    let clause = builder.mk_clause(Binder { vars, value })?;
    let of = implement(
        builder,
        declared.krate,
        &[VarKind::Ty],
        iterator,
        &[GenericArg::Ty(vec)],
        ImplPolarity::Positive,
    )?;
    match builder.push_impl_where(of, clause) {
        Ok(()) => Ok(of),
        Err(_) => Err(Stop::Memory),
    }
}

/// `impl<T0, const N1> !Iterator for [T0; N1]`.
fn of_array(builder: &mut DeclsBuilder, declared: Declared) -> Result<ImplId, Stop> {
    let element = builder.mk_ty(TyKind::Param(0))?;
    let length = builder.mk_const(ConstKind::Param(1))?;
    let array = builder.mk_ty(TyKind::Array(element, length))?;
    let iterator = declared.iterator;
    implement(
        builder,
        declared.krate,
        &[VarKind::Ty, VarKind::Const],
        iterator,
        &[GenericArg::Ty(array)],
        ImplPolarity::Negative,
    )
}

/// `impl<T0> From<<T0 as Iterator>::Item> for (T0,)`.
fn of_tuple(builder: &mut DeclsBuilder, declared: Declared) -> Result<ImplId, Stop> {
    let parameter = GenericArg::Ty(builder.mk_ty(TyKind::Param(0))?);
    let args = builder.mk_args(&[parameter])?;
    let tuple = builder.mk_ty(TyKind::Tuple(args))?;
    let item = TyKind::Alias(AliasTy::projection(declared.item, args));
    let item = builder.mk_ty(item)?;
    let from = declared.from;
    let list = [GenericArg::Ty(tuple), GenericArg::Ty(item)];
    implement(
        builder,
        declared.krate,
        &[VarKind::Ty],
        from,
        &list,
        ImplPolarity::Positive,
    )
}

/// `impl Iterator for for<'r0_0> unsafe fn(&'r0_0 mut u8, ..) -> !`.
fn of_fn(builder: &mut DeclsBuilder, declared: Declared) -> Result<ImplId, Stop> {
    let bound = RegionKind::Bound(BoundVar { depth: 0, index: 0 });
    let region = builder.mk_region(bound)?;
    let byte = builder.mk_ty(TyKind::Uint(UintTy::U8))?;
    let input = TyKind::Ref(region, byte, Mutability::Mut);
    let input = GenericArg::Ty(builder.mk_ty(input)?);
    let inputs = builder.mk_args(&[input])?;
    let output = builder.mk_ty(TyKind::Never)?;
    let value = FnSig {
        inputs,
        output,
        safe: false,
        rust_abi: true,
        variadic: true,
    };
    let vars = builder.mk_vars(&[VarKind::Region])?;
    let pointer = builder.mk_ty(TyKind::FnPtr(Binder { vars, value }))?;
    let iterator = declared.iterator;
    implement(
        builder,
        declared.krate,
        &[],
        iterator,
        &[GenericArg::Ty(pointer)],
        ImplPolarity::Positive,
    )
}

/// All of them, each with how it is spelled.
fn impls(alloc: Global) -> Option<(Cx, [(ImplId, &'static str); 4])> {
    let mut builder = DeclsBuilder::new(alloc);
    let declared = declare(&mut builder)?;
    let rows = [
        (
            of_vec(&mut builder, declared).ok()?,
            "impl<T0> Iterator for Vec<T0> where T0: Iterator",
        ),
        (
            of_array(&mut builder, declared).ok()?,
            "impl<T0, const N1> !Iterator for [T0; N1]",
        ),
        (
            of_tuple(&mut builder, declared).ok()?,
            "impl<T0> From<<T0 as Iterator>::Item> for (T0,)",
        ),
        (
            of_fn(&mut builder, declared).ok()?,
            "impl Iterator for for<'r0_0> unsafe fn(&'r0_0 mut u8, ..) -> !",
        ),
    ];
    Some((Cx::new(builder.finish().ok()?), rows))
}

#[test]
fn headers_are_spelled_as_rust_does() {
    let rt = HostRuntime;
    let alloc = rt.alloc();
    let (cx, rows) = impls(alloc).expect("declarations");
    let names = NAMES;
    let spelling = Spelling::new(&cx, &names);
    for (of, want) in rows {
        let mut text = String::new(alloc);
        let is_there = spelling
            .add_impl(alloc, of, &mut text)
            .expect("memory");
        assert!( is_there, "an impl");
        assert_eq!( text.as_str(), want, "a header");
    }
}
