//! A number of another sort, or of another builder, is told in a debug build by the name of the call that was given it, and by `finish` where it was declared.
#![cfg(debug_assertions)]

use candidate_eval::coherence::trait_ref_is_plain;
use candidate_ir::decl::builder::DeclsBuilder;
use candidate_ir::decl::contents::ImplPolarity;
use candidate_ir::decl::context::Cx;
use candidate_ir::decl::definition::TraitFlags;
use candidate_ir::decl::make::Build;
use candidate_ir::ir::kinds::{Args, Clause, TraitRef, Ty, TyKind};
use kit::alloc::Global;

#[test]
#[should_panic(expected = "candidate_eval::coherence::trait_ref_is_plain: `trait_ref.args` is Args(0), no number of its sort in this context")]
fn a_number_of_another_sort_is_told() {
    let mut builder = DeclsBuilder::new(Global);
    let local = builder.add_crate().unwrap();
    builder.set_local(local);
    let def_id = builder.add_trait(local, &[], TraitFlags::default()).unwrap();
    let mut cx = Cx::new(builder.finish().unwrap());
    let ty = cx.mk_ty(TyKind::Bool).unwrap();
    trait_ref_is_plain(&cx, TraitRef { def_id, args: Args(ty.0) });
}

#[test]
#[should_panic(expected = "ir_trees::ir::nodes::Nodes::make: Ty(Slice(Ty(77))) has a number that is none of its sort in this context")]
fn a_number_of_another_builder_is_told() {
    let mut builder = DeclsBuilder::new(Global);
    let _ = builder.mk_ty(TyKind::Slice(Ty(77)));
}

#[test]
fn a_declaration_with_a_number_of_another_builder_is_a_fault() {
    let mut builder = DeclsBuilder::new(Global);
    let local = builder.add_crate().unwrap();
    builder.set_local(local);
    let def_id = builder.add_trait(local, &[], TraitFlags::default()).unwrap();
    let of = builder.add_impl(local, &[], TraitRef { def_id, args: Args(77) }, ImplPolarity::Positive).unwrap();
    builder.push_impl_where(of, Clause(99)).unwrap();
    let error = builder.finish().unwrap_err();
    assert_eq!(error.to_string(), "a number is named that was never given");
}
