//! May this crate write a header, and why not? `impl Show for u8`, `impl Show for Local` and `impl<T> Show for Box<T>`, where `Show` and `Box` are another
//! crate's.

use rilgomut::{
    AdtFlags, AdtShape, Build, Cx, DeclsBuilder, Global, InCrate, InferTy, IsFirstInputType, Making, NormalizeErr, OrphanCheckErr, OrphanCheckMode, Shown,
    TraitFlags, Ty, TyKind, UintTy, VarKind, orphan_check_trait_ref,
};
use std::convert::Infallible;
use std::error::Error;

/// Why a header breaks the rule, in words.
fn reason(shown: Shown, refusal: &OrphanCheckErr<Ty>) -> String {
    match refusal {
        OrphanCheckErr::NonLocalInputType(types) => {
            let types: Vec<String> = types.iter().map(|(ty, is_first)| told(shown, *ty, *is_first)).collect();
            format!("no type of this crate stands there, but {}", types.join(", "))
        }
        OrphanCheckErr::UncoveredTyParams(found) => match found.local_ty {
            Some(local) => format!("{} stands alone before {}, the first type of this crate", shown.ty(found.uncovered), shown.ty(local)),
            None => format!("{} stands alone, and no type is this crate's", shown.ty(found.uncovered)),
        },
    }
}

fn told(shown: Shown, ty: Ty, is_first: IsFirstInputType) -> String {
    let place = match is_first {
        IsFirstInputType::Yes => "the self type",
        IsFirstInputType::No => "an argument",
    };
    format!("{} ({place})", shown.ty(ty))
}

fn main() -> Result<(), Box<dyn Error>> {
    let mut builder = DeclsBuilder::new(Global);
    let (this, other) = (builder.add_crate()?, builder.add_crate()?);
    builder.set_local(this);
    let show = builder.add_trait(other, &[], TraitFlags::default())?;
    let fundamental = AdtFlags { fundamental: true, ..AdtFlags::default() };
    let boxed = builder.add_adt(other, AdtShape::Struct, &[VarKind::Ty], fundamental)?;
    let local = builder.add_adt(this, AdtShape::Struct, &[], AdtFlags::default())?;
    let names = ["Show", "Box", "Local"];

    let mut cx = Cx::new(builder.finish()?);
    // A parameter of the impl is a variable: the check asks of each type that may stand there.
    let parameter = cx.mk_ty(TyKind::Infer(InferTy::TyVar(0)))?;
    let types = [cx.mk_ty(TyKind::Uint(UintTy::U8))?, cx.mk_adt(local, &[])?, cx.mk_adt(boxed, &[parameter])?];
    for ty in types {
        let header = cx.mk_trait_ref(show, &[ty])?;
        let in_crate = InCrate::Local { mode: OrphanCheckMode::Proper };
        let checked = orphan_check_trait_ref(Global, &mut cx, header, in_crate, |_, ty| Ok::<_, NormalizeErr<Infallible>>(ty))?;
        let shown = Shown::new(&cx, &names);
        match checked {
            Ok(()) => println!("{}: this crate may write it", shown.trait_ref(header)),
            Err(refusal) => println!("{}: {}", shown.trait_ref(header), reason(shown, &refusal)),
        }
    }
    Ok(())
}
