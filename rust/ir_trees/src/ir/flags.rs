// Made of `crates/ir_trees/src/ir/flags.rt` by `bench/plain.py`: an edit of this file is lost.

//! The flags of a tree as a set.


use kit::{eprintln, format, prelude::*, print, println, vec};
use kit::bitflags::{Flag as Named, Flags, bitflag_items};

/// Which marks stand anywhere in a tree, inner binders included.
#[derive(Clone, Copy, Debug, PartialEq, Eq)]
pub struct TypeFlags(pub u16);

bitflag_items! {
    impl TypeFlags: u16 {
        const HAS_TY_INFER = 1;
        const HAS_RE_INFER = 2;
        const HAS_CT_INFER = 4;
        const HAS_TY_PLACEHOLDER = 8;
        const HAS_RE_PLACEHOLDER = 16;
        const HAS_CT_PLACEHOLDER = 32;
        const HAS_TY_BOUND = 64;
        const HAS_RE_BOUND = 128;
        const HAS_CT_BOUND = 256;
        const HAS_PARAM = 512;
        const HAS_ALIAS = 1024;
        const HAS_ERROR = 2048;
        const HAS_INFER = 7;
        const HAS_PLACEHOLDER = 56;
    }
}

impl Flags for TypeFlags {
    type Bits = u16;




    fn flags<'a>() -> &'a [Named<TypeFlags>] {
        TypeFlags::FLAGS
    }

    fn bits(&self) -> u16 {
        self.0
    }

    fn from_bits_retain(bits: u16) -> TypeFlags {
        TypeFlags(bits)
    }
}

/// The bit if the flag is set, else 0.
pub(crate) fn bit_if(is_set: bool, bit: u16) -> u16
{
    if is_set { bit } else { 0 }
}
