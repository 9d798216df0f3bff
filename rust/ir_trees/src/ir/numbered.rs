// Made of `crates/ir_trees/src/ir/numbered.rt` by `bench/plain.py`: an edit of this file is lost.

//! Numbers whose type says what stands there.


use kit::{eprintln, format, prelude::*, print, println, vec};
use crate::ir::kinds::{Args, Clause, Const, GenericArg, ParamEnv, Region, Sig, Ty};

/// A number of a context whose type says what stands there.
pub trait Numbered: Copy {
    // The number.

    // What stands there.

    /// The number that it is in its context.
    fn number(self) -> u32
        ;

    /// That number, for something of the same kind.
    fn with_number(self, number: u32) -> Self
        ;

    // It is a kind of something.

    // It is no single bound of a `dyn` type.
}

impl Numbered for Ty {


    fn number(self) -> u32 {
        self.0
    }

    fn with_number(self, number: u32) -> Ty {
        Ty(number)
    }


}

impl Numbered for Const {


    fn number(self) -> u32 {
        self.0
    }

    fn with_number(self, number: u32) -> Const {
        Const(number)
    }


}

impl Numbered for Region {


    fn number(self) -> u32 {
        self.0
    }

    fn with_number(self, number: u32) -> Region {
        Region(number)
    }


}

impl Numbered for Args {


    fn number(self) -> u32 {
        self.0
    }

    fn with_number(self, number: u32) -> Args {
        Args(number)
    }


}

impl Numbered for Clause {


    fn number(self) -> u32 {
        self.0
    }

    fn with_number(self, number: u32) -> Clause {
        Clause(number)
    }


}

impl Numbered for Sig {


    fn number(self) -> u32 {
        self.0
    }

    fn with_number(self, number: u32) -> Sig {
        Sig(number)
    }


}

impl Numbered for ParamEnv {


    fn number(self) -> u32 {
        self.0
    }

    fn with_number(self, number: u32) -> ParamEnv {
        ParamEnv(number)
    }


}

impl Numbered for GenericArg {


    fn number(self) -> u32 {
        match self {
            GenericArg::Ty(ty) => ty.0,
            GenericArg::Const(constant) => constant.0,
            GenericArg::Region(region) => region.0,
        }
    }

    fn with_number(self, number: u32) -> GenericArg {
        match self {
            GenericArg::Ty(_) => GenericArg::Ty(Ty(number)),
            GenericArg::Const(_) => GenericArg::Const(Const(number)),
            GenericArg::Region(_) => GenericArg::Region(Region(number)),
        }
    }


}
