// Made of `crates/candidate_eval/src/eval/certainty.rt` by `bench/plain.py`: an edit of this file is lost.

//! How sure an answer is.


use kit::{eprintln, format, prelude::*, print, println, vec};
/// How sure an answer is: what was asked holds, or it may hold.
#[derive(Clone, Copy, Debug, PartialEq, Eq)]
pub enum Certainty {
    Yes,
    Maybe(MaybeInfo),
}

/// Why it isn't sure.
#[derive(Clone, Copy, Debug, PartialEq, Eq)]
pub struct MaybeInfo {
    pub cause: MaybeCause,
    pub opaque_types_jank: OpaqueTypesJank,
}

/// What kept an answer from being sure.
#[derive(Clone, Copy, Debug, PartialEq, Eq)]
pub enum MaybeCause {
    /// Too little is known: there may be several ways, or none.
    Ambiguity,
    /// A limit was reached.
    Overflow {
        /// Whether a higher limit may help.
        suggest_increasing_limit: bool,
        /// Whether what was found so far is kept.
        keep_constraints: bool,
    },
}

/// What is to be reported where the self type is a hidden type that nothing constrains.
#[derive(Clone, Copy, Debug, PartialEq, Eq)]
pub enum OpaqueTypesJank {
    AllGood,
    /// An error, if the self type turns out to be rigid.
    ErrorIfRigidSelfTy,
}

impl MaybeCause {
    /// The cause of two: an overflow, if either is one.
    pub fn and(self, other: MaybeCause) -> MaybeCause
    {
        match (self, other) {
            (MaybeCause::Ambiguity, cause) => cause,
            (cause, MaybeCause::Ambiguity) => cause,
            (
                MaybeCause::Overflow {
                    suggest_increasing_limit: suggest,
                    keep_constraints: keep,
                },
                MaybeCause::Overflow {
                    suggest_increasing_limit,
                    keep_constraints,
                },
            ) => MaybeCause::Overflow {
                suggest_increasing_limit: suggest || suggest_increasing_limit,
                keep_constraints: keep && keep_constraints,
            },
        }
    }
}

impl OpaqueTypesJank {
    /// An error, if either is one.
    pub fn and(self, other: OpaqueTypesJank) -> OpaqueTypesJank
    {
        match self {
            OpaqueTypesJank::AllGood => other,
            OpaqueTypesJank::ErrorIfRigidSelfTy => self,
        }
    }
}

impl MaybeInfo {
    /// Too little is known, and there is nothing to report.
    pub const AMBIGUOUS: MaybeInfo = MaybeInfo {
        cause: MaybeCause::Ambiguity,
        opaque_types_jank: OpaqueTypesJank::AllGood,
    };

    /// Both parts of two.
    pub fn and(self, other: MaybeInfo) -> MaybeInfo
    {
        MaybeInfo {
            cause: self.cause.and(other.cause),
            opaque_types_jank: self.opaque_types_jank.and(other.opaque_types_jank),
        }
    }
}

impl Certainty {
    /// Too little is known, and there is nothing to report.
    pub const AMBIGUOUS: Certainty = Certainty::Maybe(MaybeInfo::AMBIGUOUS);

    /// How sure two answers together are: as sure as the one that is less so.
    pub fn and(self, other: Certainty) -> Certainty
    {
        match (self, other) {
            (Certainty::Yes, certainty) => certainty,
            (certainty, Certainty::Yes) => certainty,
            (Certainty::Maybe(left), Certainty::Maybe(right)) => Certainty::Maybe(left.and(right)),
        }
    }
}
