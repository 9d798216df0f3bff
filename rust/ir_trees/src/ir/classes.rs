// Made of `crates/ir_trees/src/ir/classes.rt` by `bench/plain.py`: an edit of this file is lost.

//! What a type may be equal to in impl headers, by its head.


use kit::{eprintln, format, prelude::*, print, println, vec};
use crate::ir::heads::{Head, VariableSort};
use crate::ir::unify::RightSide;

/// What an impl is listed under, by the type that it is for.
#[derive(Clone, Copy, PartialEq, Eq, Hash, Debug)]
pub enum ImplClass {
    /// A type with the head.
    Of(Head),
    /// An integer type.
    Integer,
    /// A floating-point type.
    Float,
    /// A type that may be equal to types with several heads.
    Open,
}

impl Head {
    /// Whether a header's type with the head may be equal to types with several heads.
    fn is_open(self) -> bool
    {
        self.meets_any_on_right(RightSide::Header)
            || (self.is_variable_of(VariableSort::Integer)
                || self.is_variable_of(VariableSort::Floating))
    }

    /// What every impl for a type with the head is listed under.
    pub fn class(self) -> ImplClass
    {
        if self.is_open() {
            ImplClass::Open
        } else {
            ImplClass::Of(self)
        }
    }

    /// What an impl for a type with the head is listed under besides, if that is one of numbers.
    pub(crate) fn number_class(self) -> Option<ImplClass>
    {
        if self.is_open() {
            return None;
        }
        if self.is_integer() {
            return Some(ImplClass::Integer);
        }
        if self.is_float() {
            Some(ImplClass::Float)
        } else {
            None
        }
    }

    /// What the impls are listed under that may be for a type with the head, besides those for open types. There is nothing
    /// where the type may be equal to any.
    pub fn sought(self) -> Option<ImplClass>
    {
        if self.meets_any() {
            return None;
        }
        if self.is_variable_of(VariableSort::Integer) {
            return Some(ImplClass::Integer);
        }
        if self.is_variable_of(VariableSort::Floating) {
            Some(ImplClass::Float)
        } else {
            Some(ImplClass::Of(self))
        }
    }
}
