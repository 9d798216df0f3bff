//! Each kind of error that rustc has of impls, in several places: `cargo coherence` says the same.

use std::fmt::Display;

pub trait Show {
    type Shown;
}

impl<T: Display> Show for T {
    type Shown = u8;
}

// Several lines, and a where clause.
impl Show for Vec<u8>
where
    u8: Copy,
{
    type Shown = u8;
}

// By a macro, and by a derive.
macro_rules! show {
    ($t:ty) => {
        impl Show for $t {
            type Shown = u8;
        }
    };
}
show!(Vec<u16>);

#[derive(Clone, Copy)]
pub struct Name(u8);

impl Clone for Name {
    fn clone(&self) -> Name {
        *self
    }
}

// Beside an impl of another crate.
pub struct Own<T>(T);

impl<T> From<Own<T>> for Own<T> {
    fn from(own: Own<T>) -> Self {
        own
    }
}

// The orphan rule.
impl<T> From<Own<T>> for T {
    fn from(own: Own<T>) -> T {
        own.0
    }
}

impl Display for Vec<u8> {
    fn fmt(&self, _: &mut std::fmt::Formatter<'_>) -> std::fmt::Result {
        Ok(())
    }
}

impl Display for u8 {
    fn fmt(&self, _: &mut std::fmt::Formatter<'_>) -> std::fmt::Result {
        Ok(())
    }
}

impl<T> Display for T {
    fn fmt(&self, _: &mut std::fmt::Formatter<'_>) -> std::fmt::Result {
        Ok(())
    }
}

// Several for one trait: rustc names one clash of each impl, and none of an impl that it has refused with an earlier one.
pub trait Several {}
impl Several for u8 {}
impl<T: Copy> Several for T {}
impl Several for u16 {}
impl Several for u8 {} impl Several for u8 {}

// Two types of one name, and two traits.
pub mod left {
    pub struct Twin;
    pub trait Turn {}
}
pub mod right {
    pub struct Twin;
    pub trait Turn {}
}
impl Several for left::Twin {}
impl Several for left::Twin {}
impl left::Turn for right::Twin {}
impl left::Turn for right::Twin {}
impl left::Turn for Vec<left::Twin> {}
impl left::Turn for Vec<left::Twin> {}

// In a body.
pub fn body() {
    impl Several for Vec<String> {}
    impl Several for Vec<String> {}
}

pub mod other;
