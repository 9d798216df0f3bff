//! A trait of another crate.

pub trait Far<T> {}
