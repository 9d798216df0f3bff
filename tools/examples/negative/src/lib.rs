//! A positive and a negative impl of one trait.

#![feature(negative_impls)]

pub trait Show {}

pub struct Own<T>(T);

impl Show for Own<u8> {}

impl<T> !Show for Own<T> {}

impl !Show for Own<u16> {}
