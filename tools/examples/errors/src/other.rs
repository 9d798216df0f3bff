//! The other impl is in another file.

use super::{Own, Show};

impl Show for Own<String> {
    type Shown = u16;
}

impl<T> Show for Own<T> {
    type Shown = u32;
}

pub struct X;

pub trait Into2<A> {}

impl<T: Into<X>> Into2<T> for T {}

impl Into2<X> for X {}
