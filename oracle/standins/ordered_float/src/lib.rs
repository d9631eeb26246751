//! Stand-in: the wrapper alone; the supplied files only compare with it.
#![allow(missing_docs)] // what is public here is named and meant as in the crate itself

#[derive(Copy, Clone, PartialEq, PartialOrd, Debug)]
pub struct OrderedFloat<T>(pub T);
