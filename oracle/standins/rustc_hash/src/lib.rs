//! Stand-in: ordered sets, so that a set's first member is its least one.
#![allow(missing_docs)] // what is public here is named and meant as in the crate itself

pub type FxHashSet<T> = std::collections::BTreeSet<T>;
