//! The supplied files of varisat 0.2.2, unchanged, with stand-ins for the modules that were not supplied, and `drive`, which calls them.
//! What the lints say of the supplied files is not heeded, as they are not to be changed; of `drive` it is.
#![allow(clippy::all)]
#![allow(dead_code, mismatched_lifetime_syntaxes, missing_docs, unused_imports, unused_mut, unused_variables)]

include!(concat!(env!("OUT_DIR"), "/root.rs"));

#[warn(clippy::all, missing_docs)]
pub mod drive;
