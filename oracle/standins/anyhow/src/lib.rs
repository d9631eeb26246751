//! Stand-in: an error type that the supplied files name.
#![allow(missing_docs)] // what is public here is named and meant as in the crate itself

use std::fmt;

#[derive(Debug)]
pub struct Error;

impl fmt::Display for Error {
    fn fmt(&self, f: &mut fmt::Formatter) -> fmt::Result {
        write!(f, "error")
    }
}
