//! Stand-in: messages go to standard error.
#![allow(missing_docs)] // what is public here is named and meant as in the crate itself

#[macro_export]
macro_rules! error {
    ($($t:tt)*) => { eprintln!($($t)*) };
}

#[macro_export]
macro_rules! info {
    ($($t:tt)*) => { eprintln!($($t)*) };
}
