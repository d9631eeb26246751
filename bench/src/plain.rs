//! Plain Rust beside which the library is timed where varisat has no function for it.
pub mod cnf;
pub mod names;
pub mod reader;
pub mod sound;
