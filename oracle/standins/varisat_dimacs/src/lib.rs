//! Stand-in: never called.
#![allow(missing_docs)] // what is public here is named and meant as in the crate itself

use anyhow::Error;
use std::io::Read;

pub struct DimacsParser;

impl DimacsParser {
    pub fn parse_incremental(
        _input: impl Read,
        _callback: impl FnMut(&mut DimacsParser) -> Result<(), Error>,
    ) -> Result<DimacsParser, Error> {
        unimplemented!()
    }

    pub fn take_formula(&mut self) -> varisat_formula::CnfFormula {
        unimplemented!()
    }

    pub fn var_count(&self) -> usize {
        0
    }

    pub fn clause_count(&self) -> usize {
        0
    }
}
