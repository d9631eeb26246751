//! Stand-in for src/clause.rs (not supplied): the type `Clause`, a header and literals in one slice, and re-exports.
pub mod alloc;
pub mod db;
pub mod header;

pub use alloc::{ClauseAlloc, ClauseRef};
pub use db::{ClauseDb, Tier};
pub use header::ClauseHeader;

use header::HEADER_LEN;
use varisat_formula::{lit::LitIdx, Lit};

#[repr(transparent)]
pub struct Clause {
    data: [LitIdx],
}

impl Clause {
    pub fn header(&self) -> &ClauseHeader {
        unsafe { &*(self.data.as_ptr() as *const ClauseHeader) }
    }

    pub fn header_mut(&mut self) -> &mut ClauseHeader {
        unsafe { &mut *(self.data.as_mut_ptr() as *mut ClauseHeader) }
    }

    pub fn lits(&self) -> &[Lit] {
        let words = &self.data[HEADER_LEN..];
        unsafe { std::slice::from_raw_parts(words.as_ptr() as *const Lit, words.len()) }
    }

    pub fn lits_mut(&mut self) -> &mut [Lit] {
        let words = &mut self.data[HEADER_LEN..];
        unsafe { std::slice::from_raw_parts_mut(words.as_mut_ptr() as *mut Lit, words.len()) }
    }
}

#[derive(Default)]
pub struct ClauseActivity;

impl ClauseActivity {
    pub fn set_decay(&mut self, _decay: f32) {}
}
