//! Stand-in for src/prop.rs (not supplied): re-exports, and idle watch lists.
pub mod assignment;
pub mod graph;

pub use assignment::{backtrack, enqueue_assignment, full_restart, restart, Assignment, Trail};
pub use graph::{Conflict, ImplGraph, ImplNode, Reason};

use crate::clause::ClauseRef;

#[derive(Default)]
pub struct Watchlists;

impl Watchlists {
    pub fn set_var_count(&mut self, _count: usize) {}
    pub fn disable(&mut self) {}
    pub fn watch_clause(&mut self, _cref: ClauseRef, _lits: [varisat_formula::Lit; 2]) {}
}
