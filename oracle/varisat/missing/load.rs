//! Stand-in (not supplied): never called.
use crate::context::Context;

pub fn load_clause(_ctx: partial_ref::partial!(Context, mut X), _clause: &[varisat_formula::Lit]) {
    unimplemented!("loading clauses is out of scope")
}
