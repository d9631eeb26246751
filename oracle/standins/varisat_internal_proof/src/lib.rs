//! Stand-in for varisat-internal-proof: the step kinds. Hash computation is out of scope, so any function of the literals does.
#![allow(missing_docs)] // what is public here is named and meant as in the crate itself

use varisat_formula::{Lit, Var};

pub type ClauseHash = u64;

pub fn lit_hash(lit: Lit) -> ClauseHash {
    (lit.code() as u64 + 1).wrapping_mul(0x9e37_79b9_7f4a_7c15)
}

pub fn clause_hash(lits: &[Lit]) -> ClauseHash {
    lits.iter().fold(0, |hash, &lit| hash ^ lit_hash(lit))
}

#[derive(Copy, Clone, PartialEq, Eq, Debug)]
pub enum DeleteClauseProof {
    Redundant,
    Simplified,
    Satisfied,
}

#[derive(Copy, Clone, Debug)]
pub enum ProofStep<'a> {
    SolverVarName { global: Var, solver: Option<Var> },
    UserVarName { global: Var, user: Option<Var> },
    DeleteVar { var: Var },
    ChangeSamplingMode { var: Var, sample: bool },
    AddClause { clause: &'a [Lit] },
    AtClause { redundant: bool, clause: &'a [Lit], propagation_hashes: &'a [ClauseHash] },
    UnitClauses { units: &'a [(Lit, ClauseHash)] },
    DeleteClause { clause: &'a [Lit], proof: DeleteClauseProof },
    ChangeHashBits { bits: u32 },
    Model { assignment: &'a [Lit] },
    Assumptions { assumptions: &'a [Lit] },
    FailedAssumptions { failed_core: &'a [Lit], propagation_hashes: &'a [ClauseHash] },
    End,
}

pub mod binary_format {
    use std::io::{self, Write};

    pub fn write_step(_target: &mut impl Write, _step: &super::ProofStep) -> io::Result<()> {
        unimplemented!("the Varisat format is out of scope")
    }
}
