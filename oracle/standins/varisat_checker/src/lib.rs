//! Stand-in for varisat-checker: it checks nothing and records every step that it is shown, with literals already renamed.
#![allow(missing_docs)] // what is public here is named and meant as in the crate itself

use std::{cell::RefCell, fmt};

use varisat_formula::Lit;
use varisat_internal_proof::{ClauseHash, DeleteClauseProof, ProofStep};

/// A step as it was shown; variables are given by their index.
#[derive(Clone, PartialEq, Eq, Debug)]
pub enum Seen {
    SolverVarName(usize, Option<usize>),
    UserVarName(usize, Option<usize>),
    DeleteVar(usize),
    ChangeSamplingMode(usize, bool),
    AddClause(Vec<Lit>),
    AtClause(bool, Vec<Lit>, Vec<ClauseHash>),
    UnitClauses(Vec<Lit>, Vec<ClauseHash>),
    DeleteClause(Vec<Lit>, DeleteClauseProof),
    ChangeHashBits(u32),
    Model(Vec<Lit>),
    Assumptions(Vec<Lit>),
    FailedAssumptions(Vec<Lit>, Vec<ClauseHash>),
    End,
}

thread_local!(static SEEN: RefCell<Vec<Seen>> = const { RefCell::new(vec![]) });

/// The steps shown since the last time.
pub fn take_seen() -> Vec<Seen> {
    SEEN.with(|seen| std::mem::take(&mut *seen.borrow_mut()))
}

fn seen(step: ProofStep) -> Seen {
    match step {
        ProofStep::SolverVarName { global, solver } => Seen::SolverVarName(global.index(), solver.map(|var| var.index())),
        ProofStep::UserVarName { global, user } => Seen::UserVarName(global.index(), user.map(|var| var.index())),
        ProofStep::DeleteVar { var } => Seen::DeleteVar(var.index()),
        ProofStep::ChangeSamplingMode { var, sample } => Seen::ChangeSamplingMode(var.index(), sample),
        ProofStep::AddClause { clause } => Seen::AddClause(clause.to_vec()),
        ProofStep::AtClause { redundant, clause, propagation_hashes } => {
            Seen::AtClause(redundant, clause.to_vec(), propagation_hashes.to_vec())
        }
        ProofStep::UnitClauses { units } => {
            Seen::UnitClauses(units.iter().map(|unit| unit.0).collect(), units.iter().map(|unit| unit.1).collect())
        }
        ProofStep::DeleteClause { clause, proof } => Seen::DeleteClause(clause.to_vec(), proof),
        ProofStep::ChangeHashBits { bits } => Seen::ChangeHashBits(bits),
        ProofStep::Model { assignment } => Seen::Model(assignment.to_vec()),
        ProofStep::Assumptions { assumptions } => Seen::Assumptions(assumptions.to_vec()),
        ProofStep::FailedAssumptions { failed_core, propagation_hashes } => {
            Seen::FailedAssumptions(failed_core.to_vec(), propagation_hashes.to_vec())
        }
        ProofStep::End => Seen::End,
    }
}

#[derive(Debug)]
pub enum CheckerError {
    ProofProcessorError { cause: anyhow::Error },
    CheckFailed { step: u64, debug_step: String },
}

impl fmt::Display for CheckerError {
    fn fmt(&self, f: &mut fmt::Formatter) -> fmt::Result {
        write!(f, "{:?}", self)
    }
}

pub trait ProofProcessor {}

pub struct Checker<'a> {
    processors: Vec<&'a mut dyn ProofProcessor>,
}

impl<'a> Default for Checker<'a> {
    fn default() -> Checker<'a> {
        Checker::new()
    }
}

impl<'a> Checker<'a> {
    pub fn new() -> Checker<'a> {
        Checker { processors: vec![] }
    }

    pub fn add_processor(&mut self, processor: &'a mut dyn ProofProcessor) {
        self.processors.push(processor)
    }

    pub fn add_clause(&mut self, _clause: &[Lit]) -> Result<(), CheckerError> {
        Ok(())
    }
}

pub mod internal {
    use super::*;

    pub trait SelfChecker {
        fn self_check_step(&mut self, step: ProofStep) -> Result<(), CheckerError>;
        fn self_check_delayed_steps(&mut self) -> Result<(), CheckerError>;
    }

    impl<'a> SelfChecker for Checker<'a> {
        fn self_check_step(&mut self, step: ProofStep) -> Result<(), CheckerError> {
            SEEN.with(|all| all.borrow_mut().push(seen(step)));
            Ok(())
        }

        fn self_check_delayed_steps(&mut self) -> Result<(), CheckerError> {
            Ok(())
        }
    }
}
