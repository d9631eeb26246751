//! The supplied functions called bare, for measuring: nothing is recorded, converted or collected around them, and none is inlined where it
//! is called.
use std::io::{self, BufWriter, Write};

use partial_ref::IntoPartialRefMut;
pub use varisat_formula::{Lit, Var};
use varisat_internal_proof::{DeleteClauseProof, ProofStep};

pub use super::lit;
pub use super::Format;
use super::{forget, var, word_mode, Oracle, State};
use crate::{
    binary::simplify_binary,
    clause::{self, ClauseHeader, Tier},
    context::Context,
    drat::{write_binary_step, write_step},
    model::reconstruct_global_model,
    proof::{self, Proof, ProofFormat},
    renaming::map_step::MapStep,
    solver::Solver,
    unit_simplify::unit_simplify,
    variables,
};

/// What a proof is written to: the type of `target` in the supplied `Proof`.
pub type Target = BufWriter<Box<dyn Write>>;

/// The literals of codes.
pub fn lits(codes: impl IntoIterator<Item = u32>) -> Vec<Lit> {
    codes.into_iter().map(lit).collect()
}

// ---- the writer by itself

fn step(delete: bool, clause: &[Lit]) -> ProofStep<'_> {
    match delete {
        false => ProofStep::AtClause { redundant: true, clause, propagation_hashes: &[] },
        true => ProofStep::DeleteClause { clause, proof: DeleteClauseProof::Redundant },
    }
}

/// One step in text.
#[inline(never)]
pub fn text(target: &mut Target, delete: bool, clause: &[Lit]) {
    write_step(target, &step(delete, clause)).unwrap();
}

/// One step in binary.
#[inline(never)]
pub fn binary(target: &mut Target, delete: bool, clause: &[Lit]) {
    write_binary_step(target, &step(delete, clause)).unwrap();
}

/// The same, to a `Vec`.
#[inline(never)]
pub fn text_to_vec(target: &mut Vec<u8>, delete: bool, clause: &[Lit]) {
    write_step(target, &step(delete, clause)).unwrap();
}

/// The same, to a `Vec`.
#[inline(never)]
pub fn binary_to_vec(target: &mut Vec<u8>, delete: bool, clause: &[Lit]) {
    write_binary_step(target, &step(delete, clause)).unwrap();
}

/// A whole proof: start and end of each clause among the literals, and whether it is deleted. Here the compiler is free to inline.
#[inline(never)]
pub fn proof(format: Format, target: &mut Target, lits: &[Lit], parts: &[(usize, usize, bool)]) {
    whole(format, target, lits, parts);
}

/// The same, to a `Vec`.
#[inline(never)]
pub fn proof_to_vec(format: Format, target: &mut Vec<u8>, lits: &[Lit], parts: &[(usize, usize, bool)]) {
    whole(format, target, lits, parts);
}

fn whole(format: Format, target: &mut impl Write, lits: &[Lit], parts: &[(usize, usize, bool)]) {
    for &(a, b, delete) in parts {
        let step = step(delete, &lits[a..b]);
        match format {
            Format::Text => write_step(target, &step).unwrap(),
            Format::Binary => write_binary_step(target, &step).unwrap(),
        }
    }
    target.flush().unwrap();
}

// ---- a context

/// A context whose steps go to a DRAT proof and nowhere else, and a renamer of its own.
pub struct Bare(Oracle, MapStep);

impl Bare {
    /// This context, with a new proof that goes nowhere.
    pub fn new(mut oracle: Oracle, format: Format) -> Bare {
        forget();
        oracle.ctx.proof = Proof::default();
        let format = match format {
            Format::Text => ProofFormat::Drat,
            Format::Binary => ProofFormat::BinaryDrat,
        };
        oracle.ctx.proof.write_proof(io::sink(), format);
        Bare(oracle, MapStep::default())
    }

    /// What the context holds.
    pub fn state(&self) -> State {
        self.0.state()
    }

    /// The global of a user.
    #[inline(never)]
    pub fn global_from_user(&self, user: u32) -> Option<Var> {
        self.0.ctx.variables.global_from_user().get(var(user))
    }

    /// The user of a global.
    #[inline(never)]
    pub fn user_from_global(&self, global: u32) -> Option<Var> {
        self.0.ctx.variables.user_from_global().get(var(global))
    }

    /// The solver index that a global holds.
    #[inline(never)]
    pub fn solver_from_global(&self, global: u32) -> Option<Var> {
        self.0.ctx.variables.solver_from_global().get(var(global))
    }

    /// The global that holds a solver index.
    #[inline(never)]
    pub fn global_from_solver(&self, solver: u32) -> Option<Var> {
        self.0.ctx.variables.global_from_solver().get(var(solver))
    }

    /// Of a global's record.
    #[inline(never)]
    pub fn isolated(&self, global: u32) -> bool {
        self.0.ctx.variables.var_data_global(var(global)).isolated
    }

    /// The value of a solver index.
    #[inline(never)]
    pub fn value(&self, solver: u32) -> Option<bool> {
        self.0.ctx.assignment.var_value(var(solver))
    }

    /// `global_from_user`.
    #[inline(never)]
    pub fn map(&mut self, user: u32) -> Var {
        variables::global_from_user(self.0.ctx.into_partial_ref_mut(), var(user), false)
    }

    /// The user at the watermark.
    #[inline(never)]
    pub fn map_next(&mut self) -> Var {
        let user = Var::from_index(self.0.ctx.variables.user_watermark());
        variables::global_from_user(self.0.ctx.into_partial_ref_mut(), user, false)
    }

    /// `new_user_var`.
    #[inline(never)]
    pub fn new_user(&mut self) -> Var {
        variables::new_user_var(self.0.ctx.into_partial_ref_mut())
    }

    /// `solver_from_user_lits`.
    #[inline(never)]
    pub fn pose(&mut self, solver_lits: &mut Vec<Lit>, user_lits: &[Lit]) {
        variables::solver_from_user_lits(self.0.ctx.into_partial_ref_mut(), solver_lits, user_lits, false)
    }

    /// `solver_from_global`.
    #[inline(never)]
    pub fn grant(&mut self, global: u32) -> Var {
        variables::solver_from_global(self.0.ctx.into_partial_ref_mut(), var(global))
    }

    /// `set_sampling_mode`.
    #[inline(never)]
    pub fn set_mode(&mut self, global: u32, mode: u32) -> Option<Var> {
        variables::set_sampling_mode(self.0.ctx.into_partial_ref_mut(), var(global), word_mode(mode))
    }

    /// `observe_internal_vars`.
    #[inline(never)]
    pub fn observe(&mut self) -> Vec<Var> {
        variables::observe_internal_vars(self.0.ctx.into_partial_ref_mut())
    }

    /// Clears isolated.
    #[inline(never)]
    pub fn used(&mut self, solver: u32) {
        self.0.ctx.variables.var_data_solver_mut(var(solver)).isolated = false;
    }

    /// Sets or clears assumed.
    #[inline(never)]
    pub fn assumed(&mut self, solver: u32, set: bool) {
        self.0.ctx.variables.var_data_solver_mut(var(solver)).assumed = set;
    }

    /// `assign_lit`.
    #[inline(never)]
    pub fn assign(&mut self, code: u32) {
        self.0.ctx.assignment.assign_lit(lit(code));
    }

    /// `remove_solver_var`.
    #[inline(never)]
    pub fn remove(&mut self, solver: u32) {
        variables::remove_solver_var(self.0.ctx.into_partial_ref_mut(), var(solver))
    }

    /// `unit_simplify`: the clauses that there are, then the last loop.
    #[inline(never)]
    pub fn unit_simplify(&mut self) {
        unit_simplify(self.0.ctx.into_partial_ref_mut())
    }

    /// Clauses for `unit_simplify`, of three literals or more, in place of those that there were.
    pub fn set_clauses(&mut self, clauses: &[Vec<Lit>]) {
        self.0.ctx.clause_alloc = Default::default();
        self.0.ctx.clause_db = Default::default();
        for clause in clauses {
            let mut header = ClauseHeader::new();
            header.set_tier(Tier::Local);
            clause::db::add_clause(self.0.ctx.into_partial_ref_mut(), header, clause);
        }
    }

    /// Binary clauses, added in turn, in place of those that there were.
    pub fn set_binary(&mut self, clauses: &[[Lit; 2]]) {
        self.0.set_binary(clauses);
    }

    /// `simplify_binary`.
    #[inline(never)]
    pub fn simplify_binary(&mut self) {
        simplify_binary(self.0.ctx.into_partial_ref_mut())
    }

    /// `MapStep::map` for an add of solver literals, as in `add_step`: how many literals it has then.
    #[inline(never)]
    pub fn rename(&mut self, clause: &[Lit]) -> usize {
        let names = self.0.ctx.variables.global_from_solver();
        let under = |var| names.get(var).expect("no existing global var for solver var");
        match self.1.map(&step(false, clause), under, |hash| hash) {
            ProofStep::AtClause { clause, .. } => clause.len(),
            _ => unreachable!(),
        }
    }

    /// `add_step` for an add of solver literals: renamed and written.
    #[inline(never)]
    pub fn write(&mut self, clause: &[Lit]) {
        proof::add_step(self.0.ctx.into_partial_ref_mut(), true, &step(false, clause))
    }

    /// `reconstruct_global_model`, then `model`.
    #[inline(never)]
    pub fn model(&mut self) -> Vec<Lit> {
        reconstruct_global_model(self.0.ctx.into_partial_ref_mut());
        // As in `Oracle::model`: `Solver` is one private field, the boxed context.
        let solver: &Solver<'static> = unsafe { &*(&self.0.ctx as *const Box<Context<'static>> as *const Solver<'static>) };
        solver.model().unwrap_or_default()
    }
}
