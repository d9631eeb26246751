//! Calls the supplied functions and shows their state in document 01's words.
use std::{cell::RefCell, io, mem, rc::Rc};

use partial_ref::{IntoPartialRefMut, PartialRef};
use varisat_checker::{take_seen, Seen};
use varisat_formula::{Lit, Var};
use varisat_internal_proof::{DeleteClauseProof, ProofStep};

use crate::{
    binary::BinaryClauses,
    clause::{self, ClauseHeader, ClauseRef, Tier},
    context::Context,
    model::reconstruct_global_model,
    proof::{self, Proof, ProofFormat},
    solver::Solver,
    state::SatState,
    unit_simplify::unit_simplify,
    variables::{
        self,
        data::{SamplingMode, VarData},
    },
};

pub mod measure;
pub mod pairs;
pub mod session;

/// The state, coded as document 01 codes it, each list up to its watermark.
#[derive(Clone, PartialEq, Eq, Debug)]
pub struct State {
    /// The maps: index + 1, or 0 for none. The global of each user.
    pub global_from_user: Vec<u32>,
    /// The user of each global.
    pub user_from_global: Vec<u32>,
    /// The solver index that each global holds.
    pub solver_from_global: Vec<u32>,
    /// The global that holds each solver index.
    pub global_from_solver: Vec<u32>,
    /// 0 none, 1 false, 2 true.
    pub assignment: Vec<u32>,
    /// A record word for each global.
    pub records: Vec<u32>,
}

/// A step, its literals and hashes, as handed to `add_step`. A name is its index + 1, or 0 where it is withdrawn.
#[derive(Clone, Copy, Debug)]
pub enum Step<'a> {
    /// A clause of the formula.
    AddClause(&'a [u32]),
    /// A clause that follows, whether it is redundant, its hashes.
    AtClause(bool, &'a [u32], &'a [u64]),
    /// Units, a hash for each.
    UnitClauses(&'a [u32], &'a [u64]),
    /// A clause that goes, and why.
    DeleteClause(&'a [u32], Cause),
    /// A model.
    Model(&'a [u32]),
    /// Assumptions.
    Assumptions(&'a [u32]),
    /// Assumptions that cannot all hold, with hashes.
    FailedAssumptions(&'a [u32], &'a [u64]),
    /// A global, and the word of its solver index.
    SolverVarName(u32, u32),
    /// A global, and the word of its user.
    UserVarName(u32, u32),
    /// A global.
    DeleteVar(u32),
    /// A global, and whether it is now Sample.
    ChangeSamplingMode(u32, bool),
    /// How many bits.
    ChangeHashBits(u32),
    /// The end.
    End,
}

pub use varisat_internal_proof::DeleteClauseProof as Cause;

/// The format of a proof.
#[derive(Clone, Copy, PartialEq, Eq, Debug)]
pub enum Format {
    /// Decimal numbers in lines.
    Text,
    /// LEB128 codes.
    Binary,
}

/// What became of a clause.
#[derive(Clone, Copy, PartialEq, Eq, Debug)]
pub enum Made {
    /// It is as it was.
    Kept,
    /// It went.
    Dropped,
    /// It lost literals.
    Shortened,
    /// It lost literals, and two are left.
    Binary,
}

/// What Simplify did: the rest in solver literals, the add step's redundant flag, the bytes, and the delete step's cause.
pub struct Simplified {
    /// What became of the clause.
    pub made: Made,
    /// Its solver literals: none if dropped, all if kept.
    pub rest: Vec<u32>,
    /// The add step's flag; no where there is none.
    pub redundant: bool,
    /// Both steps in DRAT.
    pub bytes: Vec<u8>,
    /// Why it was deleted, if it was.
    pub cause: Option<Cause>,
}

/// What became of a step: literals, hashes, the words that it carries of its own, and the bytes written.
pub struct Renamed {
    /// Its literals, under global names.
    pub lits: Vec<u32>,
    /// Its hashes.
    pub hashes: Vec<u64>,
    /// What the step carries of its own.
    pub own: Vec<u32>,
    /// Its bytes in DRAT.
    pub bytes: Vec<u8>,
}

#[derive(Clone, Default)]
struct Sink(Rc<RefCell<Vec<u8>>>);

impl io::Write for Sink {
    fn write(&mut self, bytes: &[u8]) -> io::Result<usize> {
        self.0.borrow_mut().extend_from_slice(bytes);
        Ok(bytes.len())
    }

    fn flush(&mut self) -> io::Result<()> {
        Ok(())
    }
}

fn var(index: u32) -> Var {
    Var::from_index(index as usize)
}

/// The literal of a code.
pub fn lit(code: u32) -> Lit {
    Lit::from_code(code as usize)
}

fn lits(codes: &[u32]) -> Vec<Lit> {
    codes.iter().map(|&code| lit(code)).collect()
}

fn codes(lits: &[Lit]) -> Vec<u32> {
    lits.iter().map(|lit| lit.code() as u32).collect()
}

fn index_word(index: Option<usize>) -> u32 {
    index.map_or(0, |index| index as u32 + 1)
}

fn name_word(name: Option<Var>) -> u32 {
    index_word(name.map(|var| var.index()))
}

fn word_name(word: u32) -> Option<Var> {
    word.checked_sub(1).map(var)
}

fn value_word(value: Option<bool>) -> u32 {
    value.map_or(0, |value| 1 + value as u32)
}

fn word_value(word: u32) -> Option<bool> {
    word.checked_sub(1).map(|value| value == 1)
}

fn mode_word(mode: SamplingMode) -> u32 {
    match mode {
        SamplingMode::Sample => 0,
        SamplingMode::Witness => 1,
        SamplingMode::Hide => 2,
    }
}

fn word_mode(word: u32) -> SamplingMode {
    match word {
        0 => SamplingMode::Sample,
        1 => SamplingMode::Witness,
        2 => SamplingMode::Hide,
        _ => panic!("no mode {}", word),
    }
}

fn record_word(data: &VarData) -> u32 {
    mode_word(data.sampling_mode)
        + 3 * value_word(data.unit)
        + 9 * data.isolated as u32
        + 18 * data.assumed as u32
        + 36 * data.deleted as u32
}

fn word_record(word: u32) -> VarData {
    VarData {
        sampling_mode: word_mode(word % 3),
        unit: word_value(word / 3 % 3),
        isolated: word / 9 % 2 == 1,
        assumed: word / 18 % 2 == 1,
        deleted: word / 36 % 2 == 1,
    }
}

/// The naming steps among those given to `add_step`, three words each.
fn notes_of(seen: &[Seen]) -> Vec<u32> {
    let mut notes = vec![];
    for step in seen {
        match *step {
            Seen::UserVarName(global, user) => notes.extend([0, global as u32, index_word(user)]),
            Seen::SolverVarName(global, solver) => notes.extend([1, global as u32, index_word(solver)]),
            Seen::DeleteVar(global) => notes.extend([2, global as u32, 0]),
            Seen::ChangeSamplingMode(global, sample) => notes.extend([3, global as u32, sample as u32]),
            _ => (),
        }
    }
    notes
}

fn take_notes() -> Vec<u32> {
    notes_of(&take_seen())
}

/// Forgets recorded steps, as after a panic that was caught.
pub fn forget() {
    take_seen();
}

/// The supplied code's context, with a checker that records the steps.
pub struct Oracle {
    ctx: Box<Context<'static>>,
    sink: Sink,
}

impl Default for Oracle {
    fn default() -> Oracle {
        Oracle::new()
    }
}

impl Oracle {
    /// A fresh context whose steps are recorded.
    pub fn new() -> Oracle {
        forget();
        let mut oracle = Oracle { ctx: Box::new(Context::default()), sink: Sink::default() };
        oracle.ctx.proof.begin_checking();
        oracle
    }

    /// Without the recording checker: what a proof in DRAT alone costs, for measuring.
    pub fn unrecorded() -> Oracle {
        Oracle { ctx: Box::new(Context::default()), sink: Sink::default() }
    }

    // ---- the state

    /// What the context holds.
    pub fn state(&self) -> State {
        let vars = &self.ctx.variables;
        let (users, globals, solvers) = self.watermarks();
        assert_eq!(self.ctx.assignment.assignment().len() as u32, solvers);
        assert!(vars.user_from_global().watermark() as u32 <= globals);
        assert!(vars.solver_from_global().watermark() as u32 <= globals);
        State {
            global_from_user: (0..users).map(|i| self.lookup(0, i)).collect(),
            user_from_global: (0..globals).map(|i| self.lookup(1, i)).collect(),
            solver_from_global: (0..globals).map(|i| self.lookup(2, i)).collect(),
            global_from_solver: (0..solvers).map(|i| self.lookup(3, i)).collect(),
            assignment: self.ctx.assignment.assignment().iter().map(|&value| value_word(value)).collect(),
            records: (0..globals).map(|i| record_word(vars.var_data_global(var(i)))).collect(),
        }
    }

    /// User, global and solver watermark.
    pub fn watermarks(&self) -> (u32, u32, u32) {
        let vars = &self.ctx.variables;
        (vars.user_watermark() as u32, vars.global_watermark() as u32, vars.solver_watermark() as u32)
    }

    /// The next unmapped user, global and solver index, by the free lists.
    pub fn next_free(&self) -> (u32, u32, u32) {
        let vars = &self.ctx.variables;
        (
            vars.next_unmapped_user().index() as u32,
            vars.next_unmapped_global().index() as u32,
            vars.next_unmapped_solver().index() as u32,
        )
    }

    /// A context in the state of a sound table, made by the supplied functions so that the private free lists are right. None where no
    /// calls make that state: no user and no solver index was ever given, and yet a global is deleted.
    pub fn load(state: &State) -> Option<Oracle> {
        let mut oracle = Oracle::new();
        let globals = state.records.len() as u32;
        for g in 0..globals {
            *oracle.data(g) = word_record(2);
        }
        let dead: Vec<u32> = (0..globals).filter(|&g| state.records[g as usize] >= 36).collect();
        let spare_user = state.global_from_user.contains(&0);
        let full = !spare_user && !state.global_from_solver.contains(&0);
        if full {
            if !dead.is_empty() && state.global_from_user.is_empty() && state.global_from_solver.is_empty() {
                return None;
            }
            dead.iter().for_each(|&g| oracle.kill(g, !state.global_from_user.is_empty()));
        }
        oracle.load_users(state);
        oracle.load_solvers(state);
        if !full {
            dead.iter().for_each(|&g| oracle.kill(g, spare_user));
        }
        for g in 0..globals {
            *oracle.data(g) = word_record(state.records[g as usize]);
        }
        for (s, &word) in state.assignment.iter().enumerate() {
            oracle.ctx.assignment.set_var(var(s as u32), word_value(word));
        }
        forget();
        assert_eq!(&oracle.state(), state, "load");
        Some(oracle)
    }

    /// Users in ascending order; where none is wanted, a spare global takes the index and gives it back.
    fn load_users(&mut self, state: &State) {
        let globals = state.records.len() as u32;
        let mut spare: Vec<u32> = (0..globals).filter(|&g| state.user_from_global[g as usize] == 0).collect();
        let mut back = vec![];
        for (u, &word) in state.global_from_user.iter().enumerate() {
            let g = word.checked_sub(1).unwrap_or_else(|| {
                back.push(*spare.last().unwrap());
                spare.pop().unwrap()
            });
            assert_eq!(self.set_mode(g, 0).0, Some(u as u32));
        }
        for g in back {
            self.set_mode(g, 2);
        }
    }

    /// Solver indices likewise.
    fn load_solvers(&mut self, state: &State) {
        let globals = state.records.len() as u32;
        let mut spare: Vec<u32> = (0..globals).filter(|&g| state.solver_from_global[g as usize] == 0).collect();
        let mut back = vec![];
        for (s, &word) in state.global_from_solver.iter().enumerate() {
            let g = word.checked_sub(1).unwrap_or_else(|| {
                back.push(s as u32);
                spare.pop().unwrap()
            });
            assert_eq!(self.grant(g).0, s as u32);
        }
        for s in back {
            self.remove(s);
        }
    }

    fn data(&mut self, global: u32) -> &mut VarData {
        self.ctx.variables.var_data_global_mut(var(global))
    }

    fn kill(&mut self, global: u32, by_user: bool) {
        if by_user {
            self.set_mode(global, 0);
            self.data(global).isolated = true;
            self.set_mode(global, 2);
        } else {
            let (solver, _) = self.grant(global);
            self.data(global).isolated = true;
            self.remove(solver);
        }
        assert!(self.data(global).deleted);
    }

    // ---- names

    /// 0 global from user, 1 user from global, 2 solver from global, 3 global from solver; the word is the index + 1, or 0.
    pub fn lookup(&self, map: u32, index: u32) -> u32 {
        let vars = &self.ctx.variables;
        let map = match map {
            0 => vars.global_from_user(),
            1 => vars.user_from_global(),
            2 => vars.solver_from_global(),
            _ => vars.global_from_solver(),
        };
        name_word(map.get(var(index)))
    }

    /// `global_from_user`: the global and the notes.
    pub fn map(&mut self, user: u32, sampling: bool) -> (u32, Vec<u32>) {
        let global = variables::global_from_user(self.ctx.into_partial_ref_mut(), var(user), sampling);
        (global.index() as u32, take_notes())
    }

    /// `new_user_var`: the user and the notes.
    pub fn new_user(&mut self) -> (u32, Vec<u32>) {
        let user = variables::new_user_var(self.ctx.into_partial_ref_mut());
        (user.index() as u32, take_notes())
    }

    /// `solver_from_global`: the solver index and the notes.
    pub fn grant(&mut self, global: u32) -> (u32, Vec<u32>) {
        let solver = variables::solver_from_global(self.ctx.into_partial_ref_mut(), var(global));
        (solver.index() as u32, take_notes())
    }

    /// `solver_from_user_lits`: the solver literals and the notes.
    pub fn pose(&mut self, user_lits: &[u32], sampling: bool) -> (Vec<u32>, Vec<u32>) {
        let mut solver_lits = vec![];
        let user_lits = lits(user_lits);
        variables::solver_from_user_lits(self.ctx.into_partial_ref_mut(), &mut solver_lits, &user_lits, sampling);
        (codes(&solver_lits), take_notes())
    }

    /// `set_sampling_mode`: the user that was granted, if one was, and the notes.
    pub fn set_mode(&mut self, global: u32, mode: u32) -> (Option<u32>, Vec<u32>) {
        let user = variables::set_sampling_mode(self.ctx.into_partial_ref_mut(), var(global), word_mode(mode));
        (user.map(|user| user.index() as u32), take_notes())
    }

    /// `observe_internal_vars`: the users and the notes.
    pub fn observe(&mut self) -> (Vec<u32>, Vec<u32>) {
        let users = variables::observe_internal_vars(self.ctx.into_partial_ref_mut());
        (users.iter().map(|user| user.index() as u32).collect(), take_notes())
    }

    /// Clears isolated, through `var_data_solver_mut`.
    pub fn used(&mut self, solver: u32) {
        self.ctx.variables.var_data_solver_mut(var(solver)).isolated = false;
    }

    /// Sets or clears assumed, through `var_data_solver_mut`.
    pub fn assumed(&mut self, solver: u32, set: bool) {
        self.ctx.variables.var_data_solver_mut(var(solver)).assumed = set;
    }

    /// `assign_lit`.
    pub fn assign(&mut self, code: u32) {
        self.ctx.assignment.assign_lit(lit(code));
    }

    /// `remove_solver_var`: the notes.
    pub fn remove(&mut self, solver: u32) -> Vec<u32> {
        variables::remove_solver_var(self.ctx.into_partial_ref_mut(), var(solver));
        take_notes()
    }

    /// `unit_simplify` without clauses: its last loop alone.
    pub fn sweep(&mut self) -> Vec<u32> {
        unit_simplify(self.ctx.into_partial_ref_mut());
        let seen = take_seen();
        let notes = notes_of(&seen);
        assert_eq!(notes.len(), 3 * seen.len());
        notes
    }

    // ---- proof

    /// A new proof in this format, which is recorded as well.
    fn begin(&mut self, format: Option<Format>) {
        self.sink.0.borrow_mut().clear();
        self.ctx.proof = Proof::default();
        self.ctx.proof.begin_checking();
        match format {
            None => (),
            Some(Format::Text) => self.ctx.proof.write_proof(self.sink.clone(), ProofFormat::Drat),
            Some(Format::Binary) => self.ctx.proof.write_proof(self.sink.clone(), ProofFormat::BinaryDrat),
        }
    }

    /// Its bytes.
    fn end(&mut self) -> Vec<u8> {
        proof::flush_proof(self.ctx.into_partial_ref_mut());
        let bytes = mem::take(&mut *self.sink.0.borrow_mut());
        self.begin(None);
        bytes
    }

    /// The closure of `unit_simplify` on one clause. The loop after it is kept idle by marking every variable assumed, and the records
    /// are put back afterwards. The allocator takes no clause under three literals, so such a one is a longer one with its header
    /// shortened.
    pub fn simplify(&mut self, clause: &[u32], redundant: bool, format: Format) -> Simplified {
        self.begin(Some(format));
        let (_, globals, _) = self.watermarks();
        let saved: Vec<VarData> = (0..globals).map(|g| self.data(g).clone()).collect();
        (0..globals).for_each(|g| self.data(g).assumed = true);
        let cref = self.add_clause(clause, redundant);
        assert_eq!(self.ctx.binary_clauses.count(), 0);

        unit_simplify(self.ctx.into_partial_ref_mut());

        for (g, data) in saved.into_iter().enumerate() {
            *self.data(g as u32) = data;
        }
        let (made, rest) = self.clause_after(cref, clause);
        let mut answer = Simplified { made, rest, redundant: false, bytes: vec![], cause: None };
        for step in take_seen() {
            match step {
                Seen::AtClause(flag, lits, hashes) => {
                    answer.redundant = flag;
                    assert_eq!(hashes.len(), 1);
                    assert_eq!(codes(&lits), self.globals(&answer.rest));
                }
                Seen::DeleteClause(lits, cause) => {
                    answer.cause = Some(cause);
                    assert_eq!(codes(&lits), self.globals(clause));
                }
                other => panic!("{:?}", other),
            }
        }
        self.ctx.clause_alloc = Default::default();
        self.ctx.clause_db = Default::default();
        self.ctx.binary_clauses = Default::default();
        let solvers = self.ctx.variables.solver_watermark();
        self.ctx.binary_clauses.set_var_count(solvers);
        answer.bytes = self.end();
        answer
    }

    fn add_clause(&mut self, clause: &[u32], redundant: bool) -> ClauseRef {
        let mut long = lits(clause);
        while long.len() < 3 {
            long.push(lit(0));
        }
        let mut header = ClauseHeader::new();
        header.set_tier(if redundant { Tier::Local } else { Tier::Irred });
        self.ctx.clause_alloc = Default::default();
        self.ctx.clause_db = Default::default();
        let cref = clause::db::add_clause(self.ctx.into_partial_ref_mut(), header, &long);
        self.ctx.clause_alloc.header_mut(cref).set_len(clause.len());
        cref
    }

    /// What was made of the clause, and the literals left.
    fn clause_after(&self, cref: ClauseRef, clause: &[u32]) -> (Made, Vec<u32>) {
        if !self.ctx.clause_alloc.header(cref).deleted() {
            let rest = codes(self.ctx.clause_alloc.clause(cref).lits());
            return (if rest.len() < clause.len() { Made::Shortened } else { Made::Kept }, rest);
        }
        if self.ctx.binary_clauses.count() == 0 {
            return (Made::Dropped, vec![]);
        }
        // Of [a, b] the lists hold b under not a, and a under not b; the order shows in the add step.
        let rest: Vec<u32> = clause.iter().cloned().filter(|&code| self.ctx.assignment.lit_is_unk(lit(code))).collect();
        assert_eq!(rest.len(), 2);
        let implied = |code: u32| codes(self.ctx.binary_clauses.implied(!lit(code)));
        assert!(implied(rest[0]).contains(&rest[1]) && implied(rest[1]).contains(&rest[0]));
        assert_eq!(binary_len(&self.ctx.binary_clauses, 2 * self.ctx.variables.solver_watermark()), 2);
        (Made::Binary, rest)
    }

    /// Solver literals under their globals.
    fn globals(&self, solver_lits: &[u32]) -> Vec<u32> {
        solver_lits.iter().map(|&code| 2 * (self.lookup(3, code / 2) - 1) + code % 2).collect()
    }

    /// `add_step` on one step; without a format, only the renaming.
    pub fn step(&mut self, step: Step, solver_vars: bool, format: Option<Format>) -> Renamed {
        self.begin(format);
        self.add_step(step, solver_vars);
        let mut seen = take_seen();
        assert_eq!(seen.len(), 1);
        let mut answer = renamed(seen.pop().unwrap(), step);
        answer.bytes = self.end();
        answer
    }

    /// Steps in a row to one proof.
    pub fn steps(&mut self, steps: &[Step], solver_vars: bool, format: Format) -> Vec<u8> {
        self.begin(Some(format));
        steps.iter().for_each(|step| self.add_step(*step, solver_vars));
        forget();
        self.end()
    }

    fn add_step(&mut self, step: Step, solver_vars: bool) {
        let (clause, units);
        let step = match step {
            Step::AddClause(l) => {
                clause = lits(l);
                ProofStep::AddClause { clause: &clause }
            }
            Step::AtClause(redundant, l, propagation_hashes) => {
                clause = lits(l);
                ProofStep::AtClause { redundant, clause: &clause, propagation_hashes }
            }
            Step::UnitClauses(l, hashes) => {
                units = lits(l).into_iter().zip(hashes.iter().cloned()).collect::<Vec<_>>();
                ProofStep::UnitClauses { units: &units }
            }
            Step::DeleteClause(l, proof) => {
                clause = lits(l);
                ProofStep::DeleteClause { clause: &clause, proof }
            }
            Step::Model(l) => {
                clause = lits(l);
                ProofStep::Model { assignment: &clause }
            }
            Step::Assumptions(l) => {
                clause = lits(l);
                ProofStep::Assumptions { assumptions: &clause }
            }
            Step::FailedAssumptions(l, propagation_hashes) => {
                clause = lits(l);
                ProofStep::FailedAssumptions { failed_core: &clause, propagation_hashes }
            }
            Step::SolverVarName(g, word) => ProofStep::SolverVarName { global: var(g), solver: word_name(word) },
            Step::UserVarName(g, word) => ProofStep::UserVarName { global: var(g), user: word_name(word) },
            Step::DeleteVar(g) => ProofStep::DeleteVar { var: var(g) },
            Step::ChangeSamplingMode(g, sample) => ProofStep::ChangeSamplingMode { var: var(g), sample },
            Step::ChangeHashBits(bits) => ProofStep::ChangeHashBits { bits },
            Step::End => ProofStep::End,
        };
        proof::add_step(self.ctx.into_partial_ref_mut(), solver_vars, &step);
    }

    // ---- the model

    /// Global words and user literals.
    pub fn model(&mut self) -> (Vec<u32>, Vec<u32>) {
        reconstruct_global_model(self.ctx.into_partial_ref_mut());
        forget();
        let words = self.ctx.model.assignment().iter().map(|&value| value_word(value)).collect();
        // `Solver` is one private field, the boxed context.
        assert_eq!(mem::size_of::<Solver>(), mem::size_of::<Box<Context>>());
        let solver: &Solver<'static> = unsafe { &*(&self.ctx as *const Box<Context<'static>> as *const Solver<'static>) };
        let users = codes(&solver.model().expect("the state is Sat"));
        self.ctx.solver_state.sat_state = SatState::Unknown;
        (words, users)
    }
}

fn binary_len(binary: &BinaryClauses, codes: usize) -> usize {
    (0..codes).map(|code| binary.implied(Lit::from_code(code)).len()).sum()
}

/// The step as the checker saw it; its kind must be that of the step given.
fn renamed(seen: Seen, step: Step) -> Renamed {
    let (lits, hashes, own) = match (seen, step) {
        (Seen::AddClause(lits), Step::AddClause(_)) => (lits, vec![], vec![]),
        (Seen::AtClause(redundant, lits, hashes), Step::AtClause(..)) => (lits, hashes, vec![redundant as u32]),
        (Seen::UnitClauses(lits, hashes), Step::UnitClauses(..)) => (lits, hashes, vec![]),
        (Seen::DeleteClause(lits, cause), Step::DeleteClause(..)) => (lits, vec![], vec![cause_word(cause)]),
        (Seen::Model(lits), Step::Model(_)) => (lits, vec![], vec![]),
        (Seen::Assumptions(lits), Step::Assumptions(_)) => (lits, vec![], vec![]),
        (Seen::FailedAssumptions(lits, hashes), Step::FailedAssumptions(..)) => (lits, hashes, vec![]),
        (Seen::SolverVarName(g, s), Step::SolverVarName(..)) => (vec![], vec![], vec![g as u32, index_word(s)]),
        (Seen::UserVarName(g, u), Step::UserVarName(..)) => (vec![], vec![], vec![g as u32, index_word(u)]),
        (Seen::DeleteVar(g), Step::DeleteVar(_)) => (vec![], vec![], vec![g as u32]),
        (Seen::ChangeSamplingMode(g, sample), Step::ChangeSamplingMode(..)) => (vec![], vec![], vec![g as u32, sample as u32]),
        (Seen::ChangeHashBits(bits), Step::ChangeHashBits(_)) => (vec![], vec![], vec![bits]),
        (Seen::End, Step::End) => (vec![], vec![], vec![]),
        (seen, step) => panic!("{:?} became {:?}", step, seen),
    };
    Renamed { lits: codes(&lits), hashes, own, bytes: vec![] }
}

/// 0 redundant, 1 satisfied, 2 simplified.
pub fn cause_word(cause: Cause) -> u32 {
    match cause {
        DeleteClauseProof::Redundant => 0,
        DeleteClauseProof::Satisfied => 1,
        DeleteClauseProof::Simplified => 2,
    }
}
