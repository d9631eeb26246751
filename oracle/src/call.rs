//! The calls, with the room lent to each, and who answers them.
use crate::reading::{
    self,
    drat::{self, Clause},
    Outcome, Table,
};
use varisat_unchanged::drive::{self, pairs::Thinned, Made, Oracle, Step};

pub use varisat_unchanged::drive::Format;

/// What a Lookup is asked for.
#[derive(Clone, Copy, PartialEq, Eq, Debug)]
pub enum Asked {
    GlobalFromUser,
    UserFromGlobal,
    SolverFromGlobal,
    GlobalFromSolver,
    Record,
    Assignment,
}

pub const ASKED: [Asked; 6] = [
    Asked::GlobalFromUser,
    Asked::UserFromGlobal,
    Asked::SolverFromGlobal,
    Asked::GlobalFromSolver,
    Asked::Record,
    Asked::Assignment,
];

#[derive(Clone, Copy, PartialEq, Eq, Debug)]
pub enum Mark {
    Used,
    Assumed,
    Released,
}

pub const MARKS: [Mark; 3] = [Mark::Used, Mark::Assumed, Mark::Released];

#[derive(Clone, Copy, PartialEq, Eq, Debug)]
pub enum Cause {
    Redundant,
    Satisfied,
    Simplified,
}

pub const CAUSES: [Cause; 3] = [Cause::Redundant, Cause::Satisfied, Cause::Simplified];

/// The thirteen step kinds; literals and hashes stand beside the step. A name is its index + 1, or 0 where it is withdrawn.
#[derive(Clone, Copy, PartialEq, Eq, Debug)]
pub enum ProofStep {
    AddClause,
    AtClause(bool),
    UnitClauses,
    DeleteClause(Cause),
    Model,
    Assumptions,
    FailedAssumptions,
    SolverVarName(u32, u32),
    UserVarName(u32, u32),
    DeleteVar(u32),
    ChangeSamplingMode(u32, bool),
    ChangeHashBits(u32),
    End,
}

/// A call with its arguments and the lengths of the slices that it is lent to fill. Lists of binary clauses are given in words.
#[derive(Clone, PartialEq, Eq, Debug)]
pub enum Call {
    Lookup { asked: Asked, index: u32 },
    Map { user: u32, sampling: bool, room: usize },
    NewUser { room: usize },
    Pose { lits: Vec<u32>, sampling: bool, outs: usize, room: usize },
    Grant { global: u32, room: usize },
    SetMode { global: u32, mode: u32, room: usize },
    Observe { outs: usize, room: usize },
    Mark { mark: Mark, solver: u32 },
    Assign { lit: u32 },
    Remove { solver: u32, room: usize },
    Sweep { room: usize },
    Simplify { lits: Vec<u32>, redundant: bool, outs: usize, room: usize },
    Rename { step: ProofStep, solver_vars: bool, lits: Vec<u32>, hashes: Vec<u64>, outs: usize, hash_outs: usize },
    Write { step: ProofStep, solver_vars: bool, lits: Vec<u32>, hashes: Vec<u64>, room: usize },
    Model { globals: usize, users: usize },
    SimplifyBinary { lists: Vec<u32>, outs: usize, room: usize },
}

pub const KINDS: [&str; 16] = [
    "Lookup", "Map", "New user", "Pose", "Grant", "Set mode", "Observe", "Mark", "Assign", "Remove", "Sweep", "Simplify",
    "Rename", "Write", "Model", "Binary",
];

impl Call {
    /// The place in `KINDS`.
    pub fn kind(&self) -> usize {
        match self {
            Call::Lookup { .. } => 0,
            Call::Map { .. } => 1,
            Call::NewUser { .. } => 2,
            Call::Pose { .. } => 3,
            Call::Grant { .. } => 4,
            Call::SetMode { .. } => 5,
            Call::Observe { .. } => 6,
            Call::Mark { .. } => 7,
            Call::Assign { .. } => 8,
            Call::Remove { .. } => 9,
            Call::Sweep { .. } => 10,
            Call::Simplify { .. } => 11,
            Call::Rename { .. } => 12,
            Call::Write { .. } => 13,
            Call::Model { .. } => 14,
            Call::SimplifyBinary { .. } => 15,
        }
    }

    /// The lengths lent: the first slice that the call fills besides notes and bytes, the second, and then notes or bytes.
    pub fn rooms(&mut self) -> Vec<&mut usize> {
        match self {
            Call::Lookup { .. } | Call::Mark { .. } | Call::Assign { .. } => vec![],
            Call::Map { room, .. }
            | Call::NewUser { room }
            | Call::Grant { room, .. }
            | Call::SetMode { room, .. }
            | Call::Remove { room, .. }
            | Call::Sweep { room }
            | Call::Write { room, .. } => vec![room],
            Call::Pose { outs, room, .. }
            | Call::Observe { outs, room }
            | Call::Simplify { outs, room, .. }
            | Call::SimplifyBinary { outs, room, .. } => vec![outs, room],
            Call::Rename { outs, hash_outs, .. } => vec![outs, hash_outs],
            Call::Model { globals, users } => vec![globals, users],
        }
    }

    /// How much of each of its rooms an accepted call filled.
    pub fn filled(&self, o: &Outcome) -> Vec<usize> {
        match self {
            Call::Lookup { .. } | Call::Mark { .. } | Call::Assign { .. } => vec![],
            Call::Write { .. } => vec![o.bytes.len()],
            Call::Pose { .. } | Call::Observe { .. } => vec![o.words.len(), o.notes.len()],
            Call::Simplify { .. } | Call::SimplifyBinary { .. } => vec![o.words.len(), o.bytes.len()],
            Call::Rename { .. } | Call::Model { .. } => vec![o.words.len(), o.more.len()],
            _ => vec![o.notes.len()],
        }
    }

    /// By document 01.
    pub fn read(&self, format: Format, t: &Table) -> Outcome {
        use reading::{binary, model, modes, names, remove, steps};
        match self {
            Call::Lookup { asked, index } => names::lookup(t, *asked, *index),
            Call::Map { user, sampling, room } => names::map(t, *user, *sampling, *room),
            Call::NewUser { room } => names::new_user(t, *room),
            Call::Pose { lits, sampling, outs, room } => names::pose(t, lits, *sampling, *outs, *room),
            Call::Grant { global, room } => names::grant(t, *global, *room),
            Call::SetMode { global, mode, room } => modes::set_mode(t, *global, *mode, *room),
            Call::Observe { outs, room } => modes::observe(t, *outs, *room),
            Call::Mark { mark, solver } => names::mark(t, *mark, *solver),
            Call::Assign { lit } => names::assign(t, *lit),
            Call::Remove { solver, room } => remove::remove(t, *solver, *room),
            Call::Sweep { room } => remove::sweep(t, *room),
            Call::Simplify { lits, redundant, outs, room } => steps::simplify(t, format, lits, *redundant, *outs, *room),
            Call::Rename { step, solver_vars, lits, hashes, outs, hash_outs } => {
                steps::rename(t, *step, *solver_vars, lits, hashes, *outs, *hash_outs)
            }
            Call::Write { step, solver_vars, lits, hashes, room } => {
                steps::write(t, format, *step, *solver_vars, lits, hashes, *room)
            }
            Call::Model { globals, users } => model::model(t, *globals, *users),
            Call::SimplifyBinary { lists, outs, room } => binary::simplify_binary(t, format, lists, *outs, *room),
        }
    }

    /// By varisat's own functions; only for calls that are accepted. The table is left out.
    pub fn run(&self, format: Format, rust: &mut Oracle) -> Outcome {
        match self {
            Call::Lookup { asked, index } => told(look(rust, *asked, *index).into_iter().collect()),
            Call::Map { user, sampling, .. } => {
                let (global, notes) = rust.map(*user, *sampling);
                noted(vec![global], notes)
            }
            Call::NewUser { .. } => {
                let (user, notes) = rust.new_user();
                noted(vec![user, rust.lookup(0, user) - 1], notes)
            }
            Call::Pose { lits, sampling, .. } => {
                let (words, notes) = rust.pose(lits, *sampling);
                Outcome { words, ..noted(vec![lits.len() as u32], notes) }
            }
            Call::Grant { global, .. } => {
                let (solver, notes) = rust.grant(*global);
                noted(vec![solver], notes)
            }
            Call::SetMode { global, mode, .. } => {
                let (user, notes) = rust.set_mode(*global, *mode);
                noted(user.into_iter().collect(), notes)
            }
            Call::Observe { .. } => {
                let (words, notes) = rust.observe();
                Outcome { words: words.clone(), ..noted(vec![words.len() as u32], notes) }
            }
            Call::Mark { mark, solver } => {
                match mark {
                    Mark::Used => rust.used(*solver),
                    Mark::Assumed => rust.assumed(*solver, true),
                    Mark::Released => rust.assumed(*solver, false),
                }
                Outcome::default()
            }
            Call::Assign { lit } => {
                rust.assign(*lit);
                Outcome::default()
            }
            Call::Remove { solver, .. } => noted(vec![], rust.remove(*solver)),
            Call::Sweep { .. } => noted(vec![], rust.sweep()),
            Call::Simplify { lits, redundant, .. } => simplified(rust.simplify(lits, *redundant, format), *redundant),
            Call::Rename { step, solver_vars, lits, hashes, .. } => {
                let became = rust.step(given(*step, lits, hashes), *solver_vars, None);
                assert!(became.bytes.is_empty());
                let mut values = vec![became.lits.len() as u64, became.hashes.len() as u64, reading::steps::step_words(*step)[0]];
                values.extend(became.own.iter().map(|&word| u64::from(word)));
                Outcome { values, words: became.lits, more: became.hashes, ..Outcome::default() }
            }
            Call::Write { step, solver_vars, lits, hashes, .. } => {
                let bytes = rust.step(given(*step, lits, hashes), *solver_vars, Some(format)).bytes;
                Outcome { values: vec![bytes.len() as u64], bytes, ..Outcome::default() }
            }
            Call::Model { .. } => {
                let (words, users) = rust.model();
                let values = vec![words.len() as u64, users.len() as u64];
                Outcome { values, words, more: users.into_iter().map(u64::from).collect(), ..Outcome::default() }
            }
            Call::SimplifyBinary { lists, .. } => thinned(rust.simplify_binary(lists, format), format),
        }
    }
}

/// Varisat's state as a table of this capacity: above the watermarks nothing is held. The stored numbers, which it lacks, are 0.
pub fn table_of(state: &drive::State, capacity: u32) -> Table {
    let mut t = Table::empty(capacity);
    t.counts.user = state.global_from_user.len() as u32;
    t.counts.global = state.records.len() as u32;
    t.counts.solver = state.global_from_solver.len() as u32;
    let lists = [
        &state.global_from_user,
        &state.user_from_global,
        &state.solver_from_global,
        &state.global_from_solver,
        &state.assignment,
        &state.records,
    ];
    for (list, given) in t.lists_mut().into_iter().zip(lists) {
        list[..given.len()].copy_from_slice(given);
    }
    t
}

/// And back.
pub fn state_of(t: &Table) -> drive::State {
    let (user, global, solver) = (t.counts.user as usize, t.counts.global as usize, t.counts.solver as usize);
    drive::State {
        global_from_user: t.global_from_user[..user].to_vec(),
        user_from_global: t.user_from_global[..global].to_vec(),
        solver_from_global: t.solver_from_global[..global].to_vec(),
        global_from_solver: t.global_from_solver[..solver].to_vec(),
        assignment: t.assignment[..solver].to_vec(),
        records: t.records[..global].to_vec(),
    }
}

fn told(values: Vec<u32>) -> Outcome {
    Outcome { values: values.into_iter().map(u64::from).collect(), ..Outcome::default() }
}

fn noted(mut values: Vec<u32>, notes: Vec<u32>) -> Outcome {
    values.push(notes.len() as u32 / 3);
    Outcome { notes, ..told(values) }
}

fn look(rust: &Oracle, asked: Asked, index: u32) -> Option<u32> {
    // the crate's variables end below this index
    if index >= 1 << 28 {
        return None;
    }
    let map = match asked {
        Asked::GlobalFromUser => 0,
        Asked::UserFromGlobal => 1,
        Asked::SolverFromGlobal => 2,
        Asked::GlobalFromSolver => 3,
        Asked::Record => return rust.state().records.get(index as usize).copied(),
        Asked::Assignment => return rust.state().assignment.get(index as usize).copied(),
    };
    rust.lookup(map, index).checked_sub(1)
}

fn simplified(s: drive::Simplified, redundant: bool) -> Outcome {
    let (made, cause) = match s.made {
        Made::Kept => (0, None),
        Made::Dropped => (1, Some(drive::Cause::Satisfied)),
        Made::Shortened => (2, Some(drive::Cause::Simplified)),
        Made::Binary => (3, Some(drive::Cause::Simplified)),
    };
    // the delete step's cause, which DRAT does not write
    assert_eq!(s.cause, cause.map(|cause| if redundant { drive::Cause::Redundant } else { cause }));
    let values = vec![made, s.rest.len() as u32, s.redundant as u32, s.bytes.len() as u32];
    Outcome { words: s.rest, bytes: s.bytes, ..told(values) }
}

fn thinned(thinned: Thinned, format: Format) -> Outcome {
    let Thinned { words, count, steps, bytes } = thinned;
    // the steps as recorded, whose cause DRAT does not write, are those that the bytes say
    assert!(steps.iter().all(|(_, cause)| *cause == drive::Cause::Satisfied));
    let clauses = steps.into_iter().map(|(lits, _)| Clause { delete: true, lits }).collect();
    assert_eq!(drat::read(format, &bytes), Ok(clauses));
    let values = vec![words.len() as u32, count as u32, bytes.len() as u32];
    Outcome { words, bytes, ..told(values) }
}

/// The step with the literals and the hashes that its kind carries.
fn given<'a>(step: ProofStep, lits: &'a [u32], hashes: &'a [u64]) -> Step<'a> {
    match step {
        ProofStep::AddClause => Step::AddClause(lits),
        ProofStep::AtClause(redundant) => Step::AtClause(redundant, lits, hashes),
        ProofStep::UnitClauses => Step::UnitClauses(lits, hashes),
        ProofStep::DeleteClause(Cause::Redundant) => Step::DeleteClause(lits, drive::Cause::Redundant),
        ProofStep::DeleteClause(Cause::Satisfied) => Step::DeleteClause(lits, drive::Cause::Satisfied),
        ProofStep::DeleteClause(Cause::Simplified) => Step::DeleteClause(lits, drive::Cause::Simplified),
        ProofStep::Model => Step::Model(lits),
        ProofStep::Assumptions => Step::Assumptions(lits),
        ProofStep::FailedAssumptions => Step::FailedAssumptions(lits, hashes),
        ProofStep::SolverVarName(global, word) => Step::SolverVarName(global, word),
        ProofStep::UserVarName(global, word) => Step::UserVarName(global, word),
        ProofStep::DeleteVar(global) => Step::DeleteVar(global),
        ProofStep::ChangeSamplingMode(global, sample) => Step::ChangeSamplingMode(global, sample),
        ProofStep::ChangeHashBits(bits) => Step::ChangeHashBits(bits),
        ProofStep::End => Step::End,
    }
}
