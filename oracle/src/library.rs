//! The proved library, through the safe crate: the calls that test the table, and beside them, on a sound table, those that know it to be sound.
use std::ops::Range;

use crate::call::{Asked, Call, Cause, Format, Mark, ProofStep};
use crate::calls::Calls;
use crate::reading::{dimacs, drat::Filled, Counts, Outcome, Table};
use hintzobar::{Global, Lists, Lit, Lits, Made, Mode, Name, Notes, Parts, Refusal, Solver, Step, User};

/// What lent memory holds before a call, so that words past what was filled are seen to stay.
const BEFORE: u32 = 0xa5a5_a5a5;

pub struct Library {
    tested: Side<Parts>,
    /// None where the table is not sound.
    known: Option<Side<hintzobar::Table>>,
}

struct Side<T> {
    table: T,
    format: Format,
}

pub fn format_of(format: Format) -> hintzobar::Format {
    match format {
        Format::Text => hintzobar::Format::Text,
        Format::Binary => hintzobar::Format::Binary,
    }
}

fn lits<N: Name>(codes: &[u32]) -> Vec<Lit<N>> {
    codes.iter().map(|&code| Lit::from_code(code)).collect()
}

/// The filled part as codes; the rest must be as it was.
fn filled<N: Name>(out: &[Lit<N>], count: usize) -> Result<Vec<u32>, String> {
    kept(&out.iter().map(|lit| lit.code()).collect::<Vec<u32>>(), count, BEFORE)
}

fn kept<T: Copy + PartialEq>(out: &[T], count: usize, before: T) -> Result<Vec<T>, String> {
    if out.len() < count {
        return Err(format!("{} filled of {}", count, out.len()));
    }
    if out[count..].iter().any(|&word| word != before) {
        return Err("a word past what was filled has changed".into());
    }
    Ok(out[..count].to_vec())
}

fn step_of(step: ProofStep) -> Step {
    match step {
        ProofStep::AddClause => Step::AddClause,
        ProofStep::AtClause(redundant) => Step::AtClause(redundant),
        ProofStep::UnitClauses => Step::UnitClauses,
        ProofStep::DeleteClause(Cause::Redundant) => Step::DeleteClause(hintzobar::Cause::Redundant),
        ProofStep::DeleteClause(Cause::Satisfied) => Step::DeleteClause(hintzobar::Cause::Satisfied),
        ProofStep::DeleteClause(Cause::Simplified) => Step::DeleteClause(hintzobar::Cause::Simplified),
        ProofStep::Model => Step::Model,
        ProofStep::Assumptions => Step::Assumptions,
        ProofStep::FailedAssumptions => Step::FailedAssumptions,
        ProofStep::SolverVarName(global, word) => Step::SolverVarName(Global(global), word.checked_sub(1).map(Solver)),
        ProofStep::UserVarName(global, word) => Step::UserVarName(Global(global), word.checked_sub(1).map(User)),
        ProofStep::DeleteVar(global) => Step::DeleteVar(Global(global)),
        ProofStep::ChangeSamplingMode(global, sample) => Step::ChangeSamplingMode(Global(global), sample),
        ProofStep::ChangeHashBits(bits) => Step::ChangeHashBits(bits),
        ProofStep::End => Step::End,
    }
}

/// The step in words: its kind's place in the table, then what it carries of its own.
fn step_words(step: Step) -> Vec<u64> {
    let word = |index: Option<u32>| index.map_or(0, |index| u64::from(index) + 1);
    match step {
        Step::AddClause => vec![0],
        Step::AtClause(redundant) => vec![1, redundant.into()],
        Step::UnitClauses => vec![2],
        Step::DeleteClause(hintzobar::Cause::Redundant) => vec![3, 0],
        Step::DeleteClause(hintzobar::Cause::Satisfied) => vec![3, 1],
        Step::DeleteClause(hintzobar::Cause::Simplified) => vec![3, 2],
        Step::Model => vec![4],
        Step::Assumptions => vec![5],
        Step::FailedAssumptions => vec![6],
        Step::SolverVarName(global, solver) => vec![7, global.0.into(), word(solver.map(|s| s.0))],
        Step::UserVarName(global, user) => vec![8, global.0.into(), word(user.map(|u| u.0))],
        Step::DeleteVar(global) => vec![9, global.0.into()],
        Step::ChangeSamplingMode(global, sample) => vec![10, global.0.into(), sample.into()],
        Step::ChangeHashBits(bits) => vec![11, bits.into()],
        Step::End => vec![12],
    }
}

impl Library {
    pub fn load(format: Format, t: &Table) -> Library {
        let counts = hintzobar::Counts {
            capacity: t.counts.capacity,
            user: t.counts.user,
            global: t.counts.global,
            solver: t.counts.solver,
            used: t.counts.used,
            next: t.counts.next,
        };
        let lists = Lists {
            global_from_user: t.global_from_user.clone(),
            user_from_global: t.user_from_global.clone(),
            solver_from_global: t.solver_from_global.clone(),
            global_from_solver: t.global_from_solver.clone(),
            assignment: t.assignment.clone(),
            records: t.records.clone(),
        };
        let table = Parts { counts, lists };
        let known = hintzobar::Table::try_from(table.clone()).ok();
        Library { tested: Side { table, format }, known: known.map(|table| Side { table, format }) }
    }

    pub fn is_sound(&self) -> bool {
        self.tested.table.is_sound()
    }

    /// Open in this memory, on each side.
    pub fn open(t: &Table) -> Vec<Outcome> {
        let Library { mut tested, known } = Library::load(Format::Text, t);
        let mut outcomes = vec![tested.open(t.counts.capacity)];
        outcomes.extend(known.map(|mut known| known.open(t.counts.capacity)));
        outcomes
    }

    /// The call's outcome on each side, and its name.
    pub fn call(&mut self, call: &Call) -> Result<Vec<(&'static str, Outcome)>, String> {
        let mut outcomes = vec![("the library", self.tested.call(call)?)];
        if let Some(known) = &mut self.known {
            outcomes.push(("the library's known table", known.call(call)?));
        }
        Ok(outcomes)
    }
}

impl<T: Calls> Side<T> {
    fn table(&self) -> Table {
        let Parts { counts: c, lists: l } = self.table.parts();
        Table {
            counts: Counts { capacity: c.capacity, user: c.user, global: c.global, solver: c.solver, used: c.used, next: c.next },
            global_from_user: l.global_from_user.clone(),
            user_from_global: l.user_from_global.clone(),
            solver_from_global: l.solver_from_global.clone(),
            global_from_solver: l.global_from_solver.clone(),
            assignment: l.assignment.clone(),
            records: l.records.clone(),
        }
    }

    fn open(&mut self, capacity: u32) -> Outcome {
        let refusal = self.table.reopen(capacity).err().map_or(0, Refusal::number);
        Outcome { refusal, table: self.table(), ..Outcome::default() }
    }

    /// The call's outcome; every slice is lent with words of its own, and on a refusal none may have changed.
    fn call(&mut self, call: &Call) -> Result<Outcome, String> {
        let mut outcome = self.answer(call)?;
        outcome.table = self.table();
        Ok(outcome)
    }

    fn answer(&mut self, call: &Call) -> Result<Outcome, String> {
        match call {
            Call::Lookup { asked, index } => told(self.look(*asked, *index)),
            Call::Map { user, sampling, room } => {
                self.noting(*room, |table, notes| table.map(User(*user), *sampling, notes).map(|global| vec![global.0]))
            }
            Call::NewUser { room } => {
                self.noting(*room, |table, notes| table.new_user(notes).map(|(user, global)| vec![user.0, global.0]))
            }
            Call::Pose { lits: codes, sampling, outs, room } => {
                let mut out = vec![Lit::from_code(BEFORE); *outs];
                let posed = lits(codes);
                let o = self.noting(*room, |table, notes| {
                    table.pose(&posed, *sampling, &mut out, notes).map(|count| vec![count as u32])
                })?;
                let words = filled(&out, o.values.first().map_or(0, |&count| count as usize))?;
                Ok(Outcome { words, ..o })
            }
            Call::Grant { global, room } => {
                self.noting(*room, |table, notes| table.grant(Global(*global), notes).map(|solver| vec![solver.0]))
            }
            Call::SetMode { global, mode, room } => {
                let mode = [Mode::Sample, Mode::Witness, Mode::Hide][*mode as usize];
                self.noting(*room, |table, notes| {
                    table.set_mode(Global(*global), mode, notes).map(|user| user.map(|user| user.0).into_iter().collect())
                })
            }
            Call::Observe { outs, room } => {
                let mut out = vec![User(BEFORE); *outs];
                let o = self.noting(*room, |table, notes| table.observe(&mut out, notes).map(|count| vec![count as u32]))?;
                let out: Vec<u32> = out.iter().map(|user| user.0).collect();
                let words = kept(&out, o.values.first().map_or(0, |&count| count as usize), BEFORE)?;
                Ok(Outcome { words, ..o })
            }
            Call::Mark { mark, solver } => {
                let mark = match mark {
                    Mark::Used => hintzobar::Mark::Used,
                    Mark::Assumed => hintzobar::Mark::Assumed,
                    Mark::Released => hintzobar::Mark::Released,
                };
                told(self.table.mark(mark, Solver(*solver)).map(|()| None))
            }
            Call::Assign { lit } => told(self.table.assign(Lit::from_code(*lit)).map(|()| None)),
            Call::Remove { solver, room } => {
                self.noting(*room, |table, notes| table.remove(Solver(*solver), notes).map(|()| vec![]))
            }
            Call::Sweep { room } => self.noting(*room, |table, notes| table.sweep(notes).map(|()| vec![])),
            Call::Simplify { lits, redundant, outs, room } => self.simplify(lits, *redundant, *outs, *room),
            Call::Rename { step, solver_vars, lits, hashes, outs, hash_outs } => {
                self.rename(*step, *solver_vars, lits, hashes, *outs, *hash_outs)
            }
            Call::Write { step, solver_vars, lits, hashes, room } => self.write(*step, *solver_vars, lits, hashes, *room),
            Call::Model { globals, users } => self.model(*globals, *users),
            Call::SimplifyBinary { lists, outs, room } => self.simplify_binary(lists, *outs, *room),
        }
    }

    fn look(&self, asked: Asked, index: u32) -> Result<Option<u32>, Refusal> {
        let t = &self.table;
        match asked {
            Asked::GlobalFromUser => t.global_from_user(User(index)).map(|found| found.map(|global| global.0)),
            Asked::UserFromGlobal => t.user_from_global(Global(index)).map(|found| found.map(|user| user.0)),
            Asked::SolverFromGlobal => t.solver_from_global(Global(index)).map(|found| found.map(|solver| solver.0)),
            Asked::GlobalFromSolver => t.global_from_solver(Solver(index)).map(|found| found.map(|global| global.0)),
            Asked::Record => t.record(Global(index)),
            Asked::Assignment => t.assignment(Solver(index)),
        }
    }

    /// A call that fills notes: the values, then the count of notes.
    fn noting(
        &mut self,
        room: usize,
        call: impl FnOnce(&mut T, &mut Notes) -> Result<Vec<u32>, Refusal>,
    ) -> Result<Outcome, String> {
        let mut notes = Notes::from(vec![BEFORE; room]);
        match call(&mut self.table, &mut notes) {
            Ok(values) => {
                let mut values: Vec<u64> = values.into_iter().map(u64::from).collect();
                values.push(notes.len() as u64);
                Ok(Outcome { values, notes: kept(notes.words(), 3 * notes.len(), BEFORE)?, ..Outcome::default() })
            }
            Err(refusal) => {
                kept(notes.words(), 0, BEFORE)?;
                Ok(Outcome { refusal: refusal.number(), ..Outcome::default() })
            }
        }
    }

    fn simplify(&mut self, codes: &[u32], redundant: bool, outs: usize, room: usize) -> Result<Outcome, String> {
        let mut out = vec![Lit::from_code(BEFORE); outs];
        let mut proof = vec![BEFORE as u8; room];
        match self.table.simplify(format_of(self.format), &lits(codes), redundant, &mut out, &mut proof) {
            Err(refusal) => {
                filled(&out, 0)?;
                kept(&proof, 0, BEFORE as u8)?;
                Ok(Outcome { refusal: refusal.number(), ..Outcome::default() })
            }
            Ok(answer) => {
                let made = match answer.made {
                    Made::Kept => 0,
                    Made::Dropped => 1,
                    Made::Shortened => 2,
                    Made::Binary => 3,
                };
                Ok(Outcome {
                    values: vec![made, answer.lits as u64, answer.redundant.into(), answer.bytes as u64],
                    words: filled(&out, answer.lits)?,
                    bytes: kept(&proof, answer.bytes, BEFORE as u8)?,
                    ..Outcome::default()
                })
            }
        }
    }

    fn simplify_binary(&mut self, lists: &[u32], outs: usize, room: usize) -> Result<Outcome, String> {
        let mut out = vec![BEFORE; outs];
        let mut proof = vec![BEFORE as u8; room];
        match self.table.simplify_binary(format_of(self.format), lists, &mut out, &mut proof) {
            Err(refusal) => {
                kept(&out, 0, BEFORE)?;
                kept(&proof, 0, BEFORE as u8)?;
                Ok(Outcome { refusal: refusal.number(), ..Outcome::default() })
            }
            Ok(answer) => Ok(Outcome {
                values: [answer.words, answer.half, answer.bytes].map(|count| count as u64).to_vec(),
                words: kept(&out, answer.words, BEFORE)?,
                bytes: kept(&proof, answer.bytes, BEFORE as u8)?,
                ..Outcome::default()
            }),
        }
    }

    fn rename(
        &mut self,
        step: ProofStep,
        solver_vars: bool,
        codes: &[u32],
        hashes: &[u64],
        outs: usize,
        hash_outs: usize,
    ) -> Result<Outcome, String> {
        let mut out = vec![Lit::from_code(BEFORE); outs];
        let mut hash_out = vec![u64::MAX; hash_outs];
        let (solver, global) = (lits(codes), lits(codes));
        let given = if solver_vars { Lits::Solver(&solver) } else { Lits::Global(&global) };
        match self.table.rename(step_of(step), given, hashes, &mut out, &mut hash_out) {
            Err(refusal) => {
                filled(&out, 0)?;
                kept(&hash_out, 0, u64::MAX)?;
                Ok(Outcome { refusal: refusal.number(), ..Outcome::default() })
            }
            Ok(answer) => {
                let mut values = vec![answer.lits as u64, answer.hashes as u64];
                values.extend(step_words(answer.step));
                Ok(Outcome {
                    values,
                    words: filled(&out, answer.lits)?,
                    more: kept(&hash_out, answer.hashes, u64::MAX)?,
                    ..Outcome::default()
                })
            }
        }
    }

    fn write(
        &mut self,
        step: ProofStep,
        solver_vars: bool,
        codes: &[u32],
        hashes: &[u64],
        room: usize,
    ) -> Result<Outcome, String> {
        let mut proof = vec![BEFORE as u8; room];
        let (solver, global) = (lits(codes), lits(codes));
        let given = if solver_vars { Lits::Solver(&solver) } else { Lits::Global(&global) };
        match self.table.write(format_of(self.format), step_of(step), given, hashes, &mut proof) {
            Err(refusal) => {
                kept(&proof, 0, BEFORE as u8)?;
                Ok(Outcome { refusal: refusal.number(), ..Outcome::default() })
            }
            Ok(count) => {
                let bytes = kept(&proof, count, BEFORE as u8)?;
                Ok(Outcome { values: vec![count as u64], bytes, ..Outcome::default() })
            }
        }
    }

    fn model(&mut self, globals: usize, users: usize) -> Result<Outcome, String> {
        let mut words = vec![BEFORE; globals];
        let mut lits = vec![Lit::from_code(BEFORE); users];
        match self.table.model(&mut words, &mut lits) {
            Err(refusal) => {
                kept(&words, 0, BEFORE)?;
                filled(&lits, 0)?;
                Ok(Outcome { refusal: refusal.number(), ..Outcome::default() })
            }
            Ok((globals, users)) => Ok(Outcome {
                values: vec![globals as u64, users as u64],
                words: kept(&words, globals, BEFORE)?,
                more: filled(&lits, users)?.into_iter().map(u64::from).collect(),
                ..Outcome::default()
            }),
        }
    }
}

fn told(answer: Result<Option<u32>, Refusal>) -> Result<Outcome, String> {
    Ok(match answer {
        Ok(value) => Outcome { values: value.map(u64::from).into_iter().collect(), ..Outcome::default() },
        Err(refusal) => Outcome { refusal: refusal.number(), ..Outcome::default() },
    })
}

/// Read, with slices of these lengths.
pub fn read(format: Format, bytes: &[u8], rooms: [usize; 3]) -> Result<Filled, String> {
    let mut lits = vec![Lit::from_code(BEFORE); rooms[0]];
    let mut ends = vec![u64::MAX; rooms[1]];
    let mut kinds = vec![BEFORE as u8; rooms[2]];
    let answer = hintzobar::read(format_of(format), bytes, &mut lits, &mut ends, &mut kinds);
    let (count, steps) = answer.map_or((0, 0), |reading| (reading.lits, reading.steps));
    let place = if let Err(Refusal::BrokenProof(place)) = answer { place.byte } else { 0 };
    Ok(Filled {
        refusal: answer.err().map_or(0, Refusal::number),
        place,
        codes: filled(&lits, count)?,
        ends: kept(&ends, steps, u64::MAX)?,
        kinds: kept(&kinds, steps, BEFORE as u8)?,
    })
}

/// From where to where the first step stands, or the place of the fault.
pub fn first_step(format: Format, bytes: &[u8]) -> Result<Range<usize>, usize> {
    match hintzobar::first_range(format_of(format), bytes) {
        Ok(range) => Ok(range),
        Err(Refusal::BrokenProof(place)) => Err(place.byte),
        Err(_) => Err(usize::MAX),
    }
}

/// A whole proof written into so many bytes.
pub fn write_proof(format: Format, lists: &Filled, room: usize) -> Result<Result<Vec<u8>, u32>, String> {
    let mut proof = vec![BEFORE as u8; room];
    Ok(match hintzobar::write_proof(format_of(format), &lits(&lists.codes), &lists.ends, &lists.kinds, &mut proof) {
        Ok(length) => Ok(kept(&proof, length, BEFORE as u8)?),
        Err(refusal) => {
            kept(&proof, 0, BEFORE as u8)?;
            Err(refusal.number())
        }
    })
}

/// Read CNF, with slices of these lengths.
pub fn read_cnf(file: &[u8], rooms: [usize; 2]) -> Result<dimacs::Filled, String> {
    let mut lits = vec![Lit::from_code(BEFORE); rooms[0]];
    let mut ends = vec![u64::MAX; rooms[1]];
    let answer = hintzobar::read_cnf(file, &mut lits, &mut ends);
    let (variables, count, clauses) = answer.map_or((0, 0, 0), |cnf| (cnf.variables, cnf.lits, cnf.clauses));
    let place = if let Err(Refusal::BadCnf(place)) = answer { place } else { 0 };
    Ok(dimacs::Filled {
        refusal: answer.err().map_or(0, Refusal::number),
        place,
        variables,
        codes: filled(&lits, count)?,
        ends: kept(&ends, clauses, u64::MAX)?,
    })
}

/// Write CNF, into so many bytes.
pub fn write_cnf(codes: &[u32], ends: &[u64], room: usize) -> Result<Result<Vec<u8>, u32>, String> {
    let mut file = vec![BEFORE as u8; room];
    Ok(match hintzobar::write_cnf(&lits(codes), ends, &mut file) {
        Ok(length) => Ok(kept(&file, length, BEFORE as u8)?),
        Err(refusal) => {
            kept(&file, 0, BEFORE as u8)?;
            Err(refusal.number())
        }
    })
}
