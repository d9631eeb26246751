//! Rename, Write and Simplify.
use super::{
    drat::{encode, Clause},
    first_of, get, named, refused, Outcome, Table, MOST_LITERALS,
};
use crate::call::{Cause, Format, ProofStep};

/// What DRAT writes for a step kind.
#[derive(Clone, Copy, PartialEq, Eq)]
enum Writes {
    Add,
    AddEach,
    Delete,
    Nothing,
    Refused,
}

/// Whether the kind carries literals to rename, and what is written.
fn rule(step: ProofStep) -> (bool, Writes) {
    match step {
        ProofStep::AtClause(_) => (true, Writes::Add),
        ProofStep::UnitClauses => (true, Writes::AddEach),
        ProofStep::DeleteClause(_) => (true, Writes::Delete),
        ProofStep::Model => (true, Writes::Nothing),
        ProofStep::AddClause | ProofStep::Assumptions | ProofStep::FailedAssumptions => (true, Writes::Refused),
        ProofStep::SolverVarName(..)
        | ProofStep::UserVarName(..)
        | ProofStep::DeleteVar(_)
        | ProofStep::ChangeSamplingMode(..)
        | ProofStep::ChangeHashBits(_)
        | ProofStep::End => (false, Writes::Nothing),
    }
}

fn has_hashes(step: ProofStep) -> bool {
    matches!(step, ProofStep::AtClause(_) | ProofStep::UnitClauses | ProofStep::FailedAssumptions)
}

/// A step in words: its kind's place in the table, then what it carries of its own.
pub fn step_words(step: ProofStep) -> Vec<u64> {
    match step {
        ProofStep::AddClause => vec![0],
        ProofStep::AtClause(redundant) => vec![1, redundant.into()],
        ProofStep::UnitClauses => vec![2],
        ProofStep::DeleteClause(cause) => vec![3, cause as u64],
        ProofStep::Model => vec![4],
        ProofStep::Assumptions => vec![5],
        ProofStep::FailedAssumptions => vec![6],
        ProofStep::SolverVarName(global, word) => vec![7, global.into(), word.into()],
        ProofStep::UserVarName(global, word) => vec![8, global.into(), word.into()],
        ProofStep::DeleteVar(global) => vec![9, global.into()],
        ProofStep::ChangeSamplingMode(global, sample) => vec![10, global.into(), sample.into()],
        ProofStep::ChangeHashBits(bits) => vec![11, bits.into()],
        ProofStep::End => vec![12],
    }
}

/// The clause steps written for literals under global names.
pub fn clause_steps(step: ProofStep, lits: &[u32]) -> Vec<Clause> {
    let clause = |delete: bool, lits: &[u32]| Clause { delete, lits: lits.to_vec() };
    match rule(step).1 {
        Writes::Add => vec![clause(false, lits)],
        Writes::AddEach => lits.iter().map(|&code| clause(false, &[code])).collect(),
        Writes::Delete => vec![clause(true, lits)],
        Writes::Nothing | Writes::Refused => vec![],
    }
}

/// The literals that the step carries, of those passed beside it.
pub fn carried(step: ProofStep, lits: &[u32]) -> &[u32] {
    if rule(step).0 {
        lits
    } else {
        &[]
    }
}

/// A solver literal goes, sign kept, under the global that holds its index; a global literal as given.
fn rename_lits(t: &Table, solver_vars: bool, lits: &[u32]) -> Vec<u32> {
    let under = |code: u32| 2 * named(get(&t.global_from_solver, code / 2)).unwrap() + code % 2;
    lits.iter().map(|&code| if solver_vars { under(code) } else { code }).collect()
}

/// 1; 14, units and hashes differ in number; 3, over 8,192 literals or a global literal's index at or above capacity; 8.
fn step_refusal(t: &Table, step: ProofStep, solver_vars: bool, lits: &[u32], hashes: &[u64]) -> u32 {
    let carried = carried(step, lits);
    let outside = !solver_vars && carried.iter().any(|code| code / 2 >= t.counts.capacity);
    first_of(&[
        (!t.is_sound(), 1),
        (step == ProofStep::UnitClauses && lits.len() != hashes.len(), 14),
        (carried.len() > MOST_LITERALS || outside, 3),
        (solver_vars && carried.iter().any(|code| t.not_held(code / 2)), 8),
    ])
}

/// Literals and hashes are filled, hashes unchanged; then 2.
pub fn rename(
    t: &Table,
    step: ProofStep,
    solver_vars: bool,
    lits: &[u32],
    hashes: &[u64],
    outs: usize,
    hash_outs: usize,
) -> Outcome {
    let refusal = step_refusal(t, step, solver_vars, lits, hashes);
    if refusal != 0 {
        return refused(refusal, t);
    }
    let words = rename_lits(t, solver_vars, carried(step, lits));
    let more = if has_hashes(step) { hashes.to_vec() } else { vec![] };
    if outs < words.len() || hash_outs < more.len() {
        return refused(2, t);
    }
    let mut values = vec![words.len() as u64, more.len() as u64];
    values.extend(step_words(step));
    Outcome { values, table: t.clone(), words, more, ..Outcome::default() }
}

/// Bytes are filled; 11, a kind DRAT lacks, then 2.
pub fn write(
    t: &Table,
    format: Format,
    step: ProofStep,
    solver_vars: bool,
    lits: &[u32],
    hashes: &[u64],
    room: usize,
) -> Outcome {
    let refusal = step_refusal(t, step, solver_vars, lits, hashes);
    if refusal != 0 {
        return refused(refusal, t);
    }
    if rule(step).1 == Writes::Refused {
        return refused(11, t);
    }
    let bytes = encode(format, &clause_steps(step, &rename_lits(t, solver_vars, carried(step, lits))));
    if room < bytes.len() {
        return refused(2, t);
    }
    Outcome { values: vec![bytes.len() as u64], table: t.clone(), bytes, ..Outcome::default() }
}

/// A true literal drops the clause, with one delete step; otherwise false literals go. If any went: an add step of the rest, then a delete
/// step of the old clause; two left then is binary. 1; 3, over 8,192 literals; 8; 12, none true, some false, fewer than two unknown; 2.
pub fn simplify(t: &Table, format: Format, lits: &[u32], redundant: bool, outs: usize, room: usize) -> Outcome {
    let early =
        first_of(&[(!t.is_sound(), 1), (lits.len() > MOST_LITERALS, 3), (lits.iter().any(|code| t.not_held(code / 2)), 8)]);
    if early != 0 {
        return refused(early, t);
    }
    let value = |code: u32| get(&t.assignment, code / 2);
    let is_true = |code: u32| value(code) == 2 - code % 2;
    let unknown: Vec<u32> = lits.iter().copied().filter(|&code| value(code) == 0).collect();
    let delete = |otherwise| ProofStep::DeleteClause(if redundant { Cause::Redundant } else { otherwise });
    let old = rename_lits(t, true, lits);

    let (made, rest, flag, steps) = if lits.iter().any(|&code| is_true(code)) {
        (1, vec![], false, clause_steps(delete(Cause::Satisfied), &old))
    } else if unknown.len() == lits.len() {
        (0, lits.to_vec(), false, vec![])
    } else if unknown.len() < 2 {
        return refused(12, t);
    } else {
        let flag = redundant && unknown.len() > 2;
        let mut steps = clause_steps(ProofStep::AtClause(flag), &rename_lits(t, true, &unknown));
        steps.extend(clause_steps(delete(Cause::Simplified), &old));
        (if unknown.len() == 2 { 3 } else { 2 }, unknown, flag, steps)
    };
    let bytes = encode(format, &steps);
    if outs < rest.len() || room < bytes.len() {
        return refused(2, t);
    }
    let values = vec![made, rest.len() as u64, flag.into(), bytes.len() as u64];
    Outcome { values, table: t.clone(), words: rest, bytes, ..Outcome::default() }
}
