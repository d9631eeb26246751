//! Model.
use super::{get, is_deleted, named, refused, unit_of, Outcome, Table};

/// A deleted global has none; one with a solver index has its assignment, perhaps none; any other has its unit, else false.
fn global_value(t: &Table, global: u32) -> u32 {
    let record = t.record(global);
    if is_deleted(record) {
        return 0;
    }
    match named(get(&t.solver_from_global, global)) {
        Some(solver) => get(&t.assignment, solver),
        None => unit_of(record).max(1),
    }
}

/// One word for each global below the watermark; user literals of mapped users in ascending order, those without a value left out. 1, 2.
pub fn model(t: &Table, globals: usize, users: usize) -> Outcome {
    if !t.is_sound() {
        return refused(1, t);
    }
    let words: Vec<u32> = (0..t.counts.global).map(|g| global_value(t, g)).collect();
    let mut lits = vec![];
    for user in 0..t.counts.user {
        if let Some(global) = named(get(&t.global_from_user, user)) {
            let value = global_value(t, global);
            if value != 0 {
                lits.push(u64::from(2 * user + (2 - value)));
            }
        }
    }
    if globals < words.len() || users < lits.len() {
        return refused(2, t);
    }
    Outcome { values: vec![words.len() as u64, lits.len() as u64], table: t.clone(), words, more: lits, ..Outcome::default() }
}
