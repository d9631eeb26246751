//! Remove and Sweep.
use super::{get, is_assumed, is_isolated, mode_of, modes::delete_if_unused, named, names::Work, refused, Outcome, Table};

/// S(g,-), then D if unused. The assignment word stays.
fn remove_held(work: &mut Work, global: u32, solver: u32) {
    work.table.take_solver(global, solver);
    work.note(1, global, 0);
    delete_if_unused(work, global);
}

/// 1; 8, solver index not held; 16, its global is assumed; 2.
pub fn remove(t: &Table, solver: u32, room: usize) -> Outcome {
    if !t.is_sound() {
        return refused(1, t);
    }
    let Some(global) = named(get(&t.global_from_solver, solver)) else {
        return refused(8, t);
    };
    if is_assumed(t.record(global)) {
        return refused(16, t);
    }
    let mut work = Work::on(t);
    remove_held(&mut work, global, solver);
    if work.short(room) {
        return refused(2, t);
    }
    work.accepted(vec![])
}

/// For each held solver index in ascending order, a value becomes the unit and sets isolated; then isolated and not assumed is removed.
/// 1, 2.
pub fn sweep(t: &Table, room: usize) -> Outcome {
    if !t.is_sound() {
        return refused(1, t);
    }
    let mut work = Work::on(t);
    for solver in 0..t.counts.solver {
        let Some(global) = named(get(&work.table.global_from_solver, solver)) else {
            continue;
        };
        let value = get(&work.table.assignment, solver);
        let record = &mut work.table.records[global as usize];
        if value != 0 {
            *record = mode_of(*record) + 3 * value + 9 + 18 * is_assumed(*record) as u32;
        }
        if is_isolated(*record) && !is_assumed(*record) {
            remove_held(&mut work, global, solver);
        }
    }
    if work.short(room) {
        return refused(2, t);
    }
    work.accepted(vec![])
}
