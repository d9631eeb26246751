//! Set mode and Observe.
use super::{first_of, get, is_assumed, is_deleted, is_isolated, mode_of, names::Work, refused, Outcome, Table};

/// A global with neither user nor solver index that is isolated is deleted: D.
pub fn delete_if_unused(work: &mut Work, global: u32) {
    let t = &mut work.table;
    let record = t.record(global);
    if get(&t.user_from_global, global) == 0 && get(&t.solver_from_global, global) == 0 && is_isolated(record) {
        t.records[global as usize] = record + 36;
        work.note(2, global, 0);
    }
}

/// Same mode: nothing. Otherwise C unless the new mode is Hide; then, from Hide, U with the least unmapped user index, which is answered;
/// to Hide, U(g,-).
fn change_mode(work: &mut Work, global: u32, mode: u32) -> Option<u32> {
    let record = work.table.record(global);
    if mode_of(record) == mode {
        return None;
    }
    let changed = record - mode_of(record) + mode;
    if mode != 2 {
        work.note(3, global, (mode == 0) as u32);
    }
    if mode_of(record) == 2 {
        let user = work.table.next_user();
        work.table.give_user(global, user, changed);
        work.note(0, global, user + 1);
        return Some(user);
    }
    work.table.records[global as usize] = changed;
    if mode == 2 {
        work.table.take_user(global);
        work.note(0, global, 0);
        delete_if_unused(work, global);
    }
    None
}

/// 1; 3, global at or above its watermark; 6, deleted; 7, assumed, even for the same mode; 2.
pub fn set_mode(t: &Table, global: u32, mode: u32, room: usize) -> Outcome {
    if !t.is_sound() {
        return refused(1, t);
    }
    let record = t.record(global);
    let refusal = first_of(&[(global >= t.counts.global, 3), (is_deleted(record), 6), (is_assumed(record), 7)]);
    if refusal != 0 {
        return refused(refusal, t);
    }
    let mut work = Work::on(t);
    let user = change_mode(&mut work, global, mode);
    if work.short(room) {
        return refused(2, t);
    }
    work.accepted(user.map(u64::from).into_iter().collect())
}

/// Undeleted Hide globals in ascending order go to Witness; their users are answered. 1; 7, if any of them is assumed; 2.
pub fn observe(t: &Table, outs: usize, room: usize) -> Outcome {
    if !t.is_sound() {
        return refused(1, t);
    }
    let hidden: Vec<u32> = (0..t.counts.global).filter(|&g| !is_deleted(t.record(g)) && mode_of(t.record(g)) == 2).collect();
    if hidden.iter().any(|&g| is_assumed(t.record(g))) {
        return refused(7, t);
    }
    let mut work = Work::on(t);
    let words: Vec<u32> = hidden.iter().map(|&g| change_mode(&mut work, g, 1).unwrap()).collect();
    if outs < words.len() || work.short(room) {
        return refused(2, t);
    }
    let count = words.len() as u64;
    Outcome { words, ..work.accepted(vec![count]) }
}
