//! The tables that are measured.
use hintzobar::{Counts, Lists, Table, User};
use varisat_unchanged::drive::State;

use crate::random::Random;

pub fn open(capacity: u32) -> Table {
    Table::open(capacity).unwrap()
}

/// The first users mapped and granted, in order, with the marks and values of a search under way: a third used, a third with a value.
pub fn filled(capacity: u32, users: u32) -> Table {
    let mut table = open(capacity);
    let mut notes = table.notes();
    if users > 0 {
        table.map(User(users - 1), false, &mut notes).unwrap();
    }
    let (mut counts, mut lists) = (table.counts(), table.lists().clone());
    for i in 0..users as usize {
        lists.solver_from_global[i] = i as u32 + 1;
        lists.global_from_solver[i] = i as u32 + 1;
        lists.records[i] = if i % 3 == 0 { 0 } else { 9 };
        lists.assignment[i] = if i % 3 == 1 { 1 + i as u32 % 2 } else { 0 };
    }
    counts.solver = users;
    sound(counts, lists)
}

pub fn half(capacity: u32) -> Table {
    filled(capacity, capacity / 2)
}

pub fn full(capacity: u32) -> Table {
    filled(capacity, capacity)
}

/// All globals in use, users and solver indices given out in random order, all modes, a fifth without user, a tenth without solver index,
/// a twentieth deleted.
pub fn shuffled(capacity: u32) -> Table {
    let mut random = Random::new(u64::from(capacity));
    let (users, solvers) = (random.shuffled(capacity), random.shuffled(capacity));
    let mut lists = open(capacity).lists().clone();
    for g in 0..capacity as usize {
        let kind = random.below(20);
        let unit = 3 * random.below(3);
        lists.records[g] = match kind {
            0 => 47,
            1..=4 => 2 + unit + 18 * random.below(2),
            _ => random.below(2) + unit + 9 * random.below(2) + 18 * random.below(2),
        };
        if kind > 4 {
            lists.user_from_global[g] = users[g] + 1;
            lists.global_from_user[users[g] as usize] = g as u32 + 1;
        }
        lists.assignment[solvers[g] as usize] = random.below(3);
        if kind > 0 && random.below(10) > 0 {
            lists.solver_from_global[g] = solvers[g] + 1;
            lists.global_from_solver[solvers[g] as usize] = g as u32 + 1;
        }
    }
    sound(Counts { capacity, user: capacity, global: capacity, solver: capacity, ..Counts::default() }, lists)
}

/// The same table with other words in its lists.
pub fn changed(table: &Table, change: impl FnOnce(&mut Lists)) -> Table {
    let mut lists = table.lists().clone();
    change(&mut lists);
    sound(table.counts(), lists)
}

/// With these lists, capacity and watermarks; the two stored numbers are counted.
fn sound(counts: Counts, lists: Lists) -> Table {
    Table::from_lists(counts.recounted(&lists), lists).unwrap()
}

/// The table as varisat's state: each list up to its watermark.
pub fn state(table: &Table) -> State {
    let (c, l) = (table.counts(), table.lists());
    let up_to = |list: &[u32], mark: u32| list[..mark as usize].to_vec();
    State {
        global_from_user: up_to(&l.global_from_user, c.user),
        user_from_global: up_to(&l.user_from_global, c.global),
        solver_from_global: up_to(&l.solver_from_global, c.global),
        global_from_solver: up_to(&l.global_from_solver, c.solver),
        assignment: up_to(&l.assignment, c.solver),
        records: up_to(&l.records, c.global),
    }
}
