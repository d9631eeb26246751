//! Open, Lookup, Map, New user, Grant, Pose, marks and Assign.
use super::{
    first_of, get, is_assumed, is_deleted, is_isolated, mode_of, named, refused, Outcome, Table, MOST_LITERALS, NEW_USER,
};
use crate::call::{Asked, Mark};

/// What an operation has changed so far: the table and the notes.
pub struct Work {
    pub table: Table,
    pub notes: Vec<u32>,
}

impl Work {
    pub fn on(table: &Table) -> Work {
        Work { table: table.clone(), notes: vec![] }
    }

    pub fn note(&mut self, kind: u32, global: u32, last: u32) {
        self.notes.extend([kind, global, last]);
    }

    pub fn count(&self) -> u64 {
        self.notes.len() as u64 / 3
    }

    /// Refusal 2: fewer words lent than the notes need.
    pub fn short(&self, room: usize) -> bool {
        room < self.notes.len()
    }

    /// An accepted call that fills notes; their count comes last among the values. These are the calls that may change the stored numbers.
    pub fn accepted(mut self, mut values: Vec<u64>) -> Outcome {
        values.push(self.count());
        self.table.recount();
        Outcome { values, table: self.table, notes: self.notes, ..Outcome::default() }
    }
}

// ---- Open and Lookup

/// 10, capacity not 1 to 4,096 or a slice of another length.
pub fn open(table: &Table) -> Outcome {
    if !table.sizes() {
        return refused(10, table);
    }
    Outcome { table: Table::empty(table.counts.capacity), ..Outcome::default() }
}

/// An index at or beyond the watermark is none. 1.
pub fn lookup(t: &Table, asked: Asked, index: u32) -> Outcome {
    if !t.is_sound() {
        return refused(1, t);
    }
    let c = t.counts;
    let word = |list: &[u32], mark: u32| (index < mark).then(|| get(list, index));
    let found = match asked {
        Asked::GlobalFromUser => word(&t.global_from_user, c.user).and_then(named),
        Asked::UserFromGlobal => word(&t.user_from_global, c.global).and_then(named),
        Asked::SolverFromGlobal => word(&t.solver_from_global, c.global).and_then(named),
        Asked::GlobalFromSolver => word(&t.global_from_solver, c.solver).and_then(named),
        Asked::Record => word(&t.records, c.global),
        Asked::Assignment => word(&t.assignment, c.solver),
    };
    Outcome { values: found.map(u64::from).into_iter().collect(), table: t.clone(), ..Outcome::default() }
}

// ---- Map and New user

/// The user's own index if that is deleted or at the global watermark, else the least deleted one, else the watermark.
fn global_for(t: &Table, user: u32) -> u32 {
    let mark = t.counts.global;
    if user == mark || is_deleted(t.record(user)) {
        return user;
    }
    (0..mark).find(|&g| is_deleted(t.record(g))).unwrap_or(mark)
}

fn map_one(work: &mut Work, user: u32) -> u32 {
    let global = global_for(&work.table, user);
    work.table.give_user(global, user, NEW_USER);
    work.note(0, global, user + 1);
    global
}

/// Mapped already: its global. Beyond the user watermark, every index from the watermark up is mapped first.
pub fn map_user(work: &mut Work, user: u32) -> u32 {
    if let Some(global) = named(get(&work.table.global_from_user, user)) {
        return global;
    }
    for gap in work.table.counts.user..user {
        map_one(work, gap);
    }
    map_one(work, user)
}

/// The user has a global, and that is not Sample.
fn unsampled(t: &Table, user: u32) -> bool {
    named(get(&t.global_from_user, user)).is_some_and(|g| mode_of(t.record(g)) != 0)
}

/// How many of these users are to be mapped: the unmapped ones named, and all from the watermark up to the largest named.
fn users_to_map(t: &Table, users: &[u32]) -> u32 {
    let is_named: std::collections::HashSet<u32> = users.iter().copied().collect();
    let largest = users.iter().copied().max();
    let wanted = |u: u32| {
        get(&t.global_from_user, u) == 0 && (is_named.contains(&u) || (t.counts.user <= u && largest.is_some_and(|l| u < l)))
    };
    (0..t.counts.capacity).filter(|&u| wanted(u)).count() as u32
}

/// 1; 3; 4; 5.
fn map_refusal(t: &Table, users: &[u32], sampling: bool) -> u32 {
    if !t.is_sound() {
        return 1;
    }
    first_of(&[
        (users.len() > MOST_LITERALS || users.iter().any(|&u| u >= t.counts.capacity), 3),
        (sampling && users.iter().any(|&u| unsampled(t, u)), 4),
        (users_to_map(t, users) > t.counts.capacity - t.undeleted(), 5),
    ])
}

/// 1; 3, index at or above capacity; 4, sampling required and its global not Sample; 5, no room for the users to map; 2.
pub fn map(t: &Table, user: u32, sampling: bool, room: usize) -> Outcome {
    let refusal = map_refusal(t, &[user], sampling);
    if refusal != 0 {
        return refused(refusal, t);
    }
    let mut work = Work::on(t);
    let global = map_user(&mut work, user);
    if work.short(room) {
        return refused(2, t);
    }
    work.accepted(vec![global.into()])
}

/// Maps the least unmapped user index. 1, 5, 2.
pub fn new_user(t: &Table, room: usize) -> Outcome {
    if !t.is_sound() {
        return refused(1, t);
    }
    if t.undeleted() == t.counts.capacity {
        return refused(5, t);
    }
    let mut work = Work::on(t);
    let user = t.next_user();
    let global = map_user(&mut work, user);
    if work.short(room) {
        return refused(2, t);
    }
    work.accepted(vec![user.into(), global.into()])
}

// ---- Grant and Pose

/// The index held, else the least unmapped solver index.
pub fn grant_global(work: &mut Work, global: u32) -> u32 {
    if let Some(solver) = named(get(&work.table.solver_from_global, global)) {
        return solver;
    }
    let solver = work.table.next_solver();
    work.table.give_solver(global, solver);
    work.note(1, global, solver + 1);
    solver
}

/// 1; 3, global at or above its watermark; 6, deleted; 2.
pub fn grant(t: &Table, global: u32, room: usize) -> Outcome {
    if !t.is_sound() {
        return refused(1, t);
    }
    let refusal = first_of(&[(global >= t.counts.global, 3), (is_deleted(t.record(global)), 6)]);
    if refusal != 0 {
        return refused(refusal, t);
    }
    let mut work = Work::on(t);
    let solver = grant_global(&mut work, global);
    if work.short(room) {
        return refused(2, t);
    }
    work.accepted(vec![solver.into()])
}

/// Map and grant for each literal in turn, sign kept. 1; 3, also more than 8,192 literals; 4; 5, counting all distinct users; 2.
pub fn pose(t: &Table, lits: &[u32], sampling: bool, outs: usize, room: usize) -> Outcome {
    let users: Vec<u32> = lits.iter().map(|code| code / 2).collect();
    let refusal = map_refusal(t, &users, sampling);
    if refusal != 0 {
        return refused(refusal, t);
    }
    let mut work = Work::on(t);
    let mut words = vec![];
    for code in lits {
        let global = map_user(&mut work, code / 2);
        words.push(2 * grant_global(&mut work, global) + code % 2);
    }
    if outs < words.len() || work.short(room) {
        return refused(2, t);
    }
    let count = words.len() as u64;
    Outcome { words, ..work.accepted(vec![count]) }
}

// ---- marks and Assign

/// Used clears isolated; assumed is set or cleared. 1; 8, solver index not held.
pub fn mark(t: &Table, mark: Mark, solver: u32) -> Outcome {
    if !t.is_sound() {
        return refused(1, t);
    }
    let Some(global) = named(get(&t.global_from_solver, solver)) else {
        return refused(8, t);
    };
    let record = t.record(global);
    let (isolated, assumed) = (9 * is_isolated(record) as u32, 18 * is_assumed(record) as u32);
    let mut table = t.clone();
    table.records[global as usize] = match mark {
        Mark::Used => record - isolated,
        Mark::Assumed => record - assumed + 18,
        Mark::Released => record - assumed,
    };
    Outcome { table, ..Outcome::default() }
}

/// Makes a solver literal true, once. 1, 8; 9, has a value.
pub fn assign(t: &Table, code: u32) -> Outcome {
    if !t.is_sound() {
        return refused(1, t);
    }
    let refusal = first_of(&[(t.not_held(code / 2), 8), (get(&t.assignment, code / 2) != 0, 9)]);
    if refusal != 0 {
        return refused(refusal, t);
    }
    let mut table = t.clone();
    table.assignment[code as usize / 2] = 2 - code % 2;
    Outcome { table, ..Outcome::default() }
}
