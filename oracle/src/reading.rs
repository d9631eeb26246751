//! Document 01, read plainly: each call is a pure function from a table, its arguments and the room that it is lent to an outcome.
//! It shares no code with the crates and mirrors the definitions of crates/scope/specs file by file, so that running it beside
//! varisat's own functions tests those definitions.
pub mod binary;
pub mod dimacs;
pub mod drat;
pub mod model;
pub mod modes;
pub mod names;
pub mod remove;
pub mod steps;

pub const FRESH: u32 = 47;
pub const NEW_USER: u32 = 9;
pub const MOST_LITERALS: usize = 8192;
pub const MOST_CAPACITY: u32 = 4096;

/// The capacity, the three watermarks, the number of undeleted globals and the least unmapped solver index.
#[derive(Clone, Copy, PartialEq, Eq, Hash, Debug, Default)]
pub struct Counts {
    pub capacity: u32,
    pub user: u32,
    pub global: u32,
    pub solver: u32,
    pub used: u32,
    pub next: u32,
}

/// A map holds 0 for none, else index + 1.
#[derive(Clone, PartialEq, Eq, Hash, Debug, Default)]
pub struct Table {
    pub counts: Counts,
    pub global_from_user: Vec<u32>,
    pub user_from_global: Vec<u32>,
    pub solver_from_global: Vec<u32>,
    pub global_from_solver: Vec<u32>,
    pub assignment: Vec<u32>,
    pub records: Vec<u32>,
}

/// What a call comes to: the refusal, 0 if accepted; the values answered; the table it leaves; its notes, three words each; and what it
/// fills into other lent slices.
#[derive(Clone, PartialEq, Eq, Debug, Default)]
pub struct Outcome {
    pub refusal: u32,
    pub values: Vec<u64>,
    pub table: Table,
    pub notes: Vec<u32>,
    pub words: Vec<u32>,
    pub more: Vec<u64>,
    pub bytes: Vec<u8>,
}

/// A refusal returns its number and leaves all lent memory unchanged.
pub fn refused(refusal: u32, table: &Table) -> Outcome {
    Outcome { refusal, table: table.clone(), ..Outcome::default() }
}

/// The first refusal that applies, else the outcome.
pub fn first_of(refusals: &[(bool, u32)]) -> u32 {
    refusals.iter().find(|(applies, _)| *applies).map_or(0, |(_, number)| *number)
}

pub fn get(list: &[u32], index: u32) -> u32 {
    list.get(index as usize).copied().unwrap_or(0)
}

/// What a map's word says.
pub fn named(word: u32) -> Option<u32> {
    word.checked_sub(1)
}

// ---- records: mode + 3 × unit + 9 if isolated + 18 if assumed + 36 if deleted

pub fn mode_of(record: u32) -> u32 {
    record % 3
}

pub fn unit_of(record: u32) -> u32 {
    record / 3 % 3
}

pub fn is_isolated(record: u32) -> bool {
    record / 9 % 2 == 1
}

pub fn is_assumed(record: u32) -> bool {
    record / 18 % 2 == 1
}

pub fn is_deleted(record: u32) -> bool {
    record >= 36
}

pub fn is_shown(record: u32) -> bool {
    !is_deleted(record) && mode_of(record) != 2
}

// ---- the table

impl Table {
    /// A freshly opened, empty table.
    pub fn empty(capacity: u32) -> Table {
        let blank = vec![0; capacity as usize];
        Table {
            counts: Counts { capacity, ..Counts::default() },
            global_from_user: blank.clone(),
            user_from_global: blank.clone(),
            solver_from_global: blank.clone(),
            global_from_solver: blank.clone(),
            assignment: blank,
            records: vec![FRESH; capacity as usize],
        }
    }

    pub fn lists(&self) -> [&Vec<u32>; 6] {
        [
            &self.global_from_user,
            &self.user_from_global,
            &self.solver_from_global,
            &self.global_from_solver,
            &self.assignment,
            &self.records,
        ]
    }

    pub fn lists_mut(&mut self) -> [&mut Vec<u32>; 6] {
        [
            &mut self.global_from_user,
            &mut self.user_from_global,
            &mut self.solver_from_global,
            &mut self.global_from_solver,
            &mut self.assignment,
            &mut self.records,
        ]
    }

    /// The record of a global; one that is not there is fresh.
    pub fn record(&self, global: u32) -> u32 {
        self.records.get(global as usize).copied().unwrap_or(FRESH)
    }

    /// The capacity is 1 to 4,096 and every slice has its length.
    pub fn sizes(&self) -> bool {
        let capacity = self.counts.capacity;
        (1..=MOST_CAPACITY).contains(&capacity) && self.lists().iter().all(|list| list.len() == capacity as usize)
    }

    pub fn is_sound(&self) -> bool {
        let c = self.counts;
        let blank_from = |list: &[u32], mark: u32, blank: u32| list.iter().skip(mark as usize).all(|&word| word == blank);
        self.sizes()
            && c.user <= c.global
            && c.solver <= c.global
            && c.global <= c.capacity
            && self.records.iter().all(|&record| record <= 71)
            && self.assignment.iter().all(|&word| word <= 2)
            && blank_from(&self.global_from_user, c.user, 0)
            && blank_from(&self.user_from_global, c.global, 0)
            && blank_from(&self.solver_from_global, c.global, 0)
            && blank_from(&self.global_from_solver, c.solver, 0)
            && blank_from(&self.assignment, c.solver, 0)
            && blank_from(&self.records, c.global, FRESH)
            && inverse(&self.global_from_user, &self.user_from_global)
            && inverse(&self.solver_from_global, &self.global_from_solver)
            && (0..c.capacity).all(|g| self.is_row(g))
            && self.counts == self.recounted()
    }

    /// A global has a user exactly if undeleted and not Hide; a deleted global is Hide, isolated and without solver index.
    fn is_row(&self, global: u32) -> bool {
        let record = self.record(global);
        let has_user = get(&self.user_from_global, global) != 0;
        let has_solver = get(&self.solver_from_global, global) != 0;
        has_user == is_shown(record) && (!is_deleted(record) || (mode_of(record) == 2 && is_isolated(record) && !has_solver))
    }

    pub fn undeleted(&self) -> u32 {
        self.records.iter().filter(|&&record| !is_deleted(record)).count() as u32
    }

    /// The counts with both stored numbers counted anew.
    pub fn recounted(&self) -> Counts {
        Counts { used: self.undeleted(), next: self.next_solver(), ..self.counts }
    }

    /// Stores them. A call that maps, grants, deletes or removes ends with it; the single changes below leave them.
    pub fn recount(&mut self) {
        self.counts = self.recounted();
    }

    pub fn next_user(&self) -> u32 {
        least_free(&self.global_from_user, self.counts.user)
    }

    pub fn next_solver(&self) -> u32 {
        least_free(&self.global_from_solver, self.counts.solver)
    }

    pub fn not_held(&self, solver: u32) -> bool {
        get(&self.global_from_solver, solver) == 0
    }

    // ---- single changes

    /// The user and the record go to the global. Inserting raises the watermarks to cover the indices.
    pub fn give_user(&mut self, global: u32, user: u32, record: u32) {
        self.counts.user = self.counts.user.max(user + 1);
        self.counts.global = self.counts.global.max(global + 1);
        self.global_from_user[user as usize] = global + 1;
        self.user_from_global[global as usize] = user + 1;
        self.records[global as usize] = record;
    }

    /// The user of the global is withdrawn.
    pub fn take_user(&mut self, global: u32) {
        let user = self.user_from_global[global as usize] - 1;
        self.global_from_user[user as usize] = 0;
        self.user_from_global[global as usize] = 0;
    }

    /// The solver index goes to the global; its assignment becomes the record's unit.
    pub fn give_solver(&mut self, global: u32, solver: u32) {
        self.counts.solver = self.counts.solver.max(solver + 1);
        self.solver_from_global[global as usize] = solver + 1;
        self.global_from_solver[solver as usize] = global + 1;
        self.assignment[solver as usize] = unit_of(self.record(global));
    }

    /// The solver index is withdrawn from its global; its assignment word stays.
    pub fn take_solver(&mut self, global: u32, solver: u32) {
        self.solver_from_global[global as usize] = 0;
        self.global_from_solver[solver as usize] = 0;
    }
}

/// One takes i to j exactly where the other takes j to i.
fn inverse(a: &[u32], b: &[u32]) -> bool {
    let back = |a: &[u32], b: &[u32]| (1..).zip(a).all(|(back, &word)| word == 0 || get(b, word - 1) == back);
    back(a, b) && back(b, a)
}

/// The least unmapped index, which is the watermark where none below is free.
fn least_free(map: &[u32], mark: u32) -> u32 {
    (0..).zip(map).take(mark as usize).find(|(_, &word)| word == 0).map_or(mark, |(index, _)| index)
}
