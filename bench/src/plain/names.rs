//! varisat's functions for names in their own shape, without what they do for the search: no decision heap, no implication graph, no lists
//! of clauses, no proof. It is there so that the library is not praised for leaving those out. Notes are kept, as the library keeps them, and so
//! are the number of undeleted globals and the least free solver index; the latter takes the place of varisat's set of free solver indices.
use std::{
    collections::{BTreeSet, HashSet},
    hash::{BuildHasherDefault, Hasher},
};

use hintzobar::Table;

/// A set of free indices.
pub trait Free: Clone + Default {
    fn add(&mut self, index: u32);
    fn take(&mut self, index: u32);
    fn first(&self) -> Option<u32>;
}

pub type Ordered = BTreeSet<u32>;
pub type Hashed = HashSet<u32, BuildHasherDefault<Fx>>;

/// The hash of rustc-hash 1.0, which varisat's sets have.
#[derive(Default)]
pub struct Fx(u64);

impl Hasher for Fx {
    fn write(&mut self, bytes: &[u8]) {
        bytes.iter().for_each(|&byte| self.write_u32(byte.into()));
    }

    fn write_u32(&mut self, word: u32) {
        self.0 = (self.0.rotate_left(5) ^ u64::from(word)).wrapping_mul(0x517c_c1b7_2722_0a95);
    }

    fn finish(&self) -> u64 {
        self.0
    }
}

macro_rules! free {
    ($($set:ty)*) => {
        $(impl Free for $set {
            fn add(&mut self, index: u32) {
                self.insert(index);
            }
            fn take(&mut self, index: u32) {
                self.remove(&index);
            }
            fn first(&self) -> Option<u32> {
                self.iter().next().copied()
            }
        })*
    };
}

free!(Ordered Hashed);

const NONE: u32 = u32::MAX;

/// From index to index, up to the watermark.
#[derive(Clone, Default)]
struct Map(Vec<u32>);

impl Map {
    fn load(words: &[u32]) -> Map {
        Map(words.iter().map(|word| word.wrapping_sub(1)).collect())
    }

    fn get(&self, from: u32) -> Option<u32> {
        self.0.get(from as usize).copied().filter(|&into| into != NONE)
    }

    fn insert(&mut self, into: u32, from: u32) {
        if self.0.len() <= from as usize {
            self.0.resize(from as usize + 1, NONE);
        }
        self.0[from as usize] = into;
    }

    fn mark(&self) -> u32 {
        self.0.len() as u32
    }

    /// The first unmapped index from here on, else the watermark.
    fn next_free(&self, from: u32) -> u32 {
        (from..self.mark()).find(|&index| self.0[index as usize] == NONE).unwrap_or(self.mark())
    }

    fn free<F: Free>(&self) -> F {
        let mut free = F::default();
        (0..self.mark()).filter(|&index| self.get(index).is_none()).for_each(|index| free.add(index));
        free
    }
}

#[derive(Clone, Copy, PartialEq)]
enum Mode {
    Sample,
    Witness,
    Hide,
}

#[derive(Clone)]
struct Record {
    mode: Mode,
    unit: Option<bool>,
    isolated: bool,
    assumed: bool,
    deleted: bool,
}

const FRESH: Record = Record { mode: Mode::Hide, unit: None, isolated: true, assumed: false, deleted: true };
const NEW_USER: Record = Record { mode: Mode::Sample, unit: None, isolated: true, assumed: false, deleted: false };

fn value(word: u32) -> Option<bool> {
    word.checked_sub(1).map(|word| word == 1)
}

fn word(value: Option<bool>) -> u32 {
    value.map_or(0, |value| 1 + u32::from(value))
}

#[derive(Clone, Default)]
pub struct Names<F> {
    global_from_user: Map,
    user_from_global: Map,
    solver_from_global: Map,
    global_from_solver: Map,
    free_users: F,
    free_globals: F,
    /// How many globals are undeleted.
    used: u32,
    /// The least solver index that no global holds.
    next: u32,
    records: Vec<Record>,
    assignment: Vec<Option<bool>>,
    pub notes: Vec<u32>,
}

impl<F: Free> Names<F> {
    pub fn load(table: &Table) -> Names<F> {
        let (c, l) = (table.counts(), table.lists());
        let map = |words: &[u32], mark: u32| Map::load(&words[..mark as usize]);
        let mut names: Names<F> = Names {
            global_from_user: map(&l.global_from_user, c.user),
            user_from_global: map(&l.user_from_global, c.global),
            solver_from_global: map(&l.solver_from_global, c.global),
            global_from_solver: map(&l.global_from_solver, c.solver),
            assignment: l.assignment[..c.solver as usize].iter().map(|&word| value(word)).collect(),
            ..Names::default()
        };
        for (global, &record) in l.records[..c.global as usize].iter().enumerate() {
            let mode = [Mode::Sample, Mode::Witness, Mode::Hide][record as usize % 3];
            let (isolated, assumed) = (record / 9 % 2 == 1, record / 18 % 2 == 1);
            names.records.push(Record { mode, unit: value(record / 3 % 3), isolated, assumed, deleted: record >= 36 });
            if record >= 36 {
                names.free_globals.add(global as u32);
            }
        }
        names.free_users = names.global_from_user.free();
        (names.used, names.next) = (c.used, c.next);
        names
    }

    /// Whether the table says the same.
    pub fn is(&self, table: &Table) -> bool {
        let (c, l) = (table.counts(), table.lists());
        let same = |map: &Map, words: &[u32]| (0u32..).zip(words).all(|(index, &word)| map.get(index) == word.checked_sub(1));
        let record =
            |r: &Record| r.mode as u32 + 3 * word(r.unit) + 9 * r.isolated as u32 + 18 * r.assumed as u32 + 36 * r.deleted as u32;
        same(&self.global_from_user, &l.global_from_user)
            && same(&self.user_from_global, &l.user_from_global)
            && same(&self.solver_from_global, &l.solver_from_global)
            && same(&self.global_from_solver, &l.global_from_solver)
            && self.assignment.iter().map(|&value| word(value)).eq(l.assignment[..c.solver as usize].iter().copied())
            && self.records.iter().map(record).eq(l.records[..c.global as usize].iter().copied())
            && (self.used, self.next) == (c.used, c.next)
    }

    fn note(&mut self, kind: u32, global: u32, last: u32) {
        self.notes.extend([kind, global, last]);
    }

    pub fn map(&mut self, user: u32) -> u32 {
        for below in self.global_from_user.mark()..user {
            self.map(below);
        }
        if let Some(global) = self.global_from_user.get(user) {
            return global;
        }
        let global = match self.records.get(user as usize) {
            Some(record) if !record.deleted => self.free_globals.first().unwrap_or(self.records.len() as u32),
            _ => user,
        };
        if self.records.len() <= global as usize {
            self.records.resize(global as usize + 1, FRESH);
        }
        self.records[global as usize] = NEW_USER;
        self.used += 1;
        self.global_from_user.insert(global, user);
        self.user_from_global.insert(user, global);
        self.free_globals.take(global);
        self.free_users.take(user);
        self.note(0, global, user + 1);
        global
    }

    pub fn grant(&mut self, global: u32) -> u32 {
        if let Some(solver) = self.solver_from_global.get(global) {
            return solver;
        }
        let solver = self.next;
        self.solver_from_global.insert(solver, global);
        self.global_from_solver.insert(global, solver);
        self.next = self.global_from_solver.next_free(solver + 1);
        if self.assignment.len() <= solver as usize {
            self.assignment.resize(solver as usize + 1, None);
        }
        self.assignment[solver as usize] = self.records[global as usize].unit;
        self.note(1, global, solver + 1);
        solver
    }

    #[inline(never)]
    pub fn pose(&mut self, solver_lits: &mut Vec<u32>, user_lits: &[u32]) {
        solver_lits.clear();
        solver_lits.extend(user_lits.iter().map(|&code| {
            let global = self.map(code / 2);
            2 * self.grant(global) + code % 2
        }));
    }

    #[inline(never)]
    pub fn observe(&mut self) -> Vec<u32> {
        let mut users = vec![];
        for global in 0..self.records.len() as u32 {
            let record = &mut self.records[global as usize];
            if record.deleted || record.mode != Mode::Hide {
                continue;
            }
            record.mode = Mode::Witness;
            self.note(3, global, 0);
            let user = self.free_users.first().unwrap_or(self.global_from_user.mark());
            self.global_from_user.insert(global, user);
            self.user_from_global.insert(user, global);
            self.free_users.take(user);
            self.note(0, global, user + 1);
            users.push(user);
        }
        users
    }

    fn remove(&mut self, solver: u32, global: u32) {
        self.global_from_solver.0[solver as usize] = NONE;
        self.solver_from_global.0[global as usize] = NONE;
        self.next = self.next.min(solver);
        self.note(1, global, 0);
        let record = &mut self.records[global as usize];
        if self.user_from_global.get(global).is_none() && record.isolated {
            record.deleted = true;
            self.used -= 1;
            self.note(2, global, 0);
            self.free_globals.add(global);
        }
    }

    #[inline(never)]
    pub fn sweep(&mut self) {
        for solver in 0..self.assignment.len() as u32 {
            let Some(global) = self.global_from_solver.get(solver) else {
                continue;
            };
            let record = &mut self.records[global as usize];
            if let Some(value) = self.assignment[solver as usize] {
                record.unit = Some(value);
                record.isolated = true;
            }
            if record.isolated && !record.assumed {
                self.remove(solver, global);
            }
        }
    }

    /// The value of each global, and the literals of users with a value.
    #[inline(never)]
    pub fn model(&self) -> (Vec<Option<bool>>, Vec<u32>) {
        let value = |(global, record): (usize, &Record)| match self.solver_from_global.get(global as u32) {
            _ if record.deleted => None,
            Some(solver) => self.assignment[solver as usize],
            None => Some(record.unit.unwrap_or(false)),
        };
        let globals: Vec<Option<bool>> = self.records.iter().enumerate().map(value).collect();
        let literal = |user: u32| {
            let global = self.global_from_user.get(user)?;
            globals[global as usize].map(|value| 2 * user + u32::from(!value))
        };
        let users = (0..self.global_from_user.mark()).filter_map(literal).collect();
        (globals, users)
    }

    pub fn words(values: &[Option<bool>]) -> Vec<u32> {
        values.iter().map(|&value| word(value)).collect()
    }
}
