//! Words that need not be a sound table, and the calls that test them first.
use crate::{
    ffi,
    names::{codes, codes_mut, indices_mut},
    Format, Global, Lit, Lits, Mark, Mode, Notes, Refusal, Renamed, Simplified, Solver, Step, Table, Thinned, User,
};

/// The capacity, the three watermarks, and two numbers that every call keeps true: how many globals are taken, and which solver index comes
/// next. A table in which one of these differs from what its lists say is not sound.
///
/// Those of a table that an earlier version saved lack the two numbers: [`Counts::recounted`] counts them.
#[derive(Clone, Copy, PartialEq, Eq, Hash, Debug, Default)]
#[repr(C)]
pub struct Counts {
    /// How many indices of each sort there may be, 1 to 4,096.
    pub capacity: u32,
    /// The user watermark: no user index from here on was ever mapped.
    pub user: u32,
    /// The global watermark.
    pub global: u32,
    /// The solver watermark.
    pub solver: u32,
    /// How many globals are undeleted, hidden ones too: the records below 36.
    pub used: u32,
    /// The least solver index that no global holds: the first 0 of `global_from_solver` below the solver watermark, else the watermark.
    pub next: u32,
}

/// The six lists of a table, each of one word per index.
#[derive(Clone, PartialEq, Eq, Hash, Debug, Default)]
pub struct Lists {
    /// The global of each user. Maps hold 0 for none, else index + 1.
    pub global_from_user: Vec<u32>,
    /// The user of each global.
    pub user_from_global: Vec<u32>,
    /// The solver index that each global holds.
    pub solver_from_global: Vec<u32>,
    /// The global that holds each solver index.
    pub global_from_solver: Vec<u32>,
    /// 0 none, 1 false, 2 true.
    pub assignment: Vec<u32>,
    /// Mode + 3 × unit + 9 if isolated + 18 if assumed + 36 if deleted.
    pub records: Vec<u32>,
}

/// The counts and lists of a table, any words at all. Where they are no sound table, every call on them is refused with 1.
///
/// Each call reads the whole table first, to see that it is sound: which takes microseconds where the capacity is 4,096. A [`Table`] is known to be
/// sound, and has the same calls without the test. What they are made of, they turn into:
///
/// ```
/// use hintzobar::{Refusal, Table, User};
/// let mut parts = Table::open(8)?.into_parts();
/// let mut notes = parts.notes();
/// parts.map(User(2), false, &mut notes)?;
///
/// parts.lists.records[1] = 99;
/// assert!(!parts.is_sound());
/// assert_eq!(parts.global_from_user(User(2)), Err(Refusal::Unsound));
/// assert_eq!(parts.map(User(2), false, &mut notes), Err(Refusal::Unsound));
///
/// // what is no table comes back as it was
/// let mut parts = Table::try_from(parts).unwrap_err();
/// parts.lists.records[1] = 9;
/// assert!(Table::try_from(parts).is_ok());
/// # Ok::<(), Refusal>(())
/// ```
#[derive(Clone, PartialEq, Eq, Hash, Debug, Default)]
pub struct Parts {
    /// The capacity, the watermarks and the two numbers.
    pub counts: Counts,
    /// The words of the lists.
    pub lists: Lists,
}

impl From<Table> for Parts {
    fn from(table: Table) -> Parts {
        table.into_parts()
    }
}

/// Calls a function with the parts' counts and lists, to be changed.
macro_rules! call {
    ($parts:expr, $($name:ident)::+($($arg:expr),*)) => {{
        let (c, l) = ($parts.counts, &mut $parts.lists);
        $($name)::+(
            c,
            &mut l.global_from_user,
            &mut l.user_from_global,
            &mut l.solver_from_global,
            &mut l.global_from_solver,
            &mut l.assignment,
            &mut l.records,
            $($arg),*
        )
    }};
}

/// The same, only to be read.
macro_rules! ask {
    ($parts:expr, $($name:ident)::+($($arg:expr),*)) => {{
        let (c, l) = ($parts.counts, &$parts.lists);
        $($name)::+(
            c,
            &l.global_from_user,
            &l.user_from_global,
            &l.solver_from_global,
            &l.global_from_solver,
            &l.assignment,
            &l.records,
            $($arg),*
        )
    }};
}

pub(crate) use {ask, call};

/// The calls, each as the method of [`Table`] of the same name, where it is said what to lend. Each is refused with 1 before all else where the
/// parts are no sound table; nothing has changed then.
impl Parts {
    /// Opens an empty table in the memory that the lists have, whatever is there. Refusals: 10.
    pub fn reopen(&mut self, capacity: u32) -> Result<(), Refusal> {
        let l = &mut self.lists;
        ffi::open(
            capacity,
            &mut l.global_from_user,
            &mut l.user_from_global,
            &mut l.solver_from_global,
            &mut l.global_from_solver,
            &mut l.assignment,
            &mut l.records,
        )
        .told(&mut self.counts)
    }

    /// Whether they are a sound table: the lists fit each other and the counts, and `used` and `next` are what a recount gives.
    pub fn is_sound(&self) -> bool {
        ask!(self, ffi::is_sound())
    }

    /// Memory for notes that suffices for every call on this table: no call makes more than two notes for each index, six words.
    pub fn notes(&self) -> Notes {
        Notes::with_words(6 * self.counts.capacity.min(4096) as usize)
    }

    // ---- lookups

    /// [`Table::global_from_user`]. Refusals: 1.
    pub fn global_from_user(&self, user: User) -> Result<Option<Global>, Refusal> {
        Ok(ask!(self, ffi::global_from_user(user.0)).told()?.map(Global))
    }

    /// [`Table::user_from_global`]. Refusals: 1.
    pub fn user_from_global(&self, global: Global) -> Result<Option<User>, Refusal> {
        Ok(ask!(self, ffi::user_from_global(global.0)).told()?.map(User))
    }

    /// [`Table::solver_from_global`]. Refusals: 1.
    pub fn solver_from_global(&self, global: Global) -> Result<Option<Solver>, Refusal> {
        Ok(ask!(self, ffi::solver_from_global(global.0)).told()?.map(Solver))
    }

    /// [`Table::global_from_solver`]. Refusals: 1.
    pub fn global_from_solver(&self, solver: Solver) -> Result<Option<Global>, Refusal> {
        Ok(ask!(self, ffi::global_from_solver(solver.0)).told()?.map(Global))
    }

    /// [`Table::record`]. Refusals: 1.
    pub fn record(&self, global: Global) -> Result<Option<u32>, Refusal> {
        ask!(self, ffi::record(global.0)).told()
    }

    /// [`Table::assignment`]. Refusals: 1.
    pub fn assignment(&self, solver: Solver) -> Result<Option<u32>, Refusal> {
        ask!(self, ffi::assignment(solver.0)).told()
    }

    // ---- names

    /// [`Table::map`]. Refusals: 1, 3, 4, 5, 2.
    pub fn map(&mut self, user: User, sampling: bool, notes: &mut Notes) -> Result<Global, Refusal> {
        call!(self, ffi::map(user.0, sampling, notes.lend())).told(&mut self.counts, notes)
    }

    /// [`Table::new_user`]. Refusals: 1, 5, 2.
    pub fn new_user(&mut self, notes: &mut Notes) -> Result<(User, Global), Refusal> {
        call!(self, ffi::new_user(notes.lend())).told(&mut self.counts, notes)
    }

    /// [`Table::pose`]. Refusals: 1, 3, 4, 5, 2.
    pub fn pose(
        &mut self,
        lits: &[Lit<User>],
        sampling: bool,
        out: &mut [Lit<Solver>],
        notes: &mut Notes,
    ) -> Result<usize, Refusal> {
        call!(self, ffi::pose(codes(lits), sampling, codes_mut(out), notes.lend())).told(&mut self.counts, notes)
    }

    /// [`Table::grant`]. Refusals: 1, 3, 6, 2.
    pub fn grant(&mut self, global: Global, notes: &mut Notes) -> Result<Solver, Refusal> {
        call!(self, ffi::grant(global.0, notes.lend())).told(&mut self.counts, notes)
    }

    /// [`Table::set_mode`]. Refusals: 1, 3, 6, 7, 2.
    pub fn set_mode(&mut self, global: Global, mode: Mode, notes: &mut Notes) -> Result<Option<User>, Refusal> {
        call!(self, ffi::set_mode(global.0, mode.number(), notes.lend())).told(&mut self.counts, notes)
    }

    /// [`Table::observe`]. Refusals: 1, 7, 2.
    pub fn observe(&mut self, out: &mut [User], notes: &mut Notes) -> Result<usize, Refusal> {
        call!(self, ffi::observe(indices_mut(out), notes.lend())).told(&mut self.counts, notes)
    }

    /// [`Table::mark`]. Refusals: 1, 8.
    pub fn mark(&mut self, mark: Mark, solver: Solver) -> Result<(), Refusal> {
        call!(self, ffi::mark(mark.number(), solver.0)).told(&mut self.counts)
    }

    /// [`Table::assign`]. Refusals: 1, 8, 9.
    pub fn assign(&mut self, lit: Lit<Solver>) -> Result<(), Refusal> {
        call!(self, ffi::assign(lit.code())).told(&mut self.counts)
    }

    /// [`Table::remove`]. Refusals: 1, 8, 16, 2.
    pub fn remove(&mut self, solver: Solver, notes: &mut Notes) -> Result<(), Refusal> {
        call!(self, ffi::remove(solver.0, notes.lend())).told(&mut self.counts, notes)
    }

    /// [`Table::sweep`]. Refusals: 1, 2.
    pub fn sweep(&mut self, notes: &mut Notes) -> Result<(), Refusal> {
        call!(self, ffi::sweep(notes.lend())).told(&mut self.counts, notes)
    }

    // ---- proof lines and the model

    /// [`Table::simplify`]. Refusals: 1, 3, 8, 12, 2.
    pub fn simplify(
        &self,
        format: Format,
        lits: &[Lit<Solver>],
        redundant: bool,
        out: &mut [Lit<Solver>],
        proof: &mut [u8],
    ) -> Result<Simplified, Refusal> {
        ask!(self, ffi::simplify(format.number(), codes(lits), redundant, codes_mut(out), proof)).told()
    }

    /// [`Table::simplify_binary`]. Refusals: 1, 15, 8, 2.
    pub fn simplify_binary(&self, format: Format, lists: &[u32], out: &mut [u32], proof: &mut [u8]) -> Result<Thinned, Refusal> {
        ask!(self, ffi::simplify_binary(format.number(), lists, out, proof)).told()
    }

    /// [`Table::rename`]. Refusals: 1, 14, 3, 8, 2.
    pub fn rename(
        &self,
        step: Step,
        lits: Lits,
        hashes: &[u64],
        out: &mut [Lit<Global>],
        hash_out: &mut [u64],
    ) -> Result<Renamed, Refusal> {
        let (solver_vars, lits) = lits.codes();
        ask!(self, ffi::rename(step.words(), solver_vars, lits, hashes, codes_mut(out), hash_out)).told(step)
    }

    /// [`Table::write`]. Refusals: 1, 14, 3, 8, 11, 2.
    pub fn write(&self, format: Format, step: Step, lits: Lits, hashes: &[u64], proof: &mut [u8]) -> Result<usize, Refusal> {
        let (solver_vars, lits) = lits.codes();
        ask!(self, ffi::write(format.number(), step.words(), solver_vars, lits, hashes, proof)).told()
    }

    /// [`Table::model`]. Refusals: 1, 2.
    pub fn model(&self, globals: &mut [u32], users: &mut [Lit<User>]) -> Result<(usize, usize), Refusal> {
        ask!(self, ffi::model(globals, codes_mut(users))).told()
    }
}
