//! The table of names, which is known to be sound, and the calls on it.
use std::hash::{Hash, Hasher};

use crate::{
    ffi,
    names::{codes, codes_mut, indices_mut},
    parts::{ask, call},
    Counts, Format, Global, Lists, Lit, Lits, Note, Notes, Parts, Refusal, Renamed, Solver, Step, Thinned, User,
};

/// A global's sampling mode.
#[derive(Clone, Copy, PartialEq, Eq, Hash, Debug)]
pub enum Mode {
    /// It has a user, and models are sampled over it.
    Sample,
    /// It has a user, and its value is a witness.
    Witness,
    /// It has no user.
    Hide,
}

impl Mode {
    pub(crate) fn number(self) -> u32 {
        match self {
            Mode::Sample => 0,
            Mode::Witness => 1,
            Mode::Hide => 2,
        }
    }
}

/// What is marked at a held solver index.
#[derive(Clone, Copy, PartialEq, Eq, Hash, Debug)]
pub enum Mark {
    /// It is in use: no longer isolated.
    Used,
    /// It is assumed.
    Assumed,
    /// It is no longer assumed.
    Released,
}

impl Mark {
    pub(crate) fn number(self) -> u32 {
        match self {
            Mark::Used => 0,
            Mark::Assumed => 1,
            Mark::Released => 2,
        }
    }
}

/// What Simplify made of a clause.
#[derive(Clone, Copy, PartialEq, Eq, Hash, Debug)]
pub enum Made {
    /// No literal has a value: the clause stays.
    Kept,
    /// A literal is true: the clause goes.
    Dropped,
    /// False literals went, and more than two are left.
    Shortened,
    /// False literals went, and two are left.
    Binary,
}

/// The answer of Simplify: how many literals and bytes were filled, and the add step's redundant flag.
#[derive(Clone, Copy, PartialEq, Eq, Hash, Debug)]
pub struct Simplified {
    /// What became of the clause.
    pub made: Made,
    /// Whether the clause added is redundant; no where there is none.
    pub redundant: bool,
    /// How many literals were filled: none if dropped, all if kept.
    pub lits: usize,
    /// How many bytes were filled.
    pub bytes: usize,
}

/// A table of names, which owns its memory and is sound: so it was made, and no call changes that. None of its calls tests it again, nor refuses it.
///
/// What a call fills it is lent. Where a slice is shorter than that, the call is refused with 2 and nothing has changed; at each method stands
/// how much it needs. Notes count three words each.
///
/// ```
/// use hintzobar::{Global, Lit, Note, Solver, Table, User};
/// let mut table = Table::open(8)?;
/// let mut notes = table.notes();
/// assert_eq!(table.map(User(2), false, &mut notes)?, Global(2));
/// assert_eq!(notes.iter().last(), Some(Note::User(Global(2), Some(User(2)))));
///
/// let mut lits = [Lit::from_code(0); 2];
/// table.pose(&[Lit::negative(User(2)), Lit::positive(User(0))], false, &mut lits, &mut notes)?;
/// assert_eq!(lits, [Lit::negative(Solver(0)), Lit::positive(Solver(1))]);
/// # Ok::<(), hintzobar::Refusal>(())
/// ```
///
/// There are two ways to make one: [`Table::open`], and [`Table::from_lists`] with words that are tested once, which `Table::try_from` does with
/// [`Parts`]. No table is made of nothing, and nobody else comes at its words:
///
/// ```compile_fail
/// let table = hintzobar::Table::default();
/// ```
///
/// ```compile_fail
/// let mut table = hintzobar::Table::open(8).unwrap();
/// table.parts.counts.user = 1;
/// ```
///
/// ```compile_fail
/// let mut table = hintzobar::Table::open(8).unwrap();
/// table.parts().lists.records[0] = 0;
/// ```
///
/// ```compile_fail
/// let parts = hintzobar::Parts::default();
/// let table = hintzobar::Table { parts, user_from: 0, global_from: 0 };
/// ```
#[derive(Clone, Debug)]
pub struct Table {
    parts: Parts,
    /// A cursor: every user index below it is mapped. At most the user watermark.
    user_from: u32,
    /// A cursor: no global below it is deleted. At most the global watermark.
    global_from: u32,
}

/// Tables are the same if their counts and lists are.
impl PartialEq for Table {
    fn eq(&self, other: &Table) -> bool {
        self.parts == other.parts
    }
}

impl Eq for Table {}

impl Hash for Table {
    fn hash<H: Hasher>(&self, state: &mut H) {
        self.parts.hash(state);
    }
}

/// These parts, if they are sound; else they come back as they were.
impl TryFrom<Parts> for Table {
    type Error = Parts;

    fn try_from(parts: Parts) -> Result<Table, Parts> {
        if parts.is_sound() {
            Ok(Table { parts, user_from: 0, global_from: 0 })
        } else {
            Err(parts)
        }
    }
}

/// Calls a function that does not test the table, with its counts and lists to be changed.
macro_rules! known {
    ($table:ident.$name:ident($($arg:expr),*)) => {
        // Sound: the counts and lists of a `Table` are a sound table and its cursors are true of it. So they were made, by `open` and `try_from`; and
        // after that only calls of the library change the lists, each with the counts that the one before answered, after which the table is sound
        // (`call-sound`, crates/session/proofs/KnownLaws.antt). Each move of a cursor is a law of crates/session/proofs/CursorsKept.antt.
        unsafe { call!($table.parts, ffi::known::$name($($arg),*)) }
    };
}

/// The same, only to be read.
macro_rules! known_ask {
    ($table:ident.$name:ident($($arg:expr),*)) => {
        // Sound: as above.
        unsafe { ask!($table.parts, ffi::known::$name($($arg),*)) }
    };
}

impl Table {
    // ---- memory

    /// A freshly opened, empty table. Refusals: 10.
    ///
    /// ```
    /// use hintzobar::{Refusal, Table};
    /// assert!(Table::open(1).is_ok() && Table::open(4096).is_ok());
    /// assert_eq!(Table::open(0), Err(Refusal::BadSize));
    /// assert_eq!(Table::open(4097), Err(Refusal::BadSize));
    /// ```
    pub fn open(capacity: u32) -> Result<Table, Refusal> {
        // No more is lent than the largest table has: beyond that the capacity itself is refused.
        let list = vec![0; capacity.min(4096) as usize];
        let lists = Lists {
            global_from_user: list.clone(),
            user_from_global: list.clone(),
            solver_from_global: list.clone(),
            global_from_solver: list.clone(),
            assignment: list.clone(),
            records: list,
        };
        let mut parts = Parts { counts: Counts::default(), lists };
        parts.reopen(capacity)?;
        let table = Table { parts, user_from: 0, global_from: 0 };
        table.see();
        Ok(table)
    }

    /// Opens the table anew in the memory that it has. Refusals: 10.
    pub fn reopen(&mut self, capacity: u32) -> Result<(), Refusal> {
        self.parts.reopen(capacity)?;
        (self.user_from, self.global_from) = (0, 0);
        self.see();
        Ok(())
    }

    /// A table of these words, which are tested. Refusals: 1, after which the words are gone: `Table::try_from` gives them back.
    ///
    /// They are sound only if `used` and `next` are what the lists say. Counts and lists that were taken from a table together are right; of a table
    /// saved by a version that had neither number, take [`Counts::recounted`].
    ///
    /// ```
    /// use hintzobar::{Counts, Lists, Refusal, Table};
    /// let table = Table::open(8)?;
    /// assert_eq!(Table::from_lists(table.counts(), table.lists().clone()), Ok(table));
    /// assert_eq!(Table::from_lists(Counts::default(), Lists::default()), Err(Refusal::Unsound));
    /// # Ok::<(), Refusal>(())
    /// ```
    pub fn from_lists(counts: Counts, lists: Lists) -> Result<Table, Refusal> {
        Table::try_from(Parts { counts, lists }).map_err(|_| Refusal::Unsound)
    }

    /// The capacity, the watermarks, and the two numbers that [`Table::fill`] is made of.
    #[inline]
    pub fn counts(&self) -> Counts {
        self.parts.counts
    }

    /// The words of the lists.
    #[inline]
    pub fn lists(&self) -> &Lists {
        &self.parts.lists
    }

    /// Both together.
    #[inline]
    pub fn parts(&self) -> &Parts {
        &self.parts
    }

    /// The same, to be changed at will.
    pub fn into_parts(self) -> Parts {
        self.parts
    }

    /// Memory for notes that suffices for every call on this table: no call makes more than two notes for each index, six words.
    pub fn notes(&self) -> Notes {
        self.parts.notes()
    }

    // ---- what every call keeps true

    /// Whether the table is sound and both cursors are true of it.
    fn is_known(&self) -> bool {
        let Parts { counts, lists } = &self.parts;
        let mapped = |list: &[u32]| list.iter().all(|&word| word != 0);
        let undeleted = |list: &[u32]| list.iter().all(|&record| record < 36);
        self.parts.is_sound()
            && self.user_from <= counts.user
            && self.global_from <= counts.global
            && mapped(&lists.global_from_user[..self.user_from as usize])
            && undeleted(&lists.records[..self.global_from as usize])
    }

    /// After each call that may change the table, in debug builds.
    #[inline]
    fn see(&self) {
        debug_assert!(self.is_known());
    }

    /// A user was given this global, by a note. One of another index is the least that was deleted, or the watermark: none below it is deleted.
    #[inline]
    fn mapped(&mut self, user: User, global: Global) {
        if global.0 != user.0 {
            self.global_from = global.0;
        }
    }

    /// The globals that these notes delete.
    #[inline]
    fn deleted(&mut self, notes: &Notes) {
        for note in notes.iter() {
            if let Note::Delete(global) = note {
                self.global_from = self.global_from.min(global.0);
            }
        }
    }

    // ---- lookups: none where nothing is mapped, or the index is at or beyond the watermark. Nothing is lent, and nothing is refused.

    /// The global of a user.
    #[inline]
    pub fn global_from_user(&self, user: User) -> Option<Global> {
        ffi::global_from_user_in(&self.parts.lists.global_from_user, user.0).value().map(Global)
    }

    /// The user of a global.
    #[inline]
    pub fn user_from_global(&self, global: Global) -> Option<User> {
        ffi::user_from_global_in(&self.parts.lists.user_from_global, global.0).value().map(User)
    }

    /// The solver index that a global holds.
    #[inline]
    pub fn solver_from_global(&self, global: Global) -> Option<Solver> {
        ffi::solver_from_global_in(&self.parts.lists.solver_from_global, global.0).value().map(Solver)
    }

    /// The global that holds a solver index.
    #[inline]
    pub fn global_from_solver(&self, solver: Solver) -> Option<Global> {
        ffi::global_from_solver_in(&self.parts.lists.global_from_solver, solver.0).value().map(Global)
    }

    /// A global's record, coded as in [`Lists`]; none from the watermark on.
    #[inline]
    pub fn record(&self, global: Global) -> Option<u32> {
        ffi::record_in(self.parts.counts.global, &self.parts.lists.records, global.0).value()
    }

    /// A solver index's assignment word; none from the watermark on.
    #[inline]
    pub fn assignment(&self, solver: Solver) -> Option<u32> {
        ffi::assignment_in(self.parts.counts.solver, &self.parts.lists.assignment, solver.0).value()
    }

    // ---- names

    /// Maps a user, and every user below it from the watermark up. Refusals: 3, 4, 5, 2.
    ///
    /// To lend: one note for each user that is mapped: none if it is mapped already, one if it is below the watermark, else
    /// `user + 1 - counts().user`.
    ///
    /// ```
    /// use hintzobar::{Refusal, Table, User};
    /// let mut table = Table::open(2)?;
    /// let mut notes = table.notes();
    /// table.map(User(1), false, &mut notes)?;
    /// assert_eq!(notes.len(), 2);
    /// assert_eq!(table.map(User(2), false, &mut notes), Err(Refusal::OutOfRange));
    /// assert_eq!(table.new_user(&mut notes), Err(Refusal::NoRoom));
    /// # Ok::<(), Refusal>(())
    /// ```
    #[inline]
    pub fn map(&mut self, user: User, sampling: bool, notes: &mut Notes) -> Result<Global, Refusal> {
        let Parts { counts, lists } = &self.parts;
        // From the watermark on no user is mapped.
        if user.0 < counts.user {
            if let Some(global) = ffi::map_in(&lists.global_from_user, &lists.records, user.0, sampling).value() {
                notes.set_len(0);
                return Ok(Global(global));
            }
        }
        let answer = known!(self.map(user.0, sampling, self.global_from, notes.lend()));
        let global = answer.told(&mut self.parts.counts, notes)?;
        if !notes.is_empty() {
            self.mapped(user, global);
        }
        self.see();
        Ok(global)
    }

    /// Maps the least unmapped user; it and its global are answered. Refusals: 5, 2.
    ///
    /// To lend: one note.
    #[inline]
    pub fn new_user(&mut self, notes: &mut Notes) -> Result<(User, Global), Refusal> {
        let answer = known!(self.new_user(self.user_from, self.global_from, notes.lend()));
        let (user, global) = answer.told(&mut self.parts.counts, notes)?;
        // The least unmapped user: all up to it are mapped now.
        self.user_from = user.0 + 1;
        self.mapped(user, global);
        self.see();
        Ok((user, global))
    }

    /// Maps and grants for each user literal in turn; the solver literals are filled and their number answered. Refusals: 3, 4, 5, 2.
    ///
    /// To lend: a solver literal for each literal given; one note for each user that is mapped, as in [`Table::map`], and one for each solver
    /// index that is granted, which [`Table::users_to_map`] counts beforehand. [`Table::notes`] is enough.
    ///
    /// Stack: 33 KB beside the caller's own, where a user has no solver index yet. A thread of 128 KB is enough.
    #[inline]
    pub fn pose(
        &mut self,
        lits: &[Lit<User>],
        sampling: bool,
        out: &mut [Lit<Solver>],
        notes: &mut Notes,
    ) -> Result<usize, Refusal> {
        let Lists { global_from_user, solver_from_global, records, .. } = &self.parts.lists;
        if ffi::pose_in(global_from_user, solver_from_global, records, codes(lits), sampling, codes_mut(out)) {
            notes.set_len(0);
            return Ok(lits.len());
        }
        let answer = known!(self.pose(codes(lits), sampling, self.global_from, codes_mut(out), notes.lend()));
        let filled = answer.told(&mut self.parts.counts, notes)?;
        self.see();
        Ok(filled)
    }

    /// The solver index that the global holds, or is given. Refusals: 3, 6, 2.
    ///
    /// To lend: one note, none if it holds one already.
    #[inline]
    pub fn grant(&mut self, global: Global, notes: &mut Notes) -> Result<Solver, Refusal> {
        if let Some(solver) = ffi::grant_in(&self.parts.lists.solver_from_global, global.0).value() {
            notes.set_len(0);
            return Ok(Solver(solver));
        }
        let solver = known!(self.grant(global.0, notes.lend())).told(&mut self.parts.counts, notes)?;
        self.see();
        Ok(solver)
    }

    /// Changes a global's mode; a user that it is granted is answered. Refusals: 3, 6, 7, 2.
    ///
    /// To lend: two notes; one between Sample and Witness, or to Hide where the global stays; none if the mode is the same.
    ///
    /// ```
    /// use hintzobar::{Global, Mode, Note, Table, User};
    /// let mut table = Table::open(8)?;
    /// let mut notes = table.notes();
    /// table.map(User(2), false, &mut notes)?;
    /// assert_eq!(table.set_mode(Global(1), Mode::Hide, &mut notes)?, None);
    /// assert!(notes.iter().eq([Note::User(Global(1), None), Note::Delete(Global(1))]));
    /// assert_eq!(table.new_user(&mut notes)?, (User(1), Global(1)));
    /// # Ok::<(), hintzobar::Refusal>(())
    /// ```
    #[inline]
    pub fn set_mode(&mut self, global: Global, mode: Mode, notes: &mut Notes) -> Result<Option<User>, Refusal> {
        let user = if mode == Mode::Hide { self.user_from_global(global) } else { None };
        let answer = known!(self.set_mode(global.0, mode.number(), self.user_from, notes.lend()));
        let granted = answer.told(&mut self.parts.counts, notes)?;
        if mode == Mode::Hide {
            // The user that it had is unmapped now, and the global may be deleted.
            self.user_from = user.map_or(self.user_from, |user| self.user_from.min(user.0));
            self.deleted(notes);
        }
        self.see();
        Ok(granted)
    }

    /// Turns hidden globals into witnesses; their users are filled and their number answered. Refusals: 7, 2.
    ///
    /// To lend: a user and two notes for each hidden global; `counts().global` users are enough.
    pub fn observe(&mut self, out: &mut [User], notes: &mut Notes) -> Result<usize, Refusal> {
        let answer = known!(self.observe(self.user_from, indices_mut(out), notes.lend()));
        let filled = answer.told(&mut self.parts.counts, notes)?;
        self.see();
        Ok(filled)
    }

    /// Marks a held solver index. Nothing is lent. Refusals: 8.
    #[inline]
    pub fn mark(&mut self, mark: Mark, solver: Solver) -> Result<(), Refusal> {
        let lists = &mut self.parts.lists;
        Refusal::check(ffi::mark_in(&lists.global_from_solver, &mut lists.records, mark.number(), solver.0), 0)?;
        self.see();
        Ok(())
    }

    /// Makes a solver literal true, once. Nothing is lent. Refusals: 8, 9.
    #[inline]
    pub fn assign(&mut self, lit: Lit<Solver>) -> Result<(), Refusal> {
        let lists = &mut self.parts.lists;
        Refusal::check(ffi::assign_in(&lists.global_from_solver, &mut lists.assignment, lit.code()), 0)?;
        self.see();
        Ok(())
    }

    /// Takes a solver index from its global, which may not be assumed: [`Mark::Released`] comes first. Refusals: 8, 16, 2.
    ///
    /// To lend: one note, two if the global is then deleted.
    #[inline]
    pub fn remove(&mut self, solver: Solver, notes: &mut Notes) -> Result<(), Refusal> {
        known!(self.remove(solver.0, notes.lend())).told(&mut self.parts.counts, notes)?;
        self.deleted(notes);
        self.see();
        Ok(())
    }

    /// Learns units from the assignment and takes every isolated solver index that is not assumed. Refusals: 2.
    ///
    /// To lend: one note for each solver index that is taken, two if its global is then deleted; two for each index below `counts().solver`
    /// are enough.
    pub fn sweep(&mut self, notes: &mut Notes) -> Result<(), Refusal> {
        known!(self.sweep(notes.lend())).told(&mut self.parts.counts, notes)?;
        self.deleted(notes);
        self.see();
        Ok(())
    }

    // ---- proof lines

    /// Simplifies a clause by the assignment; the literals left and the steps' bytes are filled. Refusals: 3, 8, 12, 2.
    ///
    /// To lend: as many literals as are given, and the bytes of both steps; what [`Format::room_for`] says for the literals given is enough.
    ///
    /// Stack: 65 KB beside the caller's own, 99 KB where the clause is dropped, also a short one. A thread of 64 KB is too small; one of 128 KB is enough.
    #[inline]
    pub fn simplify(
        &self,
        format: Format,
        lits: &[Lit<Solver>],
        redundant: bool,
        out: &mut [Lit<Solver>],
        proof: &mut [u8],
    ) -> Result<Simplified, Refusal> {
        known_ask!(self.simplify(format.number(), codes(lits), redundant, codes_mut(out), proof)).told()
    }

    /// Takes the binary clauses that have a literal with a value out of their lists; the lists left and the bytes of a delete step for each
    /// are filled. Refusals: 15, 8, 2.
    ///
    /// Lists are words: a section for each literal code below `2 * counts().solver`, ascending, each after the count of its entries. An
    /// entry `m` in the section of `l` is the clause of `!l` and `m`; it stands as well, equally often, as the entry `!l` in the section of
    /// `!m`. [`Table::binary_lists`] makes them. The lists that are answered may be given again.
    ///
    /// To lend: as many words as `lists` has, and 8 bytes for each of them, 3 in binary. A clause has two entries, and its step takes at most
    /// 16 bytes, 6 in binary.
    ///
    /// Stack: 193 KB beside the caller's own, whatever the lists. A thread of 256 KB is enough.
    ///
    /// ```
    /// use hintzobar::{Format, Lit, Table, User};
    /// let mut table = Table::open(8)?;
    /// let mut notes = table.notes();
    /// let mut posed = [Lit::from_code(0); 3];
    /// table.pose(&[0, 1, 2].map(|user| Lit::positive(User(user))), false, &mut posed, &mut notes)?;
    ///
    /// let [a, b, c] = posed;
    /// let lists = table.binary_lists(&[[a, b], [!b, c]]).unwrap();
    /// table.assign(a)?;
    /// let (mut out, mut proof) = (vec![0; lists.len()], vec![0; 8 * lists.len()]);
    /// let thinned = table.simplify_binary(Format::Text, &lists, &mut out, &mut proof)?;
    /// assert_eq!(&proof[..thinned.bytes], b"d 1 2 0\n");
    /// assert_eq!(thinned.half, 1);
    /// assert_eq!(out[..thinned.words], table.binary_lists(&[[!b, c]]).unwrap());
    /// # Ok::<(), hintzobar::Refusal>(())
    /// ```
    pub fn simplify_binary(&self, format: Format, lists: &[u32], out: &mut [u32], proof: &mut [u8]) -> Result<Thinned, Refusal> {
        known_ask!(self.simplify_binary(format.number(), lists, out, proof)).told()
    }

    /// A step under global names: its literals and hashes are filled; the step comes back as given. Refusals: 14, 3, 8, 2.
    ///
    /// To lend: as many literals and hashes as are given; none for a kind that carries none.
    ///
    /// ```
    /// use hintzobar::{Global, Lits, Solver, Step, Table};
    /// let table = Table::open(8)?;
    /// let step = Step::SolverVarName(Global(2), Some(Solver(u32::MAX)));
    /// let renamed = table.rename(step, Lits::Solver(&[]), &[], &mut [], &mut [])?;
    /// assert_eq!((renamed.step, renamed.lits, renamed.hashes), (step, 0, 0));
    /// # Ok::<(), hintzobar::Refusal>(())
    /// ```
    #[inline]
    pub fn rename(
        &self,
        step: Step,
        lits: Lits,
        hashes: &[u64],
        out: &mut [Lit<Global>],
        hash_out: &mut [u64],
    ) -> Result<Renamed, Refusal> {
        let (solver_vars, lits) = lits.codes();
        if solver_vars && hashes.is_empty() && step.is_clause() {
            return ffi::rename_in(&self.parts.lists.global_from_solver, lits, codes_mut(out)).told(step);
        }
        known_ask!(self.rename(step.words(), solver_vars, lits, hashes, codes_mut(out), hash_out)).told_as(step)
    }

    /// A step's bytes under global names; how many were filled is answered. Refusals: 14, 3, 8, 11, 2.
    ///
    /// To lend: the bytes of the step; what [`Format::room_for`] says for the literals given is enough. None for a kind that writes nothing.
    ///
    /// Stack: 35 KB beside the caller's own, whatever the clause. A thread of 128 KB is enough for any call of this crate but
    /// [`Table::simplify_binary`].
    ///
    /// ```
    /// use hintzobar::{Cause, Format, Global, Lit, Lits, Solver, Step, Table, User};
    /// let mut table = Table::open(8)?;
    /// let mut notes = table.notes();
    /// table.map(User(2), false, &mut notes)?;
    /// assert_eq!(table.grant(Global(2), &mut notes)?, Solver(0));
    ///
    /// let mut proof = [0; 16];
    /// let lits = [Lit::negative(Solver(0))];
    /// let n = table.write(Format::Text, Step::AtClause(false), Lits::Solver(&lits), &[], &mut proof)?;
    /// assert_eq!(&proof[..n], b"-3 0\n");
    /// let n = table.write(Format::Binary, Step::DeleteClause(Cause::Redundant), Lits::Solver(&[]), &[], &mut proof)?;
    /// assert_eq!(&proof[..n], [0x64, 0]);
    /// # Ok::<(), hintzobar::Refusal>(())
    /// ```
    #[inline]
    pub fn write(&self, format: Format, step: Step, lits: Lits, hashes: &[u64], proof: &mut [u8]) -> Result<usize, Refusal> {
        let (solver_vars, lits) = lits.codes();
        known_ask!(self.write(format.number(), step.words(), solver_vars, lits, hashes, proof)).told()
    }

    // ---- the model

    /// A word for each global below its watermark, and the literals of users that have a value; how many of each. Refusals: 2.
    ///
    /// To lend: `counts().global` words, and a literal for each user that has a value; `counts().user` are enough.
    pub fn model(&self, globals: &mut [u32], users: &mut [Lit<User>]) -> Result<(usize, usize), Refusal> {
        known_ask!(self.model(globals, codes_mut(users))).told()
    }
}
