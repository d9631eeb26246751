//! Proof lines: formats, steps, and the reader.
use std::ops::Range;

use crate::{ffi, names::codes, Global, Lit, Name, Refusal, Solver, User};

/// The format of a DRAT proof.
#[derive(Clone, Copy, PartialEq, Eq, Hash, Debug)]
pub enum Format {
    /// Lines of decimal numbers.
    Text,
    /// LEB128 codes.
    Binary,
}

impl Format {
    pub(crate) fn number(self) -> u32 {
        match self {
            Format::Text => 0,
            Format::Binary => 1,
        }
    }

    /// Enough bytes for any one Write or Simplify of this many literals, and for one clause. Beyond what memory can hold it is the greatest
    /// number there is.
    pub fn room_for(self, lits: usize) -> usize {
        lits.saturating_mul(12).saturating_add(8)
    }
}

/// Why a clause is deleted.
#[derive(Clone, Copy, PartialEq, Eq, Hash, Debug)]
pub enum Cause {
    /// It follows from others, or was only learnt.
    Redundant,
    /// One of its literals is true.
    Satisfied,
    /// A shorter one stands in its place.
    Simplified,
}

/// The kinds of proof step. Literals and hashes stand beside the step.
#[derive(Clone, Copy, PartialEq, Eq, Hash, Debug)]
pub enum Step {
    /// A clause of the formula, which DRAT does not write.
    AddClause,
    /// A clause that follows by propagation, written as an add; whether it is redundant. Hashes go with it.
    AtClause(bool),
    /// Unit clauses, written as an add each; as many hashes as literals go with them.
    UnitClauses,
    /// A clause goes, for this cause; written as a delete.
    DeleteClause(Cause),
    /// A model, of which nothing is written.
    Model,
    /// Assumptions, which DRAT does not write.
    Assumptions,
    /// Assumptions that cannot all hold, which DRAT does not write. Hashes go with them.
    FailedAssumptions,
    /// A naming step: the solver index is granted to the global, or withdrawn.
    SolverVarName(Global, Option<Solver>),
    /// A naming step: the user index is granted to the global, or withdrawn.
    UserVarName(Global, Option<User>),
    /// A naming step: the global is deleted.
    DeleteVar(Global),
    /// A naming step: whether the global's mode is now Sample.
    ChangeSamplingMode(Global, bool),
    /// So many bits of the hashes count from here on.
    ChangeHashBits(u32),
    /// The proof ends.
    End,
}

/// A name's word: index + 1, or 0 for none. The greatest index has no word; that of the one below stands for it.
fn word<N: Name>(name: Option<N>) -> u32 {
    name.map_or(0, |name| name.index().saturating_add(1))
}

impl Step {
    /// Whether it carries literals, any number of hashes beside them.
    #[inline]
    pub(crate) fn is_clause(self) -> bool {
        use Step::*;
        matches!(self, AddClause | AtClause(_) | DeleteClause(_) | Model | Assumptions | FailedAssumptions)
    }

    #[inline]
    pub(crate) fn words(self) -> ffi::Step {
        let (kind, a, b) = match self {
            Step::AddClause => (0, 0, 0),
            Step::AtClause(redundant) => (1, redundant.into(), 0),
            Step::UnitClauses => (2, 0, 0),
            Step::DeleteClause(Cause::Redundant) => (3, 0, 0),
            Step::DeleteClause(Cause::Satisfied) => (3, 1, 0),
            Step::DeleteClause(Cause::Simplified) => (3, 2, 0),
            Step::Model => (4, 0, 0),
            Step::Assumptions => (5, 0, 0),
            Step::FailedAssumptions => (6, 0, 0),
            Step::SolverVarName(global, solver) => (7, global.0, word(solver)),
            Step::UserVarName(global, user) => (8, global.0, word(user)),
            Step::DeleteVar(global) => (9, global.0, 0),
            Step::ChangeSamplingMode(global, sample) => (10, global.0, sample.into()),
            Step::ChangeHashBits(bits) => (11, bits, 0),
            Step::End => (12, 0, 0),
        };
        ffi::Step { kind, a, b }
    }

    pub(crate) fn from_words(words: ffi::Step) -> Option<Step> {
        let ffi::Step { kind, a, b } = words;
        Some(match kind {
            0 => Step::AddClause,
            1 => Step::AtClause(a != 0),
            2 => Step::UnitClauses,
            3 => Step::DeleteClause([Cause::Redundant, Cause::Satisfied, Cause::Simplified].get(a as usize).copied()?),
            4 => Step::Model,
            5 => Step::Assumptions,
            6 => Step::FailedAssumptions,
            7 => Step::SolverVarName(Global(a), b.checked_sub(1).map(Solver)),
            8 => Step::UserVarName(Global(a), b.checked_sub(1).map(User)),
            9 => Step::DeleteVar(Global(a)),
            10 => Step::ChangeSamplingMode(Global(a), b != 0),
            11 => Step::ChangeHashBits(a),
            12 => Step::End,
            _ => return None,
        })
    }
}

/// What Rename answers: the step, and how many literals and hashes were filled.
#[derive(Clone, Copy, PartialEq, Eq, Hash, Debug)]
pub struct Renamed {
    /// As given.
    pub step: Step,
    /// How many literals were filled.
    pub lits: usize,
    /// How many hashes were filled.
    pub hashes: usize,
}

/// The literals of a step: solver literals, which are renamed, or global ones, which go as given.
#[derive(Clone, Copy, PartialEq, Eq, Debug)]
pub enum Lits<'a> {
    /// They go under the globals that hold their indices.
    Solver(&'a [Lit<Solver>]),
    /// They go as given.
    Global(&'a [Lit<Global>]),
}

impl<'a> Lits<'a> {
    /// Whether they are solver literals, and their codes.
    #[inline]
    pub(crate) fn codes(self) -> (bool, &'a [u32]) {
        match self {
            Lits::Solver(lits) => (true, codes(lits)),
            Lits::Global(lits) => (false, codes(lits)),
        }
    }
}

/// What Read filled.
#[derive(Clone, Copy, PartialEq, Eq, Debug)]
pub struct Reading {
    /// How many literals.
    pub lits: usize,
    /// How many ends, and how many kinds.
    pub steps: usize,
}

/// Reads a proof: the literals of all steps in a row, where each step ends in it, and kinds (0 add, 1 delete). Refusals: 13, 2.
///
/// To lend: a literal for each one in the proof, an end and a kind for each step. As many of each as there are bytes is enough.
///
/// ```
/// use hintzobar::{read, Format, Global, Lit, Refusal};
/// let (mut lits, mut ends, mut kinds) = ([Lit::from_code(0); 4], [0; 2], [0; 2]);
/// let reading = read(Format::Text, b"1 -2 0\nd 1 0\n", &mut lits, &mut ends, &mut kinds)?;
/// assert_eq!((reading.lits, reading.steps), (3, 2));
/// assert_eq!(lits[..3], [Lit::positive(Global(0)), Lit::negative(Global(1)), Lit::positive(Global(0))]);
/// assert_eq!((ends, kinds), ([2, 3], [0, 1]));
///
/// let cut = read(Format::Text, b"1 0\n 2", &mut lits, &mut ends, &mut kinds).unwrap_err();
/// assert_eq!(cut.number(), 13);
/// assert!(cut.to_string().ends_with("at byte 5 (line 2, column 2)"));
/// # Ok::<(), Refusal>(())
/// ```
pub fn read(
    format: Format,
    bytes: &[u8],
    lits: &mut [Lit<Global>],
    ends: &mut [u64],
    kinds: &mut [u8],
) -> Result<Reading, Refusal> {
    let answer = ffi::read(format.number(), bytes, crate::names::codes_mut(lits), ends, kinds);
    Refusal::check_proof(answer.refusal, answer.place, format, bytes)?;
    Ok(Reading { lits: answer.lits, steps: answer.steps })
}

/// The first step alone: the part of the bytes from its first token to its end. Nothing is lent. Refusals: 13, at the first token or, without
/// any, at 0.
///
/// ```
/// use hintzobar::{first_step, Format};
/// assert_eq!(first_step(Format::Text, b"\nd\n1 0 rubbish"), Ok(&b"d\n1 0"[..]));
/// assert_eq!(first_step(Format::Binary, b"").unwrap_err().number(), 13);
/// ```
pub fn first_step(format: Format, bytes: &[u8]) -> Result<&[u8], Refusal> {
    Ok(&bytes[first_range(format, bytes)?])
}

/// From where to where the first step stands: the places of its first token and of the byte after its end. The next step is the first one of the
/// bytes from there on. Refusals: 13, as of [`first_step`].
///
/// ```
/// use hintzobar::{first_range, Format};
/// let proof = b"1 2 0\nd 1\n2 0\n";
/// let first = first_range(Format::Text, proof)?;
/// assert_eq!(first, 0..5);
/// assert_eq!(first_range(Format::Text, &proof[first.end..])?, 1..8);
/// # Ok::<(), hintzobar::Refusal>(())
/// ```
pub fn first_range(format: Format, bytes: &[u8]) -> Result<Range<usize>, Refusal> {
    let answer = ffi::first_step(format.number(), bytes);
    Refusal::check_proof(answer.refusal, answer.place, format, bytes)?;
    Ok(answer.place..answer.place + answer.length)
}

/// Writes `lits[a..b]` as one step at `proof[at..]`: an add, or a delete. Answers the place after it. Refusals: 3 where `a..b` is no part of
/// the literals, has more than 8,192 or an index of 4,096 or more, 2.
///
/// To lend: the bytes of the step, from `at` on; what [`Format::room_for`] says for `b - a` is enough.
///
/// ```
/// use hintzobar::{write_clause, Format, Global, Lit};
/// let mut proof = [0; 8];
/// let end = write_clause(Format::Text, true, &[Lit::negative(Global(2))], 0, 1, &mut proof, 0)?;
/// assert_eq!(&proof[..end], b"d -3 0\n");
/// # Ok::<(), hintzobar::Refusal>(())
/// ```
pub fn write_clause(
    format: Format,
    delete: bool,
    lits: &[Lit<Global>],
    a: usize,
    b: usize,
    proof: &mut [u8],
    at: usize,
) -> Result<usize, Refusal> {
    let answer = ffi::write_clause(format.number(), delete.into(), codes(lits), a, b, proof, at);
    Refusal::check(answer.refusal, 0)?;
    Ok(answer.bytes)
}

/// Writes a whole proof from the lists that [`read`] fills: the literals of all steps in a row, where each step ends in it, and kinds (0 add,
/// 1 delete). Answers how many bytes it took. Refusals: 3 where the lists are no proof, 2.
///
/// To lend: the bytes of the proof; 6 for each literal and 4 for each step are enough.
///
/// ```
/// use hintzobar::{write_proof, Format, Global, Lit, Refusal};
/// let lits = [Lit::positive(Global(0)), Lit::negative(Global(1)), Lit::positive(Global(0))];
/// let mut proof = [0; 16];
/// let end = write_proof(Format::Text, &lits, &[2, 3], &[0, 1], &mut proof)?;
/// assert_eq!(&proof[..end], b"1 -2 0\nd 1 0\n");
///
/// let falling = write_proof(Format::Text, &lits, &[3, 2], &[0, 1], &mut proof);
/// assert_eq!(falling, Err(Refusal::OutOfRange));
/// # Ok::<(), Refusal>(())
/// ```
pub fn write_proof(format: Format, lits: &[Lit<Global>], ends: &[u64], kinds: &[u8], proof: &mut [u8]) -> Result<usize, Refusal> {
    let answer = ffi::write_proof(format.number(), codes(lits), ends, kinds, proof);
    Refusal::check(answer.refusal, 0)?;
    Ok(answer.bytes)
}
