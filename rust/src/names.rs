//! Indices, literals and notes.
use std::{fmt, marker::PhantomData, ops::Not};

/// A user index: what intake uses.
#[derive(Clone, Copy, PartialEq, Eq, PartialOrd, Ord, Hash, Debug)]
#[repr(transparent)]
pub struct User(pub u32);

/// A global index: what the proof uses.
#[derive(Clone, Copy, PartialEq, Eq, PartialOrd, Ord, Hash, Debug)]
#[repr(transparent)]
pub struct Global(pub u32);

/// A solver index: what the search uses.
#[derive(Clone, Copy, PartialEq, Eq, PartialOrd, Ord, Hash, Debug)]
#[repr(transparent)]
pub struct Solver(pub u32);

/// One of the three sorts of index.
pub trait Name: Copy {
    /// The index itself.
    fn index(self) -> u32;
    /// The name with this index.
    fn from_index(index: u32) -> Self;
}

macro_rules! names {
    ($($name:ident)*) => {
        $(impl Name for $name {
            fn index(self) -> u32 {
                self.0
            }
            fn from_index(index: u32) -> $name {
                $name(index)
            }
        })*
    };
}

names!(User Global Solver);

/// A literal of one sort of name. Its code is twice the index, one more if it is negated; literals are ordered by their codes.
///
/// ```
/// use hintzobar::{Lit, Solver, User};
/// let lit = Lit::negative(User(2));
/// assert_eq!((lit.code(), lit.name(), lit.dimacs()), (5, User(2), -3));
/// assert_eq!(Lit::<Solver>::from_code(4), Lit::positive(Solver(2)));
/// assert_eq!(Lit::from_dimacs(-3), Some(lit));
/// assert_eq!((!lit).to_string(), "3");
/// ```
///
/// A function that takes one sort of literal can't be handed another:
///
/// ```compile_fail
/// use hintzobar::{Lit, Solver, User};
/// let lit: Lit<Solver> = Lit::positive(User(2));
/// ```
#[derive(Clone, Copy, PartialEq, Eq, PartialOrd, Ord, Hash, Debug)]
#[repr(transparent)]
pub struct Lit<N> {
    code: u32,
    sort: PhantomData<N>,
}

impl<N: Name> Lit<N> {
    /// The literal with this code.
    pub fn from_code(code: u32) -> Lit<N> {
        Lit { code, sort: PhantomData }
    }

    /// The name itself. An index of 2^31 or more has no code; the greatest one stands for it, which every call refuses.
    pub fn positive(name: N) -> Lit<N> {
        Lit::from_code(name.index().checked_mul(2).unwrap_or(u32::MAX - 1))
    }

    /// The name negated.
    pub fn negative(name: N) -> Lit<N> {
        Lit::from_code(Lit::positive(name).code + 1)
    }

    /// The literal's code.
    pub fn code(self) -> u32 {
        self.code
    }

    /// The name under the sign.
    pub fn name(self) -> N {
        N::from_index(self.code / 2)
    }

    /// Whether it is negative.
    pub fn is_negative(self) -> bool {
        self.code % 2 == 1
    }

    /// The DIMACS number: index + 1, negated if negative.
    pub fn dimacs(self) -> i64 {
        let number = i64::from(self.code / 2) + 1;
        if self.is_negative() {
            -number
        } else {
            number
        }
    }

    /// The literal with this DIMACS number. There is none for 0, nor beyond 2^31 on either side, where codes end.
    pub fn from_dimacs(number: i64) -> Option<Lit<N>> {
        let index = u32::try_from(number.unsigned_abs().checked_sub(1)?).ok()?;
        let code = index.checked_mul(2)?;
        Some(Lit::from_code(code + u32::from(number < 0)))
    }
}

/// The same name under the other sign.
impl<N> Not for Lit<N> {
    type Output = Lit<N>;

    fn not(self) -> Lit<N> {
        Lit { code: self.code ^ 1, sort: PhantomData }
    }
}

/// The DIMACS number.
impl<N: Name> fmt::Display for Lit<N> {
    fn fmt(&self, f: &mut fmt::Formatter) -> fmt::Result {
        self.dimacs().fmt(f)
    }
}

/// The codes of literals, in place.
pub(crate) fn codes<N>(lits: &[Lit<N>]) -> &[u32] {
    // `Lit` is its code, transparently.
    unsafe { std::slice::from_raw_parts(lits.as_ptr().cast(), lits.len()) }
}

pub(crate) fn codes_mut<N>(lits: &mut [Lit<N>]) -> &mut [u32] {
    unsafe { std::slice::from_raw_parts_mut(lits.as_mut_ptr().cast(), lits.len()) }
}

/// The indices of users, in place.
pub(crate) fn indices_mut(users: &mut [User]) -> &mut [u32] {
    // `User` is its index, transparently.
    unsafe { std::slice::from_raw_parts_mut(users.as_mut_ptr().cast(), users.len()) }
}

/// A naming step: what a call did to the names of a global.
#[derive(Clone, Copy, PartialEq, Eq, Hash, Debug)]
pub enum Note {
    /// U: the user index was granted to the global, or withdrawn from it.
    User(Global, Option<User>),
    /// S: the solver index was granted to the global, or withdrawn from it.
    Solver(Global, Option<Solver>),
    /// D: the global was deleted.
    Delete(Global),
    /// C: the global's mode changed; yes for Sample.
    Mode(Global, bool),
}

/// As document 01 writes notes: `U(2,0)`, `S(2,-)`, `D(1)`, `C(2,yes)`.
impl fmt::Display for Note {
    fn fmt(&self, f: &mut fmt::Formatter) -> fmt::Result {
        let (kind, global, last) = match *self {
            Note::User(global, user) => ("U", global, last(user)),
            Note::Solver(global, solver) => ("S", global, last(solver)),
            Note::Delete(global) => return write!(f, "D({})", global.0),
            Note::Mode(global, sample) => ("C", global, if sample { "yes" } else { "no" }.into()),
        };
        write!(f, "{}({},{})", kind, global.0, last)
    }
}

/// An index, or a dash where it is withdrawn.
fn last<N: Name>(name: Option<N>) -> String {
    name.map_or("-".into(), |name| name.index().to_string())
}

impl Note {
    fn from_words(words: &[u32]) -> Note {
        let global = Global(words[1]);
        let last = words[2].checked_sub(1);
        match words[0] {
            0 => Note::User(global, last.map(User)),
            1 => Note::Solver(global, last.map(Solver)),
            2 => Note::Delete(global),
            _ => Note::Mode(global, words[2] == 1),
        }
    }
}

/// Memory that calls fill with their notes.
///
/// Each call writes its notes from the start, over those of the call before; a refused call leaves them as they were. A note takes three
/// words. [`Table::notes`](crate::Table::notes) is enough for any call on that table; what a single call needs is said there.
#[derive(Clone, PartialEq, Eq, Debug)]
pub struct Notes {
    words: Vec<u32>,
    count: usize,
}

impl From<Vec<u32>> for Notes {
    /// This memory, with no notes in it yet.
    fn from(words: Vec<u32>) -> Notes {
        Notes { words, count: 0 }
    }
}

impl Notes {
    /// Room for this many words, three for each note.
    pub fn with_words(words: usize) -> Notes {
        Notes { words: vec![0; words], count: 0 }
    }

    /// The notes of the last accepted call.
    pub fn iter(&self) -> impl Iterator<Item = Note> + '_ {
        self.words[..3 * self.count].chunks_exact(3).map(Note::from_words)
    }

    /// How many there are.
    pub fn len(&self) -> usize {
        self.count
    }

    /// Whether there are none.
    pub fn is_empty(&self) -> bool {
        self.count == 0
    }

    /// All words, those past the notes included.
    pub fn words(&self) -> &[u32] {
        &self.words
    }

    pub(crate) fn lend(&mut self) -> &mut [u32] {
        &mut self.words
    }

    pub(crate) fn set_len(&mut self, count: u32) {
        self.count = (count as usize).min(self.words.len() / 3);
    }
}
