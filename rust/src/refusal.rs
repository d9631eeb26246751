//! Why a call was refused.
use std::{error::Error, fmt};

use crate::Format;

/// A place in a proof.
#[derive(Clone, Copy, PartialEq, Eq, Hash, Debug)]
pub struct Place {
    /// The byte, counted from 0.
    pub byte: usize,
    /// In text, the line and the byte's column in it, both counted from 1.
    pub line_and_column: Option<(usize, usize)>,
}

impl Place {
    pub(crate) fn of(format: Format, bytes: &[u8], byte: usize) -> Place {
        let before = &bytes[..byte.min(bytes.len())];
        let line = 1 + before.iter().filter(|&&b| b == b'\n').count();
        let column = 1 + before.iter().rev().take_while(|&&b| b != b'\n').count();
        Place { byte, line_and_column: (format == Format::Text).then_some((line, column)) }
    }
}

impl fmt::Display for Place {
    fn fmt(&self, f: &mut fmt::Formatter) -> fmt::Result {
        write!(f, "byte {}", self.byte)?;
        match self.line_and_column {
            Some((line, column)) => write!(f, " (line {}, column {})", line, column),
            None => Ok(()),
        }
    }
}

/// Why a call was refused. A refused call leaves the table and every lent slice as they were.
#[derive(Clone, Copy, PartialEq, Eq, Hash, Debug)]
#[non_exhaustive]
pub enum Refusal {
    /// 1: the table is not sound: its lists and its counts do not fit together. Of [`Parts`](crate::Parts) and what is made of them alone.
    Unsound,
    /// 2: a lent output is shorter than this call fills.
    Short,
    /// 3: an index at or above its bound, more than 8,192 literals, or lists that do not fit together.
    OutOfRange,
    /// 4: sampling is required and a user's global is not in mode Sample.
    NotSampled,
    /// 5: more users to map than there are free globals, which [`Fill::free`](crate::Fill::free) counts.
    NoRoom,
    /// 6: the global is deleted.
    Deleted,
    /// 7: the global is assumed.
    Assumed,
    /// 8: no global holds the solver index.
    NotHeld,
    /// 9: the solver index has a value already.
    HasValue,
    /// 10: the capacity is not 1 to 4,096, or a list has another length.
    BadSize,
    /// 11: DRAT lacks this kind of step.
    NotInDrat,
    /// 12: no literal is true, some are false, and fewer than two are unknown.
    FewUnknown,
    /// 13: a step of the proof is not whole; the place is that of its first token.
    BrokenProof(Place),
    /// 14: units and hashes differ in number.
    Unmatched,
    /// 15: the lists of binary clauses are not one section for each literal code, or an entry has no mirror.
    BadLists,
    /// 16: the global that holds the solver index is assumed.
    StillAssumed,
    /// 17: the file is no DIMACS CNF of the strict form; the place is the start of the first wrong line. For a wrong number of clauses that is
    /// the header, for a file of `c` lines alone its end.
    BadCnf(usize),
    /// A number that this crate does not know.
    Other(u32),
}

impl Refusal {
    /// `Ok` for 0, which is no refusal. The place goes with number 17; for 13 see `check_proof`.
    #[inline]
    pub(crate) fn check(number: u32, place: usize) -> Result<(), Refusal> {
        match number {
            0 => Ok(()),
            _ => Err(Refusal::of(number, place)),
        }
    }

    #[cold]
    fn of(number: u32, place: usize) -> Refusal {
        match number {
            1 => Refusal::Unsound,
            2 => Refusal::Short,
            3 => Refusal::OutOfRange,
            4 => Refusal::NotSampled,
            5 => Refusal::NoRoom,
            6 => Refusal::Deleted,
            7 => Refusal::Assumed,
            8 => Refusal::NotHeld,
            9 => Refusal::HasValue,
            10 => Refusal::BadSize,
            11 => Refusal::NotInDrat,
            12 => Refusal::FewUnknown,
            13 => Refusal::BrokenProof(Place { byte: place, line_and_column: None }),
            14 => Refusal::Unmatched,
            15 => Refusal::BadLists,
            16 => Refusal::StillAssumed,
            17 => Refusal::BadCnf(place),
            other => Refusal::Other(other),
        }
    }

    /// The same for a call that reads a proof.
    pub(crate) fn check_proof(number: u32, place: usize, format: Format, bytes: &[u8]) -> Result<(), Refusal> {
        match number {
            13 => Err(Refusal::BrokenProof(Place::of(format, bytes, place))),
            _ => Refusal::check(number, place),
        }
    }

    /// The refusal's number.
    pub fn number(self) -> u32 {
        match self {
            Refusal::Unsound => 1,
            Refusal::Short => 2,
            Refusal::OutOfRange => 3,
            Refusal::NotSampled => 4,
            Refusal::NoRoom => 5,
            Refusal::Deleted => 6,
            Refusal::Assumed => 7,
            Refusal::NotHeld => 8,
            Refusal::HasValue => 9,
            Refusal::BadSize => 10,
            Refusal::NotInDrat => 11,
            Refusal::FewUnknown => 12,
            Refusal::BrokenProof(_) => 13,
            Refusal::Unmatched => 14,
            Refusal::BadLists => 15,
            Refusal::StillAssumed => 16,
            Refusal::BadCnf(_) => 17,
            Refusal::Other(number) => number,
        }
    }

    /// Its meaning.
    pub fn meaning(self) -> &'static str {
        match self {
            Refusal::Unsound => "the table is not sound",
            Refusal::Short => "an output is shorter than this call fills",
            Refusal::OutOfRange => {
                "an index is at or above its bound, there are more than 8,192 literals, or the lists do not fit together"
            }
            Refusal::NotSampled => "sampling is required and the variable's mode is not Sample",
            Refusal::NoRoom => "there are more users to map than free globals",
            Refusal::Deleted => "the global is deleted",
            Refusal::Assumed => "the global is assumed",
            Refusal::NotHeld => "no global holds the solver index",
            Refusal::HasValue => "the solver index has a value already",
            Refusal::BadSize => "the capacity is not 1 to 4,096, or a list has another length",
            Refusal::NotInDrat => "DRAT lacks this kind of step",
            Refusal::FewUnknown => "no literal is true, some are false, and fewer than two are unknown",
            Refusal::BrokenProof(_) => "a step of the proof is not whole",
            Refusal::Unmatched => "units and hashes differ in number",
            Refusal::BadLists => "the lists are not one section for each literal code, or an entry has no mirror",
            Refusal::StillAssumed => "the global that holds the solver index is assumed",
            Refusal::BadCnf(_) => "the file is no DIMACS CNF of the strict form",
            Refusal::Other(_) => "a number that this crate does not know",
        }
    }
}

impl fmt::Display for Refusal {
    fn fmt(&self, f: &mut fmt::Formatter) -> fmt::Result {
        write!(f, "refusal {}: {}", self.number(), self.meaning())?;
        match self {
            Refusal::BrokenProof(place) => write!(f, ", the one at {}", place),
            Refusal::BadCnf(place) => write!(f, ", the first wrong line is at byte {}", place),
            _ => Ok(()),
        }
    }
}

impl Error for Refusal {}
