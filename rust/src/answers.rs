//! What the answers of calls say: a refusal, or the counts and notes that are stored and the value that is handed on.
use crate::{ffi, Counts, Global, Made, Notes, Refusal, Renamed, Simplified, Solver, Step, Thinned, User};

impl Counts {
    /// The counts that a call answered, which often leaves them as they are; no call changes the capacity. They go word by word, and only where one has
    /// changed: the answer was written so a moment ago, and a load of several words at once would have to wait for it, here or in the next call.
    #[inline]
    fn take(&mut self, given: &Counts) {
        debug_assert_eq!(self.capacity, given.capacity);
        let Counts { capacity: _, user, global, solver, used, next } = self;
        let words = [(user, given.user), (global, given.global), (solver, given.solver), (used, given.used), (next, given.next)];
        for (word, given) in words {
            if *word != given {
                *word = given;
            }
        }
    }
}

/// Stores the counts and the number of notes of an accepted call.
#[inline]
fn took(refusal: u32, given: Counts, filled: u32, counts: &mut Counts, notes: &mut Notes) -> Result<(), Refusal> {
    Refusal::check(refusal, 0)?;
    counts.take(&given);
    notes.set_len(filled);
    Ok(())
}

/// The same of a call that changes the counts: then one copy takes less time than the words.
#[inline]
fn changed(refusal: u32, given: Counts, filled: u32, counts: &mut Counts, notes: &mut Notes) -> Result<(), Refusal> {
    Refusal::check(refusal, 0)?;
    *counts = given;
    notes.set_len(filled);
    Ok(())
}

impl ffi::Changed {
    #[inline]
    pub fn told(self, counts: &mut Counts) -> Result<(), Refusal> {
        Refusal::check(self.refusal, 0)?;
        *counts = self.counts;
        Ok(())
    }
}

impl ffi::Noted {
    #[inline]
    pub fn told(self, counts: &mut Counts, notes: &mut Notes) -> Result<(), Refusal> {
        took(self.refusal, self.counts, self.notes, counts, notes)
    }
}

impl ffi::Mapped {
    #[inline]
    pub fn told(self, counts: &mut Counts, notes: &mut Notes) -> Result<Global, Refusal> {
        changed(self.refusal, self.counts, self.notes, counts, notes)?;
        Ok(Global(self.global))
    }
}

impl ffi::NewMapped {
    #[inline]
    pub fn told(self, counts: &mut Counts, notes: &mut Notes) -> Result<(User, Global), Refusal> {
        changed(self.refusal, self.counts, self.notes, counts, notes)?;
        Ok((User(self.user), Global(self.global)))
    }
}

impl ffi::Granted {
    #[inline]
    pub fn told(self, counts: &mut Counts, notes: &mut Notes) -> Result<Solver, Refusal> {
        changed(self.refusal, self.counts, self.notes, counts, notes)?;
        Ok(Solver(self.solver))
    }
}

impl ffi::ModeSet {
    #[inline]
    pub fn told(self, counts: &mut Counts, notes: &mut Notes) -> Result<Option<User>, Refusal> {
        took(self.refusal, self.counts, self.notes, counts, notes)?;
        Ok(self.granted.then_some(User(self.user)))
    }
}

impl ffi::Posed {
    #[inline]
    pub fn told(self, counts: &mut Counts, notes: &mut Notes) -> Result<usize, Refusal> {
        took(self.refusal, self.counts, self.notes, counts, notes)?;
        Ok(self.filled as usize)
    }
}

impl ffi::Found {
    /// Of a call that may refuse the table.
    pub fn told(self) -> Result<Option<u32>, Refusal> {
        Refusal::check(self.refusal, 0)?;
        Ok(self.value())
    }

    /// Of one that refuses nothing.
    #[inline]
    pub fn value(self) -> Option<u32> {
        self.found.then_some(self.value)
    }
}

impl ffi::Simplified {
    #[inline]
    pub fn told(self) -> Result<Simplified, Refusal> {
        Refusal::check(self.refusal, 0)?;
        let made = match self.made {
            0 => Made::Kept,
            1 => Made::Dropped,
            2 => Made::Shortened,
            _ => Made::Binary,
        };
        Ok(Simplified { made, redundant: self.redundant, lits: self.lits, bytes: self.bytes })
    }
}

impl ffi::Thinned {
    pub fn told(self) -> Result<Thinned, Refusal> {
        Refusal::check(self.refusal, 0)?;
        Ok(Thinned { words: self.words, half: self.half, bytes: self.bytes })
    }
}

impl ffi::Renamed {
    /// A name of `u32::MAX` has no word of its own: where the words come back as given, so does the step.
    pub fn told(self, given: Step) -> Result<Renamed, Refusal> {
        let step = if self.step == given.words() { given } else { Step::from_words(self.step).unwrap_or(given) };
        self.told_as(step)
    }

    /// Without reading the step again, which is as given.
    #[inline]
    pub fn told_as(self, step: Step) -> Result<Renamed, Refusal> {
        Refusal::check(self.refusal, 0)?;
        Ok(Renamed { step, lits: self.lits, hashes: self.hashes })
    }
}

impl ffi::RenamedIn {
    #[inline]
    pub fn told(self, step: Step) -> Result<Renamed, Refusal> {
        Refusal::check(self.refusal, 0)?;
        Ok(Renamed { step, lits: self.lits, hashes: 0 })
    }
}

impl ffi::Written {
    #[inline]
    pub fn told(self) -> Result<usize, Refusal> {
        Refusal::check(self.refusal, 0)?;
        Ok(self.bytes)
    }
}

impl ffi::Modelled {
    pub fn told(self) -> Result<(usize, usize), Refusal> {
        Refusal::check(self.refusal, 0)?;
        Ok((self.globals as usize, self.users as usize))
    }
}
