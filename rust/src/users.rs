//! How many users of a clause are still to be named.
use crate::{ffi, names::codes, Lit, Parts, Refusal, Table, User};

/// What [`Table::pose`] would do for a clause. Where it is accepted it fills `users + grants` notes.
#[derive(Clone, Copy, PartialEq, Eq, Hash, Debug)]
pub struct UsersToMap {
    /// How many users it would map: each below the user watermark that is unmapped and named, once, and all from the watermark up to and
    /// including the greatest that is named.
    pub users: u32,
    /// How many of the users named it would grant a solver index.
    pub grants: u32,
}

impl Table {
    /// Counts, with a mark for each user seen, the users that [`Table::pose`] would map and grant. Refusal: 3, for a user of 4,096 or more, or
    /// more than 8,192 literals.
    ///
    /// Only the user watermark, the user map and the solver indices of the globals are read. A user from the capacity up is counted, though `pose`
    /// refuses it.
    ///
    /// ```
    /// use hintzobar::{Lit, Table, User};
    /// let mut table = Table::open(8)?;
    /// table.map(User(2), false, &mut table.notes())?;
    /// let needed = table.users_to_map(&[Lit::positive(User(1)), Lit::negative(User(4)), Lit::positive(User(4))])?;
    /// assert_eq!((needed.users, needed.grants), (2, 2)); // users 3 and 4 are to be mapped, 1 and 4 to be granted an index
    /// # Ok::<(), hintzobar::Refusal>(())
    /// ```
    pub fn users_to_map(&self, lits: &[Lit<User>]) -> Result<UsersToMap, Refusal> {
        self.parts().users_to_map(lits)
    }

    /// The same answer, where each literal's user is looked for among the literals before it: the plain count that [`Table::users_to_map`] is
    /// proved equal to. Its time grows with the square of the number of literals.
    pub fn users_to_map_plain(&self, lits: &[Lit<User>]) -> Result<UsersToMap, Refusal> {
        self.parts().users_to_map_plain(lits)
    }
}

impl Parts {
    /// [`Table::users_to_map`]. Whether the table is sound is not tested. Refusal: 3.
    pub fn users_to_map(&self, lits: &[Lit<User>]) -> Result<UsersToMap, Refusal> {
        let l = &self.lists;
        counted(ffi::users_to_map(self.counts.user, &l.global_from_user, &l.solver_from_global, codes(lits)))
    }

    /// [`Table::users_to_map_plain`], likewise. Refusal: 3.
    pub fn users_to_map_plain(&self, lits: &[Lit<User>]) -> Result<UsersToMap, Refusal> {
        let l = &self.lists;
        counted(ffi::users_to_map_plain(self.counts.user, &l.global_from_user, &l.solver_from_global, codes(lits)))
    }
}

fn counted(answer: ffi::Users) -> Result<UsersToMap, Refusal> {
    Refusal::check(answer.refusal, 0)?;
    Ok(UsersToMap { users: answer.users, grants: answer.grants })
}
