//! How full a table is: the two numbers that it keeps beside its lists.
use crate::{Counts, Lists, Parts, Solver, Table};

/// How full a table is, and which solver index comes next: the answer of [`Table::fill`].
#[derive(Clone, Copy, PartialEq, Eq, Hash, Debug)]
pub struct Fill {
    /// How many globals are taken: undeleted, hidden ones too. The mark "used" has nothing to do with it.
    pub used: u32,
    /// How many are free: so many users can still be mapped.
    pub free: u32,
    /// How many there are.
    pub capacity: u32,
    /// The solver index that the next global to get one will hold; none where all up to the capacity are held.
    pub next: Option<Solver>,
}

impl Table {
    /// How full the table is, and which solver index comes next. Nothing is counted, only read.
    ///
    /// ```
    /// use hintzobar::{Fill, Global, Mode, Solver, Table, User};
    /// let mut table = Table::open(4)?;
    /// assert_eq!(table.fill(), Fill { used: 0, free: 4, capacity: 4, next: Some(Solver(0)) });
    ///
    /// let mut notes = table.notes();
    /// table.map(User(2), false, &mut notes)?;
    /// table.grant(Global(2), &mut notes)?;
    /// assert_eq!(table.fill(), Fill { used: 3, free: 1, capacity: 4, next: Some(Solver(1)) });
    ///
    /// // hidden, it is still taken; once its solver index is removed too, it is free again, and so is the index
    /// table.set_mode(Global(2), Mode::Hide, &mut notes)?;
    /// assert_eq!(table.fill().used, 3);
    /// table.remove(Solver(0), &mut notes)?;
    /// assert_eq!(table.fill(), Fill { used: 2, free: 2, capacity: 4, next: Some(Solver(0)) });
    /// # Ok::<(), hintzobar::Refusal>(())
    /// ```
    pub fn fill(&self) -> Fill {
        self.parts().fill()
    }
}

impl Parts {
    /// [`Table::fill`]. Whether the table is sound is not tested: of one that is not, these are the numbers it was given, and none are free where
    /// more are used than there are.
    pub fn fill(&self) -> Fill {
        let Counts { capacity, used, next, .. } = self.counts;
        Fill { used, free: capacity.saturating_sub(used), capacity, next: (next < capacity).then_some(Solver(next)) }
    }
}

impl Counts {
    /// The same capacity and watermarks, with `used` and `next` counted in these lists; what they were before does not matter. Any words are
    /// allowed; whether they are a sound table, [`Parts::is_sound`] says.
    ///
    /// So a table that was saved before the counts had these numbers is brought up to date:
    ///
    /// ```
    /// use hintzobar::{Counts, Lists, Refusal, Table};
    /// // saved: capacity 4, watermarks 3, 3 and 2; global 2 holds solver index 1, and index 0 is free again
    /// let lists = Lists {
    ///     global_from_user: vec![1, 2, 3, 0],
    ///     user_from_global: vec![1, 2, 3, 0],
    ///     solver_from_global: vec![0, 0, 2, 0],
    ///     global_from_solver: vec![0, 3, 0, 0],
    ///     assignment: vec![0; 4],
    ///     records: vec![9, 9, 9, 47],
    /// };
    /// let saved = Counts { capacity: 4, user: 3, global: 3, solver: 2, ..Counts::default() };
    /// assert_eq!(Table::from_lists(saved, lists.clone()), Err(Refusal::Unsound));
    ///
    /// let counts = saved.recounted(&lists);
    /// assert_eq!((counts.used, counts.next), (3, 0));
    /// assert!(Table::from_lists(counts, lists).is_ok());
    /// ```
    pub fn recounted(self, lists: &Lists) -> Counts {
        let used = lists.records.iter().filter(|&&record| record < 36).count() as u32;
        let mut held = lists.global_from_solver.iter().take(self.solver as usize);
        let next = held.position(|&word| word == 0).map_or(self.solver, |solver| solver as u32);
        Counts { used, next, ..self }
    }
}
