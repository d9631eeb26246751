//! Lists of binary clauses.
use std::iter;

use crate::{Lit, Parts, Solver, Table};

/// The answer of [`Table::simplify_binary`]: how many words and bytes were filled, and how many clauses are left.
#[derive(Clone, Copy, PartialEq, Eq, Hash, Debug)]
pub struct Thinned {
    /// How many words were filled: a count for each section, and the entries left.
    pub words: usize,
    /// Half the number of entries left, rounded down.
    pub half: usize,
    /// How many bytes were filled.
    pub bytes: usize,
}

impl Table {
    /// The lists of these clauses, in words, for [`Table::simplify_binary`]: the clauses `[a, b]` are added in turn, `b` at the end of the
    /// section of `!a`, and then `a` at the end of that of `!b`. None where a literal's index is at or above the solver watermark.
    ///
    /// ```
    /// use hintzobar::{Global, Lit, Solver, Table, User};
    /// let mut table = Table::open(8)?;
    /// let mut notes = table.notes();
    /// table.map(User(0), false, &mut notes)?;
    /// table.grant(Global(0), &mut notes)?;
    ///
    /// // two sections, those of the literals with the codes 0 and 1
    /// let lit = Lit::positive(Solver(0));
    /// assert_eq!(table.binary_lists(&[]), Some(vec![0, 0]));
    /// assert_eq!(table.binary_lists(&[[lit, lit], [lit, !lit]]), Some(vec![1, 0, 3, 0, 0, 1]));
    /// assert_eq!(table.binary_lists(&[[lit, Lit::positive(Solver(1))]]), None);
    /// # Ok::<(), hintzobar::Refusal>(())
    /// ```
    pub fn binary_lists(&self, clauses: &[[Lit<Solver>; 2]]) -> Option<Vec<u32>> {
        self.parts().binary_lists(clauses)
    }
}

impl Parts {
    /// [`Table::binary_lists`]. Whether the table is sound is not tested.
    pub fn binary_lists(&self, clauses: &[[Lit<Solver>; 2]]) -> Option<Vec<u32>> {
        // No sound table has more sections than this.
        let mut sections = vec![vec![]; 2 * self.counts.solver.min(4096) as usize];
        for &[a, b] in clauses {
            sections.get_mut((!a).code() as usize)?.push(b.code());
            sections.get_mut((!b).code() as usize)?.push(a.code());
        }
        let words = |section: Vec<u32>| iter::once(section.len() as u32).chain(section);
        Some(sections.into_iter().flat_map(words).collect())
    }
}
