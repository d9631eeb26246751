//! `simplify_binary` on lists that `add_binary_clause` makes.
use std::collections::VecDeque;

use partial_ref::IntoPartialRefMut;
use varisat_checker::{take_seen, Seen};
use varisat_formula::Lit;

use super::{codes, lit, Cause, Format, Oracle};
use crate::binary::{simplify_binary, BinaryClauses};

/// What it left: the lists in words, a section for each literal code after its count; how many clauses; the delete steps that were recorded,
/// under global names, each with its cause; and the bytes.
pub struct Thinned {
    /// What `implied` gives for each literal.
    pub words: Vec<u32>,
    /// What `count` gives.
    pub count: usize,
    /// The steps in their order.
    pub steps: Vec<(Vec<u32>, Cause)>,
    /// The same in DRAT.
    pub bytes: Vec<u8>,
}

/// Clauses of which `add_binary_clause`, called with one after the other, makes these lists; none where no clauses do. Each addition puts an
/// entry at the end of two sections, or two at the end of one. So these are taken off the fronts wherever they meet; no taking hinders
/// another.
pub fn additions(lists: &[u32], sections: usize) -> Option<Vec<[u32; 2]>> {
    let mut queues = cut(lists, sections)?;
    let mut clauses = vec![];
    let mut next: Vec<usize> = (0..sections).rev().collect();
    while let Some(l) = next.pop() {
        while let Some(m) = take(&mut queues, l) {
            clauses.push([l as u32 ^ 1, m]);
            next.push(m as usize ^ 1);
        }
    }
    queues.iter().all(VecDeque::is_empty).then_some(clauses)
}

fn cut(words: &[u32], sections: usize) -> Option<Vec<VecDeque<u32>>> {
    let mut words = words.iter().copied();
    let mut queues = vec![];
    for _ in 0..sections {
        let count = words.next()? as usize;
        queues.push(words.by_ref().take(count).collect::<VecDeque<u32>>());
        if queues.last()?.len() < count {
            return None;
        }
    }
    words.next().is_none().then_some(queues)
}

/// The first entry under l, if its mirror is first as well; both are taken.
fn take(queues: &mut [VecDeque<u32>], l: usize) -> Option<u32> {
    let m = *queues[l].front()?;
    let (other, mirror) = (m as usize ^ 1, l as u32 ^ 1);
    let found = if other == l { queues[l].get(1) } else { queues.get(other)?.front() };
    if found != Some(&mirror) {
        return None;
    }
    queues[l].pop_front();
    queues[other].pop_front();
    Some(m)
}

impl Oracle {
    /// The lists of these clauses, added in turn.
    pub fn set_binary(&mut self, clauses: &[[Lit; 2]]) {
        let mut binary = BinaryClauses::default();
        binary.set_var_count(self.ctx.variables.solver_watermark());
        clauses.iter().for_each(|&clause| binary.add_binary_clause(clause));
        self.ctx.binary_clauses = binary;
    }

    /// The lists in words.
    fn binary_words(&self) -> Vec<u32> {
        let mut words = vec![];
        for code in 0..2 * self.ctx.variables.solver_watermark() {
            let implied = self.ctx.binary_clauses.implied(Lit::from_code(code));
            words.push(implied.len() as u32);
            words.extend(codes(implied));
        }
        words
    }

    /// `simplify_binary` on these lists, which are made by additions. Afterwards there are no binary clauses, as before.
    pub fn simplify_binary(&mut self, lists: &[u32], format: Format) -> Thinned {
        let clauses = additions(lists, 2 * self.ctx.variables.solver_watermark()).expect("lists that additions make");
        self.begin(Some(format));
        self.set_binary(&clauses.into_iter().map(|clause| clause.map(lit)).collect::<Vec<_>>());
        assert_eq!(self.binary_words(), lists);

        simplify_binary(self.ctx.into_partial_ref_mut());

        let step = |seen: Seen| match seen {
            Seen::DeleteClause(lits, cause) => (codes(&lits), cause),
            other => panic!("{:?}", other),
        };
        let steps = take_seen().into_iter().map(step).collect();
        let (words, count) = (self.binary_words(), self.ctx.binary_clauses.count());
        self.set_binary(&[]);
        Thinned { words, count, steps, bytes: self.end() }
    }
}
