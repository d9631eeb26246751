//! Binary clauses before the sweep (document 02, order 1).
use super::{
    drat::{encode, Clause},
    get, named, refused, Outcome, Table,
};
use crate::call::Format;

/// So many sections, each after its count, and no word left over.
pub fn cut(sections: usize, words: &[u32]) -> Option<Vec<Vec<u32>>> {
    let mut left = words;
    let mut all = vec![];
    for _ in 0..sections {
        let (&count, rest) = left.split_first()?;
        if count as usize > rest.len() {
            return None;
        }
        let (section, after) = rest.split_at(count as usize);
        all.push(section.to_vec());
        left = after;
    }
    left.is_empty().then_some(all)
}

/// The sections in words.
pub fn words(sections: &[Vec<u32>]) -> Vec<u32> {
    sections.iter().flat_map(|section| std::iter::once(section.len() as u32).chain(section.iter().copied())).collect()
}

fn times(code: u32, section: &[u32]) -> usize {
    section.iter().filter(|&&entry| entry == code).count()
}

/// An entry m under l has its mirror, not l under not m, equally often; one that is no code of a section has none.
fn mirrored(sections: &[Vec<u32>]) -> bool {
    let has_mirror = |l: u32, m: u32| match sections.get((m ^ 1) as usize) {
        Some(section) => times(m, &sections[l as usize]) == times(l ^ 1, section),
        None => false,
    };
    (0..).zip(sections).all(|(l, section)| section.iter().all(|&m| has_mirror(l, m)))
}

/// A clause with a literal that has a value goes, with one delete step: under l, in the order of the entries, for each m that is above not l.
/// 1; 15, no sections, or an entry without its mirror; 8, a filled section of an index not held; 2.
pub fn simplify_binary(t: &Table, format: Format, lists: &[u32], outs: usize, room: usize) -> Outcome {
    if !t.is_sound() {
        return refused(1, t);
    }
    let Some(sections) = cut(2 * t.counts.solver as usize, lists).filter(|sections| mirrored(sections)) else {
        return refused(15, t);
    };
    if (0..).zip(&sections).any(|(l, section)| !section.is_empty() && t.not_held(l / 2)) {
        return refused(8, t);
    }
    let unknown = |code: u32| get(&t.assignment, code / 2) == 0;
    let under = |code: u32| 2 * named(get(&t.global_from_solver, code / 2)).unwrap() + code % 2;
    let (mut left, mut steps) = (vec![], vec![]);
    for (l, section) in (0u32..).zip(&sections) {
        let (stay, go): (Vec<u32>, Vec<u32>) = section.iter().partition(|&&m| unknown(l) && unknown(m));
        let deleted = go.into_iter().filter(|&m| l ^ 1 < m);
        steps.extend(deleted.map(|m| Clause { delete: true, lits: vec![under(l ^ 1), under(m)] }));
        left.push(stay);
    }
    let (words, bytes) = (words(&left), encode(format, &steps));
    if outs < words.len() || room < bytes.len() {
        return refused(2, t);
    }
    let entries: usize = left.iter().map(Vec::len).sum();
    let values = vec![words.len() as u64, entries as u64 / 2, bytes.len() as u64];
    Outcome { values, table: t.clone(), words, bytes, ..Outcome::default() }
}
