//! Random lists of binary clauses: as varisat makes them, in other orders, and damaged.
use crate::random::Rng;
use crate::reading::{binary::words, Table};

/// Lists in words, for the sections that the table has. Few indices take part, so that clauses come twice and literals meet themselves.
pub fn draw(rng: &mut Rng, t: &Table) -> Vec<u32> {
    let mut sections = vec![vec![]; 2 * t.counts.solver as usize];
    let pool = pool(rng, t);
    if !pool.is_empty() {
        for [a, b] in clauses(rng, &pool) {
            sections[a as usize ^ 1].push(b);
            sections[b as usize ^ 1].push(a);
        }
        reorder(rng, &mut sections, &pool);
    }
    if rng.one_in(10) {
        damage_sections(rng, &mut sections);
    }
    let mut words = words(&sections);
    if rng.one_in(10) {
        damage_words(rng, &mut words, sections.len() as u32);
    }
    words
}

/// A few held indices, or all of them; now and then one that is not held.
fn pool(rng: &mut Rng, t: &Table) -> Vec<u32> {
    let all: Vec<u32> = (0..t.counts.solver).collect();
    let held: Vec<u32> = all.iter().copied().filter(|&s| !t.not_held(s)).collect();
    let mut pool = held.clone();
    if !held.is_empty() && !rng.one_in(6) {
        pool = (0..1 + rng.index(4)).map(|_| rng.of(&held)).collect();
    }
    if !all.is_empty() && rng.one_in(8) {
        pool.push(rng.of(&all));
    }
    pool
}

/// Clauses in the order of their addition: some of a literal and itself, of a literal and its negation, or of an earlier clause.
fn clauses(rng: &mut Rng, pool: &[u32]) -> Vec<[u32; 2]> {
    let count = match rng.below(8) {
        0 => 0,
        1..=5 => 1 + rng.index(6),
        6 => 1 + rng.index(20),
        _ => 1 + rng.index(60),
    };
    let mut all: Vec<[u32; 2]> = vec![];
    for _ in 0..count {
        if !all.is_empty() && rng.one_in(4) {
            let [a, b] = rng.of(&all);
            all.push(if rng.flag() { [a, b] } else { [b, a] });
            continue;
        }
        let a = 2 * rng.of(pool) + rng.below(2) as u32;
        let b = match rng.below(6) {
            0 => a,
            1 => a ^ 1,
            _ => 2 * rng.of(pool) + rng.below(2) as u32,
        };
        all.push([a, b]);
    }
    all
}

/// Every entry keeps its mirror, in an order that additions make, or not; or one that is its own mirror comes once more.
fn reorder(rng: &mut Rng, sections: &mut [Vec<u32>], pool: &[u32]) {
    let code = 2 * rng.of(pool) + rng.below(2) as u32;
    let section = &mut sections[code as usize];
    match rng.below(10) {
        0 => sections.iter_mut().for_each(|section| rng.shuffle(section)),
        1 => sections.iter_mut().for_each(|section| section.sort_unstable()),
        2 => rng.shuffle(section),
        3 => section.insert(rng.index(section.len() + 1), code ^ 1),
        _ => (),
    }
}

/// An entry goes, comes again, changes or moves, or a section goes or comes.
fn damage_sections(rng: &mut Rng, sections: &mut Vec<Vec<u32>>) {
    let codes = sections.len() as u32;
    let filled: Vec<usize> = (0..sections.len()).filter(|&l| !sections[l].is_empty()).collect();
    if filled.is_empty() || rng.one_in(6) {
        match rng.below(3) {
            0 => drop(sections.pop()),
            1 => sections.push(vec![]),
            _ => sections.iter_mut().take(1).for_each(|section| section.push(rng.below(u64::from(codes) + 2) as u32)),
        }
        return;
    }
    let l = rng.of(&filled);
    let at = rng.index(sections[l].len());
    let entry = sections[l][at];
    match rng.below(7) {
        0 => drop(sections[l].remove(at)),
        1 => sections[l].insert(at, entry),
        2 => sections[l][at] = entry ^ 1,
        3 => sections[l][at] = rng.below(u64::from(codes)) as u32,
        4 => sections[l][at] = codes + rng.below(2) as u32,
        5 => sections[l][at] = rng.of(&[u32::MAX, u32::MAX - 1, 1 << 31, 8191, 8192]),
        _ => {
            sections[l].remove(at);
            let other = rng.index(sections.len());
            sections[other].push(entry);
        }
    }
}

/// A word changes, goes or comes; a count is then wrong, or the words do not end where the sections do.
fn damage_words(rng: &mut Rng, words: &mut Vec<u32>, codes: u32) {
    let wild = rng.of(&[0, 1, 2, codes, codes + 1, u32::MAX, u32::MAX - 1, 1 << 31]);
    if words.is_empty() || rng.one_in(6) {
        words.push(wild);
        return;
    }
    let at = rng.index(words.len());
    match rng.below(7) {
        0 => drop(words.pop()),
        1 => words[at] = wild,
        2 => words[at] = words[at].wrapping_add(1),
        3 => words[at] = words[at].wrapping_sub(1),
        4 => drop(words.remove(at)),
        5 => words.insert(at, wild),
        _ => words[0] = u32::MAX,
    }
}
