//! Whether a table is sound, as one plain loop over its rows.
use hintzobar::{Counts, Lists};

fn sizes(c: Counts, l: &Lists) -> bool {
    let lists =
        [&l.global_from_user, &l.user_from_global, &l.solver_from_global, &l.global_from_solver, &l.assignment, &l.records];
    (1..=4096).contains(&c.capacity)
        && lists.iter().all(|list| list.len() == c.capacity as usize)
        && c.user <= c.global
        && c.solver <= c.global
        && c.global <= c.capacity
}

/// What is undeleted and not Hide has a user; what is deleted is Hide, isolated and without solver index.
fn row(record: u32, user: u32, solver: u32) -> bool {
    let deleted = record >= 36;
    let hide = record % 3 == 2;
    let isolated = record / 9 % 2 == 1;
    record <= 71 && (user != 0) == (!deleted && !hide) && (!deleted || (hide && isolated && solver == 0))
}

/// The word, if any, is taken back to its place.
fn back(word: u32, other: &[u32], place: usize) -> bool {
    word == 0 || other.get(word as usize - 1) == Some(&(place as u32 + 1))
}

/// The stored least free solver index is the watermark, or below it and free; that all below it are held is tested apart.
fn stops(c: Counts, l: &Lists) -> bool {
    c.next == c.solver || (c.next < c.solver && l.global_from_solver[c.next as usize] == 0)
}

/// By index, each test left at the first that fails.
#[inline(never)]
pub fn by_index(c: Counts, l: &Lists) -> bool {
    if !sizes(c, l) || !stops(c, l) {
        return false;
    }
    let mut used = 0;
    for i in 0..c.capacity as usize {
        let (user, solver, record) = (l.user_from_global[i], l.solver_from_global[i], l.records[i]);
        if !row(record, user, solver) || l.assignment[i] > 2 {
            return false;
        }
        used += (record < 36) as u32;
        if i < c.next as usize && l.global_from_solver[i] == 0 {
            return false;
        }
        if i >= c.user as usize && l.global_from_user[i] != 0 {
            return false;
        }
        if i >= c.global as usize && (user != 0 || solver != 0 || record != 47) {
            return false;
        }
        if i >= c.solver as usize && (l.global_from_solver[i] != 0 || l.assignment[i] != 0) {
            return false;
        }
        if !back(l.global_from_user[i], &l.user_from_global, i)
            || !back(user, &l.global_from_user, i)
            || !back(solver, &l.global_from_solver, i)
            || !back(l.global_from_solver[i], &l.solver_from_global, i)
        {
            return false;
        }
    }
    used == c.used
}

/// By iterators, which leaves no bound checks on the lists' own words. The stored numbers are counted apart, several words at once, which is the
/// faster way here.
#[inline(never)]
pub fn by_iterators(c: Counts, l: &Lists) -> bool {
    let users = l.global_from_user.iter().zip(&l.user_from_global);
    let solvers = l.solver_from_global.iter().zip(&l.global_from_solver);
    let words = l.assignment.iter().zip(&l.records);
    sizes(c, l)
        && stops(c, l)
        && l.records.iter().filter(|&&record| record < 36).count() == c.used as usize
        && l.global_from_solver[..c.next as usize].iter().filter(|&&word| word == 0).count() == 0
        && users.zip(solvers).zip(words).enumerate().all(|(i, (((&gu, &ug), (&sg, &gs)), (&value, &record)))| {
            row(record, ug, sg)
                && value <= 2
                && (i < c.user as usize || gu == 0)
                && (i < c.global as usize || (ug == 0 && sg == 0 && record == 47))
                && (i < c.solver as usize || (gs == 0 && value == 0))
                && back(gu, &l.user_from_global, i)
                && back(ug, &l.global_from_user, i)
                && back(sg, &l.global_from_solver, i)
                && back(gs, &l.solver_from_global, i)
        })
}
