//! Every reachable table of a small capacity, and every call on it.
use std::collections::HashSet;

use crate::call::{Call, Cause, Format, ProofStep, ASKED, MARKS};
use crate::compare::{Disagreement, Session, Tally};
use crate::reading::{binary::words, Table};

/// Room enough for every call at these capacities.
const ALL: usize = 64;

/// Every list of at most n codes below the bound.
fn lists(n: usize, bound: u32) -> Vec<Vec<u32>> {
    let mut all = vec![vec![]];
    let mut from = 0;
    for _ in 0..n {
        let to = all.len();
        for i in from..to {
            for code in 0..bound {
                let mut list: Vec<u32> = all[i].clone();
                list.push(code);
                all.push(list);
            }
        }
        from = to;
    }
    all
}

/// The calls that change a table, with every argument up to one past the capacity.
fn changing(capacity: u32) -> Vec<Call> {
    let mut calls = vec![Call::NewUser { room: ALL }, Call::Observe { outs: ALL, room: ALL }, Call::Sweep { room: ALL }];
    for index in 0..=capacity {
        for sampling in [false, true] {
            calls.push(Call::Map { user: index, sampling, room: ALL });
        }
        calls.push(Call::Grant { global: index, room: ALL });
        calls.extend((0..3).map(|mode| Call::SetMode { global: index, mode, room: ALL }));
        calls.extend(MARKS.map(|mark| Call::Mark { mark, solver: index }));
        calls.extend([0, 1].map(|sign| Call::Assign { lit: 2 * index + sign }));
        calls.push(Call::Remove { solver: index, room: ALL });
    }
    for lits in lists(2, 2 * capacity + 1) {
        for sampling in [false, true] {
            calls.push(Call::Pose { lits: lits.clone(), sampling, outs: ALL, room: ALL });
        }
    }
    calls
}

/// The calls that change no table.
fn telling(capacity: u32) -> Vec<Call> {
    let mut calls = binaries(capacity);
    calls.push(Call::Model { globals: ALL, users: ALL });
    for index in 0..=capacity {
        calls.extend(ASKED.map(|asked| Call::Lookup { asked, index }));
    }
    for lits in lists(3, 2 * capacity + 1) {
        for redundant in [false, true] {
            calls.push(Call::Simplify { lits: lits.clone(), redundant, outs: ALL, room: ALL });
        }
    }
    let steps =
        [ProofStep::AtClause(false), ProofStep::UnitClauses, ProofStep::DeleteClause(Cause::Satisfied), ProofStep::AddClause];
    for lits in lists(2, 2 * capacity + 1) {
        for step in steps {
            for solver_vars in [false, true] {
                let hashes: Vec<u64> = lits.iter().map(|&code| code.into()).collect();
                calls.push(Call::Write { step, solver_vars, lits: lits.clone(), hashes: hashes.clone(), room: ALL });
                calls.push(Call::Rename { step, solver_vars, lits: lits.clone(), hashes, outs: ALL, hash_outs: ALL });
            }
        }
    }
    calls
}

/// Lists of binary clauses: every list of a few small words, and those of every clause or two, as many sections as each number of indices has.
fn binaries(capacity: u32) -> Vec<Call> {
    let mut all = lists(4, 4);
    for indices in 1..=capacity {
        for codes in lists(4, 2 * indices).into_iter().filter(|codes| codes.len() % 2 == 0) {
            let mut sections = vec![vec![]; 2 * indices as usize];
            for clause in codes.chunks(2) {
                sections[clause[0] as usize ^ 1].push(clause[1]);
                sections[clause[1] as usize ^ 1].push(clause[0]);
            }
            all.push(words(&sections));
        }
    }
    all.into_iter().map(|lists| Call::SimplifyBinary { lists, outs: ALL, room: ALL }).collect()
}

/// Every table of capacity 1, sound or not, with words and counts a little past what may stand there. Every call is made on those that are sound and
/// those that only a stored number makes unsound, one on each other.
pub fn tables_of_one(tally: &mut Tally) -> Result<usize, Box<Disagreement>> {
    let calls: Vec<Call> = changing(1).into_iter().chain(telling(1)).collect();
    let mut sound = 0;
    for n in 0..3u32.pow(4) * 4 * 73 * 3u32.pow(5) {
        let mut left = n;
        let mut digit = |base: u32| {
            let word = left % base;
            left /= base;
            word
        };
        let mut table = Table::empty(1);
        table.global_from_user[0] = digit(3);
        table.user_from_global[0] = digit(3);
        table.solver_from_global[0] = digit(3);
        table.global_from_solver[0] = digit(3);
        table.assignment[0] = digit(4);
        table.records[0] = digit(73);
        table.counts.user = digit(3);
        table.counts.global = digit(3);
        table.counts.solver = digit(3);
        (table.counts.used, table.counts.next) = (digit(3), digit(3));
        let mut right = table.clone();
        right.recount();
        if !right.is_sound() {
            let call = &calls[n as usize % calls.len()];
            Session::without(Format::Text, &table).call(call, tally)?;
            continue;
        }
        sound += (table == right) as usize;
        for call in &calls {
            Session::load(Format::Binary, &table).call(call, tally)?;
        }
    }
    Ok(sound)
}

/// Walks all tables that calls can reach from a freshly opened one; every table-changing call is made on each, and on one in `every` the
/// others too. Answers how many tables there are.
pub fn walk(capacity: u32, every: usize, tally: &mut Tally) -> Result<usize, Box<Disagreement>> {
    let (changing, telling) = (changing(capacity), telling(capacity));
    let mut seen: HashSet<Table> = HashSet::new();
    let mut next = vec![Table::empty(capacity)];
    seen.insert(Table::empty(capacity));
    while let Some(table) = next.pop() {
        for call in &changing {
            // only an accepted call needs varisat beside it
            let format = Format::Text;
            let outcome = if call.read(format, &table).refusal == 0 {
                Session::load(format, &table).call(call, tally)?
            } else {
                Session::without(format, &table).call(call, tally)?
            };
            if seen.insert(outcome.table.clone()) {
                next.push(outcome.table);
            }
        }
        if seen.len() % every == 0 {
            let format = if next.len() % 2 == 0 { Format::Text } else { Format::Binary };
            let mut session = Session::load(format, &table);
            for call in &telling {
                session.call(call, tally)?;
            }
        }
    }
    Ok(seen.len())
}
