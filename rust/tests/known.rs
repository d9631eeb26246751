//! Tables that are known to be sound: how they are made, and that their calls do what the calls on their parts do, which test them first.
use std::{
    collections::hash_map::DefaultHasher,
    hash::{Hash, Hasher},
};

use hintzobar::{Cause, Counts, Format, Global, Lists, Lit, Lits, Mark, Mode, Notes, Parts, Refusal, Solver, Step, Table, User};

struct Random(u64);

impl Random {
    fn below(&mut self, bound: u32) -> u32 {
        self.0 = self.0.wrapping_mul(6_364_136_223_846_793_005).wrapping_add(1_442_695_040_888_963_407);
        ((self.0 >> 33) % u64::from(bound)) as u32
    }

    fn flag(&mut self) -> bool {
        self.below(2) == 0
    }

    fn of<T: Copy>(&mut self, all: &[T]) -> T {
        all[self.below(all.len() as u32) as usize]
    }

    /// An index: mostly below the capacity, else at it, or any.
    fn index(&mut self, capacity: u32) -> u32 {
        match self.below(24) {
            0 => capacity,
            1 => [4096, 1 << 31, u32::MAX][self.below(3) as usize],
            _ => self.below(capacity),
        }
    }

    fn codes(&mut self, capacity: u32) -> Vec<u32> {
        (0..self.below(6)).map(|_| 2 * (self.index(40 * capacity) % capacity) + self.below(2)).collect()
    }

    /// As much as is needed, or now and then less.
    fn room(&mut self, enough: usize) -> usize {
        if self.below(8) == 0 {
            self.below(4) as usize
        } else {
            enough
        }
    }
}

fn lits<N: hintzobar::Name>(codes: &[u32]) -> Vec<Lit<N>> {
    codes.iter().map(|&code| Lit::from_code(code)).collect()
}

/// Makes a call on the table and on the parts, with memory of the same words. Answers, memory and tables are to be the same. Whether it was
/// accepted.
macro_rules! same {
    ($table:expr, $parts:expr, [$($memory:ident = $words:expr),*], |$t:ident| $call:expr) => {{
        let first = {
            let $t = &mut *$table;
            $(let mut $memory = $words;)*
            ($call, $($memory),*)
        };
        let second = {
            let $t = &mut *$parts;
            $(let mut $memory = $words;)*
            ($call, $($memory),*)
        };
        assert_eq!(first, second);
        assert_eq!($table.parts(), &*$parts);
        first.0.is_ok()
    }};
}

const KINDS: usize = 16;

/// The kind of a random call, and whether it was accepted.
fn any_call(random: &mut Random, t: &mut Table, p: &mut Parts) -> (usize, bool) {
    let capacity = t.counts().capacity;
    let kind = random.below(KINDS as u32) as usize;
    let (index, code, flag) = (random.index(capacity), 2 * random.below(capacity) + random.below(2), random.flag());
    let words = random.room(6 * capacity as usize);
    let memory = || Notes::from(vec![77; words]);
    let codes = random.codes(capacity);
    let outs = random.room(capacity as usize + 6);
    let bytes = random.room(200);
    let format = random.of(&[Format::Text, Format::Binary]);
    let step =
        random.of(&[Step::AtClause(flag), Step::UnitClauses, Step::DeleteClause(Cause::Satisfied), Step::Model, Step::End]);
    let hashes = vec![5; if random.below(4) == 0 { 1 } else { codes.len() }];
    let (solvers, globals) = (lits(&codes), lits(&codes));
    let given = if random.flag() { Lits::Solver(&solvers) } else { Lits::Global(&globals) };
    let accepted = match kind {
        0 => {
            assert_eq!(p.global_from_user(User(index)), Ok(t.global_from_user(User(index))));
            assert_eq!(p.user_from_global(Global(index)), Ok(t.user_from_global(Global(index))));
            assert_eq!(p.solver_from_global(Global(index)), Ok(t.solver_from_global(Global(index))));
            assert_eq!(p.global_from_solver(Solver(index)), Ok(t.global_from_solver(Solver(index))));
            assert_eq!(p.record(Global(index)), Ok(t.record(Global(index))));
            assert_eq!(p.assignment(Solver(index)), Ok(t.assignment(Solver(index))));
            t.record(Global(index)).is_some()
        }
        1 => same!(t, p, [notes = memory()], |t| t.map(User(index), flag, &mut notes)),
        2 => same!(t, p, [notes = memory()], |t| t.new_user(&mut notes)),
        3 => {
            let users = lits(&codes);
            same!(t, p, [notes = memory(), out = lits(&vec![77; outs])], |t| t.pose(&users, flag, &mut out, &mut notes))
        }
        4 => same!(t, p, [notes = memory()], |t| t.grant(Global(index), &mut notes)),
        5 | 6 => {
            let mode = random.of(&[Mode::Sample, Mode::Witness, Mode::Hide, Mode::Hide]);
            same!(t, p, [notes = memory()], |t| t.set_mode(Global(index), mode, &mut notes))
        }
        7 if random.below(8) > 0 => return any_call(random, t, p),
        7 => same!(t, p, [notes = memory(), out = vec![User(77); outs]], |t| t.observe(&mut out, &mut notes)),
        8 => {
            let mark = random.of(&[Mark::Used, Mark::Assumed, Mark::Released, Mark::Released]);
            same!(t, p, [], |t| t.mark(mark, Solver(index)))
        }
        9 => same!(t, p, [], |t| t.assign(Lit::from_code(code))),
        10 => same!(t, p, [notes = memory()], |t| t.remove(Solver(index), &mut notes)),
        11 => same!(t, p, [notes = memory()], |t| t.sweep(&mut notes)),
        12 => same!(t, p, [out = lits(&vec![77; outs]), proof = vec![77; bytes]], |t| t
            .simplify(format, &solvers, flag, &mut out, &mut proof)),
        13 => same!(t, p, [out = lits(&vec![77; outs]), hash_out = vec![77; outs]], |t| t.rename(
            step,
            given,
            &hashes,
            &mut out,
            &mut hash_out
        )),
        14 => same!(t, p, [proof = vec![77; bytes]], |t| t.write(format, step, given, &hashes, &mut proof)),
        _ if random.flag() => {
            same!(t, p, [words = vec![77; outs], users = lits(&vec![77; outs])], |t| t.model(&mut words, &mut users))
        }
        _ => {
            let pairs: Vec<[Lit<Solver>; 2]> = codes.chunks_exact(2).map(|pair| [pair[0], pair[1]].map(Lit::from_code)).collect();
            let lists = t.binary_lists(&pairs).unwrap_or_default();
            assert_eq!(p.binary_lists(&pairs).unwrap_or_default(), lists);
            let outs = random.room(lists.len());
            same!(t, p, [out = vec![77; outs], proof = vec![77; bytes]], |t| t
                .simplify_binary(format, &lists, &mut out, &mut proof))
        }
    };
    assert_eq!((p.fill(), p.notes()), (t.fill(), t.notes()));
    (kind, accepted)
}

/// Sessions from a table just opened; the cursors are seen to be right after every call, as debug assertions are on.
#[test]
fn as_the_tested_calls() {
    let mut random = Random(1);
    let mut by = [[0; 2]; KINDS];
    for capacity in [1, 2, 3, 5, 8, 8, 12, 12, 20, 40] {
        for _ in 0..60 {
            let mut table = Table::open(capacity).unwrap();
            let mut parts = table.clone().into_parts();
            for _ in 0..200 {
                let (kind, accepted) = any_call(&mut random, &mut table, &mut parts);
                by[kind][accepted as usize] += 1;
            }
            // made anew, without cursors, it is the same table
            let again = Table::try_from(parts).unwrap();
            assert_eq!(again, table);
            assert_eq!(hash(&again), hash(&table));
        }
    }
    for (kind, [refused, accepted]) in by.into_iter().enumerate() {
        assert!(refused > 20 && accepted > 50, "kind {kind}: {refused} refused, {accepted} accepted");
    }
}

fn hash(table: &Table) -> u64 {
    let mut hasher = DefaultHasher::new();
    table.hash(&mut hasher);
    hasher.finish()
}

/// Names come and go at both ends of a large table, so that the cursors move far.
#[test]
fn far_cursors() {
    let mut table = Table::open(4096).unwrap();
    let mut notes = table.notes();
    table.map(User(4095), false, &mut notes).unwrap();
    assert_eq!(table.new_user(&mut notes), Err(Refusal::NoRoom));
    for index in [4095, 0, 2048] {
        table.set_mode(Global(index), Mode::Hide, &mut notes).unwrap();
        assert_eq!(table.new_user(&mut notes), Ok((User(index), Global(index))));
    }
    // globals 9 and 3000 are free, users 9 and 3000 too; each user takes its own global
    for index in [3000, 9] {
        table.set_mode(Global(index), Mode::Hide, &mut notes).unwrap();
    }
    assert_eq!(table.new_user(&mut notes), Ok((User(9), Global(9))));
    assert_eq!(table.new_user(&mut notes), Ok((User(3000), Global(3000))));
    // user 7's global is kept by its solver index: user 7 takes the least one that is free
    table.grant(Global(7), &mut notes).unwrap();
    for index in [7, 4000, 100] {
        table.set_mode(Global(index), Mode::Hide, &mut notes).unwrap();
    }
    assert_eq!(table.new_user(&mut notes), Ok((User(7), Global(100))));
    assert_eq!(table.pose(&[Lit::positive(User(100))], false, &mut [Lit::from_code(0)], &mut notes), Ok(1));
    assert_eq!(table.global_from_user(User(100)), Some(Global(4000)));
    table.remove(Solver(0), &mut notes).unwrap();
    assert_eq!(table.record(Global(7)), Some(47));
    assert_eq!(table.new_user(&mut notes), Ok((User(4000), Global(7))));
    table.reopen(4096).unwrap();
    assert_eq!(table.new_user(&mut notes), Ok((User(0), Global(0))));
}

/// What is held or mapped already is answered without a note, whatever is lent; the words lent stay.
#[test]
fn nothing_to_do() {
    let mut table = Table::open(8).unwrap();
    let mut notes = table.notes();
    table.map(User(2), false, &mut notes).unwrap();
    table.grant(Global(2), &mut notes).unwrap();
    let words = notes.words().to_vec();
    assert_eq!((table.map(User(2), true, &mut notes), notes.len()), (Ok(Global(2)), 0));
    table.map(User(3), false, &mut notes).unwrap();
    assert_eq!((table.grant(Global(2), &mut notes), notes.len()), (Ok(Solver(0)), 0));
    assert_eq!(notes.words()[3..], words[3..]);
    table.set_mode(Global(2), Mode::Witness, &mut notes).unwrap();
    assert_eq!(table.map(User(2), true, &mut notes), Err(Refusal::NotSampled));
    assert_eq!(table.map(User(2), false, &mut Notes::with_words(0)), Ok(Global(2)));
}

/// All that makes a table: Open, lists that are tested, another table. An open one has no words of before.
#[test]
fn ways_to_make_one() {
    let mut table = Table::open(3).unwrap();
    let mut notes = table.notes();
    table.map(User(1), false, &mut notes).unwrap();
    let (counts, lists) = (table.counts(), table.lists().clone());
    let made = [
        Table::from_lists(counts, lists.clone()).unwrap(),
        Table::try_from(Parts { counts, lists: lists.clone() }).unwrap(),
        table.clone(),
        Table::try_from(Parts::from(table.clone())).unwrap(),
    ];
    for mut other in made {
        assert_eq!(other, table);
        assert_eq!(other.new_user(&mut notes), Ok((User(2), Global(2))));
        assert_ne!(other, table);
        other.reopen(3).unwrap();
        assert_eq!(Ok(other), Table::open(3));
    }
}

/// Every word spoilt in turn: refused where the parts are not sound, and what was given comes back; else the table of these words.
#[test]
fn spoilt_words() {
    let mut table = Table::open(6).unwrap();
    let mut notes = table.notes();
    table.pose(&lits(&[0, 4, 9]), false, &mut lits(&[0; 3]), &mut notes).unwrap();
    table.set_mode(Global(1), Mode::Hide, &mut notes).unwrap();
    table.assign(Lit::from_code(3)).unwrap();
    fn list(lists: &mut Lists, k: usize) -> &mut Vec<u32> {
        match k {
            0 => &mut lists.global_from_user,
            1 => &mut lists.user_from_global,
            2 => &mut lists.solver_from_global,
            3 => &mut lists.global_from_solver,
            4 => &mut lists.assignment,
            _ => &mut lists.records,
        }
    }
    let mut sound = 0;
    for k in 0..6 {
        for place in 0..=6 {
            for word in [0, 1, 2, 3, 9, 18, 36, 47, 72, u32::MAX] {
                let mut parts = table.parts().clone();
                match list(&mut parts.lists, k).get_mut(place) {
                    Some(there) => *there = word,
                    None => list(&mut parts.lists, k).push(word),
                }
                let given = parts.clone();
                let made = Table::from_lists(parts.counts, parts.lists.clone());
                assert_eq!(made.is_ok(), given.is_sound());
                match Table::try_from(parts) {
                    Ok(table) => {
                        assert_eq!((table.parts(), Ok(&table)), (&given, made.as_ref()));
                        sound += 1;
                    }
                    Err(parts) => assert_eq!((parts, made), (given, Err(Refusal::Unsound))),
                }
            }
        }
    }
    assert!((20..200).contains(&sound), "{sound}");
    assert_eq!(Table::from_lists(Counts::default(), Lists::default()), Err(Refusal::Unsound));
}
