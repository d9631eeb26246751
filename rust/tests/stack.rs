//! The stack that Pose, Write, Simplify and simplify_binary are said to need is enough, for the longest clauses and the most sections there may be, on
//! tables and on their parts. A thread with too little is killed with the whole process, so that only the good case is tested.
use std::thread::Builder;

use hintzobar::{Format, Lit, Lits, Made, Solver, Step, Table, User};

/// What the documents of the methods say.
const ENOUGH: usize = 128 * 1024;
const ENOUGH_FOR_LISTS: usize = 256 * 1024;

/// The calls on a clause of 8,192 literals, of which the solver's are given.
macro_rules! on_clauses {
    ($table:ident, $users:ident, $clause:ident, $notes:ident) => {{
        let mut again = vec![Lit::from_code(0); 8192];
        assert_eq!($table.pose(&$users, false, &mut again, &mut $notes), Ok(8192));
        assert_eq!((&again, $table.users_to_map(&$users).unwrap().users), (&$clause, 0));
        let (mut rest, mut proof, hashes) = (vec![Lit::from_code(0); 8192], vec![0; Format::Text.room_for(8192)], vec![0; 8192]);
        for format in [Format::Text, Format::Binary] {
            let made = $table.simplify(format, &$clause, true, &mut rest, &mut proof).unwrap();
            assert_eq!((made.made, made.lits), (Made::Shortened, 8190));
            let mut dropped = $clause.clone();
            dropped[8191] = Lit::negative(Solver(0));
            assert_eq!($table.simplify(format, &dropped, true, &mut rest, &mut proof).unwrap().made, Made::Dropped);
            assert!($table.write(format, Step::AtClause(true), Lits::Solver(&$clause), &[], &mut proof).is_ok());
            assert!($table.write(format, Step::UnitClauses, Lits::Solver(&$clause), &hashes, &mut proof).is_ok());
        }
    }};
}

#[test]
fn a_thread_of_128_kilobytes() {
    let mut table = Table::open(4096).unwrap();
    let mut notes = table.notes();
    let users: Vec<_> = (0..8192).map(|i| Lit::positive(User(i % 4096))).collect();
    let mut clause = vec![Lit::from_code(0); 8192];
    table.pose(&users, false, &mut clause, &mut notes).unwrap();
    table.assign(Lit::negative(Solver(0))).unwrap();
    let mut parts = table.clone().into_parts();
    let calls = move || {
        on_clauses!(table, users, clause, notes);
        on_clauses!(parts, users, clause, notes);
    };
    Builder::new().stack_size(ENOUGH).spawn(calls).unwrap().join().unwrap();
}

#[test]
fn a_thread_of_256_kilobytes() {
    let mut table = Table::open(4096).unwrap();
    let mut notes = table.notes();
    let users: Vec<_> = (0..4096).map(|i| Lit::positive(User(i))).collect();
    let mut lits = vec![Lit::from_code(0); 4096];
    table.pose(&users, false, &mut lits, &mut notes).unwrap();
    table.assign(lits[0]).unwrap();
    let star: Vec<_> = lits.iter().map(|&lit| [lits[0], lit]).collect();
    let lists = table.binary_lists(&star).unwrap();
    // four clauses in an order that no additions make
    let mut crossed = vec![0; 8200];
    crossed[2..14].copy_from_slice(&[2, 5, 4, 2, 4, 5, 2, 2, 3, 2, 3, 2]);
    let calls = move || {
        let (mut out, mut proof) = (vec![0; lists.len()], vec![0; 8 * lists.len()]);
        for format in [Format::Text, Format::Binary] {
            let thinned = table.simplify_binary(format, &lists, &mut out, &mut proof);
            assert_eq!(thinned.map(|thinned| (thinned.words, thinned.half)), Ok((8192, 0)));
            assert_eq!(table.parts().simplify_binary(format, &lists, &mut out, &mut proof), thinned);
            let thinned = table.simplify_binary(format, &crossed, &mut out, &mut proof);
            assert_eq!(thinned.map(|thinned| (thinned.words, thinned.half)), Ok((8200, 4)));
            assert_eq!(table.parts().simplify_binary(format, &crossed, &mut out, &mut proof), thinned);
        }
    };
    Builder::new().stack_size(ENOUGH_FOR_LISTS).spawn(calls).unwrap().join().unwrap();
}
