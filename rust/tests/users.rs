//! The users that Pose would map and grant: the count in one pass, the plain count, and what Pose then does.
use hintzobar::{Counts, Global, Lit, Mode, Parts, Refusal, Solver, Table, User, UsersToMap};

/// Capacity 16. Users 0 to 9 were mapped; 0 and 1 hold solver indices, 2 and 3 are mapped, the rest are unmapped again.
fn table() -> Table {
    let mut table = Table::open(16).unwrap();
    let mut notes = table.notes();
    table.map(User(9), false, &mut notes).unwrap();
    for i in 0..2 {
        table.grant(Global(i), &mut notes).unwrap();
    }
    for i in 4..10 {
        table.set_mode(Global(i), Mode::Hide, &mut notes).unwrap();
    }
    table
}

/// Both counts, which are to be the same.
fn counted(table: &Table, codes: &[u32]) -> Result<(u32, u32), Refusal> {
    counted_in(table.parts(), codes)
}

fn counted_in(table: &Parts, codes: &[u32]) -> Result<(u32, u32), Refusal> {
    let lits: Vec<_> = codes.iter().map(|&code| Lit::from_code(code)).collect();
    let answer = table.users_to_map(&lits);
    assert_eq!(answer, table.users_to_map_plain(&lits));
    answer.map(|UsersToMap { users, grants }| (users, grants))
}

#[test]
fn single_rules() {
    let table = table();
    for (codes, users, grants) in [
        (&[][..], 0, 0),
        (&[8], 1, 1),             // unmapped below the watermark
        (&[8, 9], 1, 1),          // both signs of one user
        (&[8, 10, 9, 11], 2, 2),  // two users, named twice
        (&[4], 0, 1),             // mapped, no solver index
        (&[0, 1, 2, 3], 0, 0),    // held
        (&[20], 1, 1),            // at the watermark
        (&[24], 3, 1),            // a gap below it
        (&[24, 20, 25, 8], 4, 3), // the gap counts once
        (&[30], 6, 1),            // the last user of the capacity
    ] {
        assert_eq!(counted(&table, codes), Ok((users, grants)), "{codes:?}");
    }
}

#[test]
fn bad_input() {
    let table = table();
    let many = vec![8; 8193];
    assert_eq!(counted(&table, &many), Err(Refusal::OutOfRange));
    assert_eq!(counted(&table, &many[1..]), Ok((1, 1)));
    for code in [8192, 8193, 1 << 31, u32::MAX] {
        assert_eq!(counted(&table, &[8, code]), Err(Refusal::OutOfRange));
    }
    // At the capacity Pose refuses what can still be counted.
    assert_eq!(counted(&table, &[32]), Ok((7, 1)));
    assert_eq!(counted(&table, &[8191]), Ok((4086, 1)));
    let mut posed = [Lit::from_code(0)];
    let mut left = table.clone();
    assert_eq!(left.pose(&[Lit::from_code(32)], false, &mut posed, &mut table.notes()), Err(Refusal::OutOfRange));
    assert_eq!((left, posed), (table, [Lit::from_code(0)]));
    // The counts are of any words: no map, and a watermark above every user.
    let unsound = Parts { counts: Counts { user: u32::MAX, ..Counts::default() }, ..Parts::default() };
    assert_eq!(counted_in(&unsound, &[0, 1, 8190]), Ok((2, 2)));
    assert_eq!(counted_in(&Parts::default(), &[4, 5]), Ok((3, 1)));
}

/// Clauses of users that all have solver indices are looked up, by way of lists of three lengths: about the lengths where these change, and with a
/// user that has none at either end.
#[test]
fn lengths() {
    let mut table = Table::open(4096).unwrap();
    let mut notes = table.notes();
    let users: Vec<_> = (0..4000).map(|i| Lit::from_code(2 * i + i % 2)).collect();
    let mut solvers = vec![Lit::from_code(0); 4000];
    assert_eq!(table.pose(&users, false, &mut solvers, &mut notes), Ok(4000));
    for n in [0, 1, 63, 64, 65, 66, 1023, 1024, 1025, 4000] {
        let before = table.clone();
        let mut posed = vec![Lit::from_code(7); n + 1];
        assert_eq!((table.pose(&users[..n], false, &mut posed, &mut notes), notes.len()), (Ok(n), 0));
        assert_eq!((&posed[..n], posed[n], &table), (&solvers[..n], Lit::from_code(7), &before));
        if n > 0 {
            assert_eq!(table.pose(&users[..n], false, &mut posed[1..n], &mut notes), Err(Refusal::Short));
            assert_eq!((&posed[..n], &table), (&solvers[..n], &before));
        }
        for end in [0, n] {
            let mut mixed = users[..n].to_vec();
            mixed.insert(end, Lit::negative(User(4000)));
            let mut expected = solvers[..n].to_vec();
            expected.insert(end, Lit::negative(Solver(4000)));
            let mut table = table.clone();
            assert_eq!((table.pose(&mixed, false, &mut posed, &mut notes), notes.len()), (Ok(n + 1), 2));
            assert_eq!(posed, expected);
        }
    }
}

/// On clauses of every kind, Pose then makes so many notes, and is refused with 5 exactly where the globals do not suffice.
#[test]
fn as_pose_does() {
    let mut state = 1_u32;
    let mut random = |bound| {
        state = state.wrapping_mul(1_664_525).wrapping_add(1_013_904_223);
        (state >> 8) % bound
    };
    let (mut accepted, mut refused) = (0, 0);
    let mut table = table();
    for _ in 0..2000 {
        let codes: Vec<u32> = (0..random(6)).map(|_| random(32)).collect();
        let (users, grants) = counted(&table, &codes).unwrap();
        let lits: Vec<_> = codes.iter().map(|&code| Lit::from_code(code)).collect();
        let mut notes = table.notes();
        let undeleted = table.lists().records.iter().filter(|&&record| record < 36).count();
        let answer = table.pose(&lits, false, &mut [Lit::from_code(0); 6], &mut notes);
        if undeleted + users as usize > 16 {
            assert_eq!(answer, Err(Refusal::NoRoom));
            refused += 1;
        } else {
            assert_eq!((answer, notes.len() as u32), (Ok(lits.len()), users + grants));
            accepted += 1;
        }
        // Names go again, so that there are always some of each kind.
        let (global, mode) = (Global(random(16)), [Mode::Hide, Mode::Sample][random(2) as usize]);
        let _ = table.remove(Solver(random(16)), &mut notes);
        let _ = table.set_mode(global, mode, &mut notes);
    }
    assert!(accepted > 500 && refused > 50, "{accepted} {refused}");
}
