//! The number of undeleted globals and the least unmapped solver index: what calls make of them, and tables in which they are wrong.
use hintzobar::{Counts, Fill, Format, Global, Lists, Lit, Lits, Mark, Mode, Notes, Parts, Refusal, Solver, Step, Table, User};

/// `used` and `next`, which are to be what the lists say.
fn numbers(table: &Table) -> (u32, u32) {
    let counts = table.counts();
    assert_eq!(counts, counts.recounted(table.lists()));
    assert!(table.parts().is_sound());
    (counts.used, counts.next)
}

fn pose(table: &mut Table, users: &[u32], notes: &mut Notes) {
    let lits: Vec<_> = users.iter().map(|&user| Lit::positive(User(user))).collect();
    table.pose(&lits, false, &mut vec![Lit::from_code(0); lits.len()], notes).unwrap();
}

#[test]
fn names_come_and_go() {
    let mut table = Table::open(4).unwrap();
    let t = &mut table;
    let mut notes = t.notes();
    assert_eq!(numbers(t), (0, 0));
    t.map(User(2), false, &mut notes).unwrap();
    assert_eq!(numbers(t), (3, 0));
    t.map(User(1), false, &mut notes).unwrap();
    assert_eq!(numbers(t), (3, 0));
    t.grant(Global(2), &mut notes).unwrap();
    t.grant(Global(2), &mut notes).unwrap();
    assert_eq!(numbers(t), (3, 1));
    pose(t, &[0, 3, 0], &mut notes);
    assert_eq!(numbers(t), (4, 3));
    assert_eq!(t.new_user(&mut notes), Err(Refusal::NoRoom));
    t.grant(Global(1), &mut notes).unwrap();
    assert_eq!(numbers(t), (4, 4));

    // global 2 holds index 0, global 0 index 1, global 3 index 2, global 1 index 3
    t.set_mode(Global(0), Mode::Hide, &mut notes).unwrap();
    assert_eq!(numbers(t), (4, 4));
    t.remove(Solver(1), &mut notes).unwrap();
    assert_eq!(numbers(t), (3, 1));
    t.remove(Solver(3), &mut notes).unwrap();
    assert_eq!(numbers(t), (3, 1));
    t.remove(Solver(0), &mut notes).unwrap();
    assert_eq!(numbers(t), (3, 0));
    t.set_mode(Global(2), Mode::Hide, &mut notes).unwrap();
    assert_eq!(numbers(t), (2, 0));
    assert_eq!(t.new_user(&mut notes), Ok((User(0), Global(0))));
    assert_eq!(numbers(t), (3, 0));
    // indices 0, 1 and 3 are free: the holes are filled from below
    pose(t, &[1, 0], &mut notes);
    assert_eq!(numbers(t), (3, 3));
    t.reopen(4).unwrap();
    assert_eq!(numbers(t), (0, 0));
}

#[test]
fn hidden_globals_count() {
    let mut table = Table::open(4).unwrap();
    let t = &mut table;
    let mut notes = t.notes();
    pose(t, &[0, 1, 2], &mut notes);
    for (mode, want) in [(Mode::Hide, (3, 3)), (Mode::Witness, (3, 3)), (Mode::Sample, (3, 3)), (Mode::Hide, (3, 3))] {
        t.set_mode(Global(1), mode, &mut notes).unwrap();
        assert_eq!(numbers(t), want);
    }
    assert_eq!(t.observe(&mut [User(0); 4], &mut notes), Ok(1));
    assert_eq!(numbers(t), (3, 3));
    t.set_mode(Global(1), Mode::Hide, &mut notes).unwrap();

    // marks and values change neither; a sweep then takes all that is isolated and not assumed, and deletes what is hidden
    t.mark(Mark::Assumed, Solver(2)).unwrap();
    t.mark(Mark::Used, Solver(0)).unwrap();
    assert_eq!(numbers(t), (3, 3));
    t.sweep(&mut notes).unwrap();
    assert_eq!(numbers(t), (2, 1));
    t.assign(Lit::negative(Solver(0))).unwrap();
    t.mark(Mark::Released, Solver(2)).unwrap();
    assert_eq!(numbers(t), (2, 1));
    t.sweep(&mut notes).unwrap();
    assert_eq!(numbers(t), (2, 0));
}

#[test]
fn least_and_greatest_capacity() {
    for capacity in [1, 4096] {
        let mut table = Table::open(capacity).unwrap();
        let mut notes = table.notes();
        pose(&mut table, &(0..capacity).collect::<Vec<_>>(), &mut notes);
        assert_eq!(numbers(&table), (capacity, capacity));
        assert_eq!(table.fill(), Fill { used: capacity, free: 0, capacity, next: None });
        table.remove(Solver(capacity - 1), &mut notes).unwrap();
        assert_eq!(table.fill(), Fill { used: capacity, free: 0, capacity, next: Some(Solver(capacity - 1)) });
        table.grant(Global(capacity - 1), &mut notes).unwrap();
        assert_eq!(numbers(&table), (capacity, capacity));
        table.sweep(&mut notes).unwrap();
        assert_eq!(numbers(&table), (capacity, 0));
        for global in 0..capacity {
            table.set_mode(Global(global), Mode::Hide, &mut notes).unwrap();
        }
        assert_eq!(table.fill(), Fill { used: 0, free: capacity, capacity, next: Some(Solver(0)) });
    }
}

/// Refused calls leave all counts.
#[test]
fn refused_calls() {
    let mut table = Table::open(2).unwrap();
    let mut notes = table.notes();
    pose(&mut table, &[1], &mut notes);
    let before = table.clone();
    assert_eq!(numbers(&table), (2, 1));
    let none = &mut Notes::with_words(0);
    assert_eq!(table.map(User(2), false, &mut notes), Err(Refusal::OutOfRange));
    assert_eq!(table.new_user(&mut notes), Err(Refusal::NoRoom));
    assert_eq!(table.grant(Global(0), none), Err(Refusal::Short));
    assert_eq!(table.remove(Solver(0), none), Err(Refusal::Short));
    assert_eq!(table.remove(Solver(1), &mut notes), Err(Refusal::NotHeld));
    assert_eq!(table.sweep(none), Err(Refusal::Short));
    assert_eq!(table.set_mode(Global(0), Mode::Hide, none), Err(Refusal::Short));
    assert_eq!(table.pose(&[Lit::positive(User(0))], false, &mut [], &mut notes), Err(Refusal::Short));
    assert_eq!(table.reopen(3), Err(Refusal::BadSize));
    assert_eq!(table, before);
}

/// Empty; two solver indices with a hole below, one global hidden, one deleted; full.
fn tables() -> [Table; 3] {
    let mut holes = Table::open(6).unwrap();
    let mut notes = holes.notes();
    pose(&mut holes, &[0, 1, 2], &mut notes);
    holes.map(User(3), false, &mut notes).unwrap();
    holes.set_mode(Global(1), Mode::Hide, &mut notes).unwrap();
    holes.set_mode(Global(3), Mode::Hide, &mut notes).unwrap();
    holes.remove(Solver(0), &mut notes).unwrap();
    assert_eq!(numbers(&holes), (3, 0));
    let mut full = Table::open(3).unwrap();
    pose(&mut full, &[2, 1, 0], &mut notes);
    assert_eq!(numbers(&full), (3, 3));
    [Table::open(5).unwrap(), holes, full]
}

/// The counts with a wrong number: off by one, at an end, any other; and with both wrong.
fn wrong(counts: Counts) -> Vec<Counts> {
    let near = |number: u32| [number.wrapping_sub(1), number.wrapping_add(1), 0, counts.capacity, 77, 1 << 31, u32::MAX];
    let mut all = vec![];
    all.extend(near(counts.used).map(|used| Counts { used, ..counts }));
    all.extend(near(counts.next).map(|next| Counts { next, ..counts }));
    all.push(Counts { used: counts.used + 1, next: counts.next + 1, ..counts });
    all.retain(|&other| other != counts);
    all
}

/// Every call that is lent the table, with room for all; each is refused with 1.
fn all_unsound(t: &mut Parts) {
    let unsound = Refusal::Unsound;
    let notes = &mut t.notes();
    assert!(!t.is_sound());
    assert_eq!(t.global_from_user(User(0)), Err(unsound));
    assert_eq!(t.user_from_global(Global(0)), Err(unsound));
    assert_eq!(t.solver_from_global(Global(0)), Err(unsound));
    assert_eq!(t.global_from_solver(Solver(0)), Err(unsound));
    assert_eq!(t.record(Global(0)), Err(unsound));
    assert_eq!(t.assignment(Solver(0)), Err(unsound));
    assert_eq!(t.map(User(0), false, notes), Err(unsound));
    assert_eq!(t.new_user(notes), Err(unsound));
    assert_eq!(t.grant(Global(0), notes), Err(unsound));
    assert_eq!(t.set_mode(Global(0), Mode::Witness, notes), Err(unsound));
    assert_eq!(t.observe(&mut [User(0); 6], notes), Err(unsound));
    assert_eq!(t.mark(Mark::Used, Solver(1)), Err(unsound));
    assert_eq!(t.assign(Lit::positive(Solver(1))), Err(unsound));
    assert_eq!(t.remove(Solver(1), notes), Err(unsound));
    assert_eq!(t.sweep(notes), Err(unsound));
    assert_eq!(t.model(&mut [0; 6], &mut [Lit::from_code(0); 6]), Err(unsound));
    assert!(notes.is_empty());
    let (given, mut out, mut proof) = ([Lit::positive(Solver(1))], [Lit::from_code(7); 2], [7; 99]);
    assert_eq!(t.pose(&[Lit::positive(User(0))], false, &mut out, notes), Err(unsound));
    assert_eq!(t.simplify(Format::Text, &given, false, &mut out, &mut proof), Err(unsound));
    assert_eq!(t.simplify_binary(Format::Text, &t.binary_lists(&[]).unwrap(), &mut [0; 24], &mut proof), Err(unsound));
    assert_eq!(t.write(Format::Binary, Step::AtClause(true), Lits::Solver(&given), &[], &mut proof), Err(unsound));
    let renamed = t.rename(Step::AtClause(true), Lits::Solver(&given), &[], &mut [Lit::from_code(0)], &mut []);
    assert_eq!(renamed, Err(unsound));
    assert_eq!((out, proof), ([Lit::from_code(7); 2], [7; 99]));
}

#[test]
fn wrong_numbers_are_refused() {
    for table in tables() {
        let (counts, lists) = (table.counts(), table.lists().clone());
        let wrong = wrong(counts);
        assert!(wrong.len() > 9);
        for other in wrong {
            let mut damaged = Parts { counts: other, lists: lists.clone() };
            all_unsound(&mut damaged);
            assert_eq!((damaged.counts, &damaged.lists), (other, &lists));
            assert_eq!(Table::from_lists(other, lists.clone()), Err(Refusal::Unsound));
            // Open looks at none of them, and a recount mends them
            assert_eq!(Table::from_lists(other.recounted(&lists), lists.clone()).as_ref(), Ok(&table));
            damaged.reopen(counts.capacity).unwrap();
            assert_eq!(&damaged, Table::open(counts.capacity).unwrap().parts());
        }
    }
}

/// What was read, whatever the words are.
#[test]
fn fill_of_any_counts() {
    for number in [0, 1, 3, 4, u32::MAX] {
        let counts = Counts { capacity: 3, used: number, next: number, ..Counts::default() };
        let fill = Parts { counts, lists: Lists::default() }.fill();
        assert_eq!((fill.used, fill.free, fill.capacity), (number, 3 - number.min(3), 3));
        assert_eq!(fill.next, Some(Solver(number)).filter(|_| number < 3));
    }
    let marks = Counts { capacity: u32::MAX, user: u32::MAX, global: u32::MAX, solver: u32::MAX, used: 5, next: 5 };
    assert_eq!(marks.recounted(&Lists::default()), Counts { used: 0, next: u32::MAX, ..marks });
    let lists = Lists { global_from_solver: vec![1, 0, 0], records: vec![35, 36, u32::MAX, 0], ..Lists::default() };
    assert_eq!(marks.recounted(&lists), Counts { used: 2, next: 1, ..marks });
    assert_eq!(Counts { solver: 1, ..marks }.recounted(&lists), Counts { solver: 1, used: 2, next: 1, ..marks });
}
