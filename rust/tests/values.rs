//! Literals, notes and steps as values: DIMACS numbers, signs, how they print, and what comes back.
use hintzobar::{Format, Global, Lit, Lits, Mode, Note, Solver, Step, Table, User};

#[test]
fn dimacs_numbers_there_and_back() {
    for code in [0, 1, 2, 3, 125, 126, 8190, 8191, u32::MAX - 1, u32::MAX] {
        let lit: Lit<Global> = Lit::from_code(code);
        assert_eq!(Lit::from_dimacs(lit.dimacs()), Some(lit));
        assert_eq!(lit.to_string(), lit.dimacs().to_string());
    }
    let lit = |number| Lit::<User>::from_dimacs(number);
    assert_eq!(lit(1), Some(Lit::positive(User(0))));
    assert_eq!(lit(-4096), Some(Lit::negative(User(4095))));
    assert_eq!(lit(1 << 31), Some(Lit::from_code(u32::MAX - 1)));
    assert_eq!(lit(-(1 << 31)), Some(Lit::from_code(u32::MAX)));
    for number in [0, (1 << 31) + 1, -(1 << 31) - 1, 1 << 32, i64::MAX, i64::MIN] {
        assert_eq!(lit(number), None);
    }
}

#[test]
fn negation() {
    for index in [0, 1, 4095, (1 << 31) - 1] {
        let lit = Lit::positive(Solver(index));
        assert_eq!(!lit, Lit::negative(Solver(index)));
        assert_eq!(!!lit, lit);
        assert_eq!((!lit).dimacs(), -lit.dimacs());
    }
}

#[test]
fn printed() {
    assert_eq!(format!("{} {:>4}|", Lit::negative(User(2)), Lit::positive(User(9))), "-3   10|");
    let mut table = Table::open(8).unwrap();
    let mut notes = table.notes();
    let mut all = vec![];
    let mut tell = |notes: &hintzobar::Notes| all.extend(notes.iter().map(|note| note.to_string()));
    table.map(User(1), false, &mut notes).unwrap();
    tell(&notes);
    table.grant(Global(1), &mut notes).unwrap();
    tell(&notes);
    table.set_mode(Global(1), Mode::Hide, &mut notes).unwrap();
    tell(&notes);
    table.set_mode(Global(1), Mode::Witness, &mut notes).unwrap();
    tell(&notes);
    table.set_mode(Global(1), Mode::Sample, &mut notes).unwrap();
    tell(&notes);
    table.remove(Solver(0), &mut notes).unwrap();
    tell(&notes);
    table.set_mode(Global(1), Mode::Hide, &mut notes).unwrap();
    tell(&notes);
    let want = ["U(0,0)", "U(1,1)", "S(1,0)", "U(1,-)", "C(1,no)", "U(1,1)", "C(1,yes)", "S(1,-)", "U(1,-)", "D(1)"];
    assert_eq!(all, want);
    assert_eq!(Note::Solver(Global(3), Some(Solver(4))).to_string(), "S(3,4)");
}

/// Every step comes back as given, names that have no word of their own among them.
#[test]
fn steps_come_back() {
    let table = Table::open(4).unwrap();
    let mut steps = vec![
        Step::AddClause,
        Step::AtClause(true),
        Step::AtClause(false),
        Step::Model,
        Step::ChangeHashBits(u32::MAX),
        Step::End,
    ];
    for index in [0, 1, u32::MAX - 2, u32::MAX - 1, u32::MAX] {
        steps.push(Step::SolverVarName(Global(index), Some(Solver(index))));
        steps.push(Step::UserVarName(Global(index), Some(User(index))));
        steps.push(Step::DeleteVar(Global(index)));
        steps.push(Step::ChangeSamplingMode(Global(index), index % 2 == 0));
    }
    steps.extend([Step::SolverVarName(Global(0), None), Step::UserVarName(Global(0), None)]);
    for step in steps {
        let renamed = table.rename(step, Lits::Solver(&[]), &[], &mut [], &mut []).unwrap();
        assert_eq!(renamed.step, step);
    }
}

#[test]
fn room_for_any_number() {
    for format in [Format::Text, Format::Binary] {
        assert_eq!(format.room_for(0), 8);
        assert_eq!(format.room_for(8192), 98_312);
        for lits in [usize::MAX / 12, usize::MAX / 12 + 1, usize::MAX - 1, usize::MAX] {
            assert!(format.room_for(lits) >= lits);
        }
        assert_eq!(format.room_for(usize::MAX), usize::MAX);
    }
}
