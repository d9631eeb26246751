//! What the documents say is enough to lend is enough, and one less is refused where they say exactly.
use hintzobar::{
    read, write_clause, write_proof, Cause, Format, Global, Lit, Lits, Mark, Mode, Notes, Refusal, Solver, Step, Table, User,
};

const FORMATS: [Format; 2] = [Format::Text, Format::Binary];

/// The call with room for one note less is refused; with room for so many it is accepted and makes them all.
fn notes_needed<T: std::fmt::Debug>(
    table: &mut Table,
    notes: usize,
    call: impl Fn(&mut Table, &mut Notes) -> Result<T, Refusal>,
) {
    if notes > 0 {
        let before = table.clone();
        assert_eq!(call(table, &mut Notes::with_words(3 * notes - 1)).unwrap_err(), Refusal::Short);
        assert_eq!(*table, before);
    }
    let mut lent = Notes::with_words(3 * notes);
    call(table, &mut lent).unwrap();
    assert_eq!(lent.len(), notes);
}

#[test]
fn notes_of_single_calls() {
    let mut table = Table::open(8).unwrap();
    let t = &mut table;
    notes_needed(t, 4, |t, notes| t.map(User(3), false, notes));
    notes_needed(t, 0, |t, notes| t.map(User(3), false, notes));
    notes_needed(t, 1, |t, notes| t.new_user(notes));
    notes_needed(t, 2, |t, notes| t.set_mode(Global(4), Mode::Hide, notes));
    notes_needed(t, 1, |t, notes| t.map(User(4), false, notes));
    notes_needed(t, 1, |t, notes| t.grant(Global(2), notes));
    notes_needed(t, 0, |t, notes| t.grant(Global(2), notes));
    notes_needed(t, 1, |t, notes| t.set_mode(Global(2), Mode::Witness, notes));
    notes_needed(t, 0, |t, notes| t.set_mode(Global(2), Mode::Witness, notes));
    notes_needed(t, 1, |t, notes| t.set_mode(Global(2), Mode::Hide, notes));
    notes_needed(t, 2, |t, notes| t.set_mode(Global(2), Mode::Sample, notes));
    notes_needed(t, 1, |t, notes| t.remove(Solver(0), notes));
    notes_needed(t, 1, |t, notes| t.grant(Global(2), notes));
    notes_needed(t, 1, |t, notes| t.set_mode(Global(2), Mode::Hide, notes));
    notes_needed(t, 2, |t, notes| t.remove(Solver(0), notes));
}

/// The calls that make most notes, with what `Table::notes` lends, at the greatest capacity.
#[test]
fn notes_of_whole_tables() {
    let mut table = Table::open(4096).unwrap();
    let mut notes = table.notes();
    assert_eq!(notes.words().len(), 6 * 4096);
    let users: Vec<_> = (0..4096).map(|i| Lit::positive(User(i))).collect();
    let mut solvers = vec![Lit::from_code(0); 4096];
    table.pose(&users, false, &mut solvers, &mut notes).unwrap();
    assert_eq!(notes.len(), 2 * 4096);
    for i in 0..4096 {
        table.set_mode(Global(i), Mode::Hide, &mut notes).unwrap();
    }
    let mut shown = vec![User(0); table.counts().global as usize];
    assert_eq!(table.clone().observe(&mut shown, &mut notes), Ok(4096));
    assert_eq!(notes.len(), 2 * 4096);
    table.sweep(&mut notes).unwrap();
    assert_eq!(notes.len(), 2 * 4096);
}

/// Clauses of the widest literals, as many as there may be, in `room_for` them; UnitClauses too, and Simplify where two of them go.
#[test]
fn bytes_of_steps() {
    let mut table = Table::open(4096).unwrap();
    let mut notes = table.notes();
    let users: Vec<_> = (0..4096).map(|i| Lit::negative(User(i))).collect();
    let mut lits = vec![Lit::from_code(0); 4096];
    table.pose(&users, false, &mut lits, &mut notes).unwrap();
    for count in [0, 1, 2, 3, 1000, 8192] {
        let widest = vec![Lit::negative(Solver(4095)); count];
        let lits = Lits::Solver(&widest);
        for format in FORMATS {
            let mut proof = vec![0; format.room_for(count)];
            for step in [Step::AtClause(true), Step::DeleteClause(Cause::Redundant), Step::Model] {
                assert!(table.write(format, step, lits, &[], &mut proof).is_ok());
            }
            assert!(table.write(format, Step::UnitClauses, lits, &vec![0; count], &mut proof).is_ok());
            let globals = vec![Lit::negative(Global(4095)); count];
            assert!(write_clause(format, true, &globals, 0, count, &mut proof, 0).is_ok());
        }
    }
    table.mark(Mark::Used, Solver(0)).unwrap();
    table.assign(Lit::negative(Solver(0))).unwrap();
    let mut clause = vec![Lit::negative(Solver(4095)); 8192];
    clause[0] = Lit::positive(Solver(0));
    for format in FORMATS {
        let (mut rest, mut proof) = (vec![Lit::from_code(0); 8192], vec![0; format.room_for(8192)]);
        assert_eq!(table.simplify(format, &clause, false, &mut rest, &mut proof).unwrap().lits, 8191);
    }
    let (mut globals, mut users) =
        (vec![0; table.counts().global as usize], vec![Lit::from_code(0); table.counts().user as usize]);
    assert!(table.model(&mut globals, &mut users).is_ok());
}

/// A reader that is lent as many of each as there are bytes, and a writer of 6 bytes for each literal and 4 for each step.
#[test]
fn whole_proofs() {
    for format in FORMATS {
        for (code, count) in [(0, 0), (0, 1), (8191, 0), (8191, 1), (8191, 3)] {
            let lits = vec![Lit::<Global>::from_code(code); 5 * count];
            let ends: Vec<u64> = (1..=5).map(|step| step * count as u64).collect();
            let mut proof = vec![0; 6 * lits.len() + 4 * 5];
            let length = write_proof(format, &lits, &ends, &[1; 5], &mut proof).unwrap();
            let (mut codes, mut to, mut kinds) = (vec![Lit::from_code(0); length], vec![0; length], vec![0; length]);
            let reading = read(format, &proof[..length], &mut codes, &mut to, &mut kinds).unwrap();
            assert_eq!((reading.lits, reading.steps), (lits.len(), 5));
            assert_eq!((&codes[..lits.len()], &to[..5]), (&lits[..], &ends[..]));
        }
    }
}
