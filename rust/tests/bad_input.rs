//! Bad input gives the refusal, never a panic, and changes nothing.
use hintzobar::{
    first_step, read, write_clause, write_proof, Cause, Counts, Format, Global, Lists, Lit, Lits, Mark, Mode, Notes, Parts,
    Refusal, Solver, Step, Table, User,
};

const WILD: [u32; 6] = [8, 9, 4096, 1 << 31, u32::MAX - 1, u32::MAX];

/// Capacity 8, users 0 to 2 mapped, global 2 granted.
fn table() -> Table {
    let mut table = Table::open(8).unwrap();
    let mut notes = table.notes();
    table.map(User(2), false, &mut notes).unwrap();
    table.grant(Global(2), &mut notes).unwrap();
    table
}

#[test]
fn capacities() {
    for capacity in [0, 4097, 1 << 31, u32::MAX] {
        assert_eq!(Table::open(capacity), Err(Refusal::BadSize));
    }
    let mut table = table();
    let before = table.clone();
    assert_eq!(table.reopen(7), Err(Refusal::BadSize));
    assert_eq!(table, before);
}

#[test]
fn indices() {
    let mut table = table();
    let before = table.clone();
    let mut notes = table.notes();
    for index in WILD {
        assert_eq!(table.map(User(index), true, &mut notes), Err(Refusal::OutOfRange));
        assert_eq!(table.grant(Global(index), &mut notes), Err(Refusal::OutOfRange));
        assert_eq!(table.set_mode(Global(index), Mode::Hide, &mut notes), Err(Refusal::OutOfRange));
        assert_eq!(table.remove(Solver(index), &mut notes), Err(Refusal::NotHeld));
        assert_eq!(table.mark(Mark::Used, Solver(index)), Err(Refusal::NotHeld));
        assert_eq!(table.assign(Lit::negative(Solver(index))), Err(Refusal::NotHeld));
        assert_eq!((table.global_from_user(User(index)), table.user_from_global(Global(index))), (None, None));
        assert_eq!((table.solver_from_global(Global(index)), table.global_from_solver(Solver(index))), (None, None));
        assert_eq!((table.record(Global(index)), table.assignment(Solver(index))), (None, None));
        let lits = [Lit::positive(User(index))];
        assert_eq!(table.pose(&lits, false, &mut [Lit::from_code(0); 4], &mut notes), Err(Refusal::OutOfRange));
        let lits = [Lit::negative(Global(index))];
        let step = Step::AtClause(false);
        assert_eq!(table.write(Format::Text, step, Lits::Global(&lits), &[], &mut [0; 99]), Err(Refusal::OutOfRange));
        let lits = [Lit::negative(Solver(index))];
        assert_eq!(table.write(Format::Binary, step, Lits::Solver(&lits), &[], &mut [0; 99]), Err(Refusal::NotHeld));
        assert_eq!(table.simplify(Format::Text, &lits, false, &mut [Lit::from_code(0); 4], &mut [0; 99]), Err(Refusal::NotHeld));
    }
    assert_eq!(table, before);
    assert!(notes.is_empty());
}

/// An assumed global keeps its solver index, whatever its mode, whatever is lent; a line about it is still written. Released, the index goes.
#[test]
fn assumed_indices() {
    for mode in [Mode::Sample, Mode::Witness, Mode::Hide] {
        let mut table = table();
        let mut notes = table.notes();
        table.set_mode(Global(2), mode, &mut notes).unwrap();
        table.mark(Mark::Assumed, Solver(0)).unwrap();
        let before = table.clone();
        notes = table.notes();
        assert_eq!(table.remove(Solver(0), &mut notes), Err(Refusal::StillAssumed));
        assert_eq!(table.remove(Solver(0), &mut Notes::with_words(0)), Err(Refusal::StillAssumed));
        assert_eq!(table.remove(Solver(1), &mut notes), Err(Refusal::NotHeld));
        assert_eq!(table.set_mode(Global(2), Mode::Hide, &mut notes), Err(Refusal::Assumed));
        table.sweep(&mut notes).unwrap();
        assert!(notes.is_empty());
        assert_eq!(table, before);
        let lits = [Lit::negative(Solver(0))];
        let mut line = [0; 5];
        assert_eq!(table.write(Format::Text, Step::AtClause(false), Lits::Solver(&lits), &[], &mut line), Ok(5));
        assert_eq!(&line, b"-3 0\n");
        table.mark(Mark::Released, Solver(0)).unwrap();
        table.remove(Solver(0), &mut notes).unwrap();
        assert_eq!(table.global_from_solver(Solver(0)), None);
    }
    let said = Refusal::StillAssumed.to_string();
    assert_eq!(said, "refusal 16: the global that holds the solver index is assumed");
}

#[test]
fn many_literals() {
    let mut table = table();
    let mut notes = table.notes();
    let users = vec![Lit::positive(User(2)); 8193];
    let mut solvers = vec![Lit::positive(Solver(0)); 8193];
    assert_eq!(table.pose(&users, false, &mut solvers, &mut notes), Err(Refusal::OutOfRange));
    assert_eq!(table.pose(&users[1..], false, &mut solvers, &mut notes), Ok(8192));
    let mut proof = vec![0; Format::Text.room_for(8193)];
    let all = Lits::Solver(&solvers);
    let delete = Step::DeleteClause(Cause::Satisfied);
    assert_eq!(table.write(Format::Text, delete, all, &[], &mut proof), Err(Refusal::OutOfRange));
    assert_eq!(table.rename(delete, all, &[], &mut vec![Lit::from_code(0); 8193], &mut []), Err(Refusal::OutOfRange));
    let mut rest = vec![Lit::from_code(0); 8193];
    assert_eq!(table.simplify(Format::Text, &solvers, true, &mut rest, &mut proof), Err(Refusal::OutOfRange));
    let globals = vec![Lit::positive(Global(0)); 8193];
    assert_eq!(write_clause(Format::Binary, false, &globals, 0, 8193, &mut proof, 0), Err(Refusal::OutOfRange));
    assert_eq!(write_clause(Format::Binary, false, &globals, 1, 8193, &mut proof, 0), Ok(8194));
}

#[test]
fn places() {
    let lits = [Lit::positive(Global(0)); 3];
    let mut proof = [7; 8];
    for (a, b) in [(2, 1), (0, 4), (usize::MAX, 0), (0, usize::MAX), (usize::MAX, usize::MAX)] {
        assert_eq!(write_clause(Format::Text, false, &lits, a, b, &mut proof, 0), Err(Refusal::OutOfRange));
    }
    for at in [7, 8, 9, usize::MAX] {
        assert_eq!(write_clause(Format::Text, false, &lits, 0, 0, &mut proof, at), Err(Refusal::Short));
    }
    assert_eq!(proof, [7; 8]);
}

/// Reads into memory of three words each, which a refusal leaves as it was. The place, if it is refused with 13.
fn place_of(format: Format, bytes: &[u8]) -> Option<hintzobar::Place> {
    let (mut lits, mut ends, mut kinds) = ([Lit::from_code(9); 3], [9; 3], [9; 3]);
    match read(format, bytes, &mut lits, &mut ends, &mut kinds) {
        Ok(_) => None,
        Err(Refusal::BrokenProof(place)) => {
            assert_eq!((lits, ends, kinds), ([Lit::from_code(9); 3], [9; 3], [9; 3]));
            Some(place)
        }
        Err(refusal) => panic!("{refusal}"),
    }
}

#[test]
fn cut_proofs() {
    // after the first 0, and after the line feed behind it; a step is whole without one
    let text = b"1 -2 0\nd 4096 0\n";
    let binary = [0x61, 0x02, 0x81, 0x40, 0x00, 0x64, 0x7e, 0x00];
    for (format, proof, second, whole) in
        [(Format::Text, &text[..], 7, &[0, 6, 7, 15, 16][..]), (Format::Binary, &binary[..], 5, &[0, 5, 8][..])]
    {
        for length in 0..=proof.len() {
            let place = place_of(format, &proof[..length]);
            let start = if length < second { 0 } else { second };
            assert_eq!(place.map(|place| place.byte), (!whole.contains(&length)).then_some(start));
            assert_eq!(first_step(format, &proof[..length]).is_ok(), length >= whole[1]);
        }
    }
}

#[test]
fn broken_texts() {
    let whole = |text: &[u8]| assert_eq!(place_of(Format::Text, text), None, "{text:?}");
    let cut = |text: &[u8], byte: usize, line: usize, column: usize| {
        let place = place_of(Format::Text, text).expect("not whole");
        assert_eq!((place.byte, place.line_and_column), (byte, Some((line, column))), "{text:?}");
    };
    for text in [&b""[..], b"\n", b" \n \n", b"0", b"1\n0", b"d\n\n1 0", b"\n 1 0 2 0", b"4096 -4096 0", b"1 0\n\n"] {
        whole(text);
    }
    for text in [
        &b"d"[..],
        b"d1 0",
        b"d d 0",
        b"1 d 2 0",
        b"1\t0\n",
        b"1 0\r\n",
        b"4097 0",
        b"01 0",
        b"-0 0",
        b"1 02 0",
        b"10",
        b"\0",
        b"\xff",
    ] {
        cut(text, 0, 1, 1);
    }
    cut(b"1 0 2", 4, 1, 5);
    cut(b"1 0\n\n  2\n3", 7, 3, 3);
    let mut far = vec![b'\n'; 10_000];
    far.extend(b"d 1 0");
    whole(&far);
    assert_eq!(first_step(Format::Text, &far), Ok(&b"d 1 0"[..]));
    far.pop();
    cut(&far, 10_000, 10_001, 1);
    assert_eq!(first_step(Format::Text, b"\n 1 0 2 0"), Ok(&b"1 0"[..]));
    for (text, byte) in [(&b""[..], 0), (b" \n", 0), (b" \n1", 2), (b"\n1 0x", 1)] {
        assert!(matches!(first_step(Format::Text, text), Err(Refusal::BrokenProof(place)) if place.byte == byte), "{text:?}");
    }
    let told = place_of(Format::Binary, b"\n").unwrap();
    assert_eq!((told.byte, told.line_and_column, told.to_string()), (0, None, String::from("byte 0")));
}

#[test]
fn short_outputs() {
    let mut table = Table::open(8).unwrap();
    let before = table.clone();
    for words in 0..9 {
        let mut notes = Notes::from(vec![7; words]);
        assert_eq!(table.map(User(2), false, &mut notes), Err(Refusal::Short));
        assert_eq!(notes.words(), vec![7; words]);
    }
    assert_eq!(table, before);
    assert_eq!(table.map(User(2), false, &mut Notes::with_words(9)), Ok(Global(2)));
    assert_eq!(table.model(&mut [0; 2], &mut [Lit::from_code(0); 3]), Err(Refusal::Short));
    assert_eq!(table.model(&mut [0; 3], &mut [Lit::from_code(0); 3]), Ok((3, 3)));
}

#[test]
fn any_table() {
    for capacity in [0, 1, 3, 4096, u32::MAX] {
        for word in [0, 1, 47, 72, u32::MAX] {
            let counts = Counts { capacity, user: word, global: word, solver: word, used: word, next: word };
            let lists = Lists {
                global_from_user: vec![word; 3],
                user_from_global: vec![word; 2],
                records: vec![word; 3],
                ..Lists::default()
            };
            let mut table = Parts { counts, lists };
            let before = table.clone();
            let mut notes = table.notes();
            assert!(!table.is_sound());
            assert_eq!(table.map(User(0), false, &mut notes), Err(Refusal::Unsound));
            assert_eq!(table.new_user(&mut notes), Err(Refusal::Unsound));
            assert_eq!(table.pose(&[Lit::from_code(word)], true, &mut [], &mut notes), Err(Refusal::Unsound));
            assert_eq!(table.observe(&mut [], &mut notes), Err(Refusal::Unsound));
            assert_eq!(table.sweep(&mut notes), Err(Refusal::Unsound));
            assert_eq!(table.model(&mut [], &mut []), Err(Refusal::Unsound));
            assert_eq!(table.solver_from_global(Global(word)), Err(Refusal::Unsound));
            assert_eq!(table, before);
            assert_eq!(Table::try_from(table), Err(before));
        }
    }
}

#[test]
fn refusals_say_what_they_mean() {
    let text = Table::open(0).unwrap_err().to_string();
    assert_eq!(text, "refusal 10: the capacity is not 1 to 4,096, or a list has another length");
    let text = first_step(Format::Text, b"x").unwrap_err().to_string();
    assert_eq!(text, "refusal 13: a step of the proof is not whole, the one at byte 0 (line 1, column 1)");
}

#[test]
fn lists_that_are_no_proof() {
    let lits: Vec<Lit<Global>> = [0, 3, 8191].map(Lit::from_code).to_vec();
    let mut proof = [7; 32];
    let bad: [(&[u64], &[u8]); 7] = [
        (&[2, 3], &[0]),
        (&[3], &[0, 1]),
        (&[], &[]),
        (&[2], &[0]),
        (&[2, 4], &[0, 1]),
        (&[3, 2, 3], &[0, 1, 0]),
        (&[2, 3], &[0, 2]),
    ];
    for (ends, kinds) in bad {
        for format in [Format::Text, Format::Binary] {
            assert_eq!(write_proof(format, &lits, ends, kinds, &mut proof), Err(Refusal::OutOfRange));
        }
    }
    assert_eq!(write_proof(Format::Text, &[Lit::from_code(8192)], &[1], &[0], &mut proof), Err(Refusal::OutOfRange));
    assert_eq!(write_proof(Format::Text, &lits, &[2, 3], &[0, 1], &mut proof[..16]), Err(Refusal::Short));
    assert_eq!(proof, [7; 32]);
    assert_eq!(write_proof(Format::Text, &lits, &[2, 3], &[0, 1], &mut proof), Ok(17));
    assert_eq!(&proof[..18], b"1 -2 0\nd -4096 0\n\x07");
    assert_eq!(write_proof(Format::Binary, &[], &[], &[], &mut []), Ok(0));
}
