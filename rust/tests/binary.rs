//! Binary clauses before the sweep: what is left, what is written, each refusal, and what is enough to lend.
use hintzobar::{Format, Lit, Refusal, Solver, Table, Thinned, User};

const FORMATS: [Format; 2] = [Format::Text, Format::Binary];

fn lit(code: u32) -> Lit<Solver> {
    Lit::from_code(code)
}

/// Capacity 8; solver indices 0 to 3 are held by globals 3, 0, 1 and 2; 0 is true and 3 is false.
fn table() -> Table {
    let mut table = Table::open(8).unwrap();
    let mut notes = table.notes();
    let users = [3, 0, 1, 2].map(|user| Lit::positive(User(user)));
    table.pose(&users, false, &mut [lit(0); 4], &mut notes).unwrap();
    table.assign(lit(0)).unwrap();
    table.assign(lit(7)).unwrap();
    table
}

/// Six clauses: one twice, one of the same literal twice, one of a literal and its negation.
fn lists(table: &Table) -> Vec<u32> {
    let clauses = [[0, 2], [3, 4], [3, 4], [5, 5], [6, 7], [2, 7]].map(|clause| clause.map(lit));
    table.binary_lists(&clauses).unwrap()
}

/// Lends so many words and bytes, and sees that those past what was filled are as they were.
fn thin(table: &Table, format: Format, lists: &[u32], words: usize, bytes: usize) -> Result<(Vec<u32>, usize, Vec<u8>), Refusal> {
    let (mut out, mut proof) = (vec![77; words], vec![77; bytes]);
    let before = table.clone();
    let answer = table.simplify_binary(format, lists, &mut out, &mut proof);
    let Thinned { words, half, bytes } = answer.unwrap_or(Thinned { words: 0, half: 0, bytes: 0 });
    assert!(out[words..].iter().all(|&word| word == 77) && proof[bytes..].iter().all(|&byte| byte == 77));
    assert_eq!(*table, before);
    answer.map(|_| (out[..words].to_vec(), half, proof[..bytes].to_vec()))
}

/// The refusal of the call, with room for anything.
fn refusal(table: &Table, lists: &[u32]) -> Option<Refusal> {
    let refusals = FORMATS.map(|format| thin(table, format, lists, 99, 999).err());
    assert_eq!(refusals[0], refusals[1]);
    refusals[0]
}

#[test]
fn clauses_with_a_value_go() {
    let table = table();
    let lists = lists(&table);
    assert_eq!(lists, [0, 1, 2, 2, 4, 4, 2, 0, 7, 2, 5, 5, 2, 3, 3, 2, 6, 2, 1, 7]);
    let left = vec![0, 0, 2, 4, 4, 0, 2, 5, 5, 2, 3, 3, 0, 0];
    let text = b"d 4 1 0\nd 1 -3 0\nd 3 -3 0\n".to_vec();
    let binary = vec![0x64, 8, 2, 0, 0x64, 2, 7, 0, 0x64, 6, 7, 0];
    for (format, bytes) in FORMATS.into_iter().zip([text, binary]) {
        assert_eq!(thin(&table, format, &lists, 99, 999), Ok((left.clone(), 3, bytes)));
        assert_eq!(thin(&table, format, &left, 14, 0), Ok((left.clone(), 3, vec![])));
    }
    let kept = [[3, 4], [3, 4], [5, 5]].map(|clause| clause.map(lit));
    assert_eq!(table.binary_lists(&kept), Some(left));
}

/// An entry that is its own mirror may stand an odd number of times, which no clauses make.
#[test]
fn its_own_mirror() {
    let table = table();
    let lists = [0, 0, 1, 3, 0, 0, 0, 0, 3, 6, 6, 6];
    assert_eq!(thin(&table, Format::Text, &lists, 9, 0), Ok((vec![0, 0, 1, 3, 0, 0, 0, 0, 0], 0, vec![])));
}

/// The entries may stand in an order that no clauses make, one added after the other.
#[test]
fn any_order() {
    let table = table();
    let mut lists = vec![0, 0, 2, 5, 4, 2, 4, 5, 2, 2, 3, 2, 3, 2, 0, 0];
    assert_eq!(thin(&table, Format::Text, &lists, 16, 0), Ok((lists.clone(), 4, vec![])));
    lists[3] = 4;
    assert_eq!(refusal(&table, &lists), Some(Refusal::BadLists));
}

#[test]
fn no_sections() {
    let table = Table::open(1).unwrap();
    assert_eq!(thin(&table, Format::Text, &[], 0, 0), Ok((vec![], 0, vec![])));
    assert_eq!(table.binary_lists(&[]), Some(vec![]));
    for word in [0, 1, u32::MAX] {
        assert_eq!(refusal(&table, &[word]), Some(Refusal::BadLists));
    }
}

#[test]
fn not_sound() {
    let table = table();
    let mut unsound = table.parts().clone();
    unsound.lists.assignment[4] = 1;
    for (format, lists) in FORMATS.into_iter().flat_map(|format| [(format, lists(&table)), (format, vec![])]) {
        let (mut out, mut proof) = ([77; 99], [77; 999]);
        assert_eq!(unsound.simplify_binary(format, &lists, &mut out, &mut proof), Err(Refusal::Unsound));
        assert_eq!((out, proof), ([77; 99], [77; 999]));
    }
}

#[test]
fn bad_lists() {
    let table = table();
    let good = lists(&table);
    let with = |place: usize, word: u32| {
        let mut lists = good.clone();
        lists[place] = word;
        lists
    };
    let bad = [
        // a section is missing, runs past the words, leaves words over
        good[..18].to_vec(),
        vec![],
        with(18, 2),
        with(18, u32::MAX),
        with(0, u32::MAX),
        [&good[..], &[0]].concat(),
        with(18, 0),
        // an entry has no mirror, has it less often, or is no code
        with(2, 3),
        with(4, 0),
        with(19, 8),
        with(19, u32::MAX),
        vec![1, 8, 0, 0, 0, 0, 0, 0, 0],
    ];
    for lists in bad {
        assert_eq!(refusal(&table, &lists), Some(Refusal::BadLists), "{:?}", lists);
        assert_eq!(thin(&table, Format::Text, &lists, 0, 0), Err(Refusal::BadLists));
    }
    let said = Refusal::BadLists.to_string();
    assert_eq!(said, "refusal 15: the lists are not one section for each literal code, or an entry has no mirror");
}

/// 8 comes after 15 and before 2; an empty section of the same index is accepted.
#[test]
fn not_held() {
    let mut table = table();
    let lists = lists(&table);
    let mut notes = table.notes();
    table.remove(Solver(2), &mut notes).unwrap();
    assert_eq!(refusal(&table, &lists), Some(Refusal::NotHeld));
    assert_eq!(thin(&table, Format::Text, &lists, 0, 0), Err(Refusal::NotHeld));
    assert_eq!(refusal(&table, &lists[1..]), Some(Refusal::BadLists));
    let others = table.binary_lists(&[[lit(2), lit(7)]]).unwrap();
    assert_eq!(thin(&table, Format::Text, &others, 8, 9), Ok((vec![0; 8], 0, b"d 1 -3 0\n".to_vec())));
}

#[test]
fn one_short() {
    let table = table();
    let lists = lists(&table);
    for (format, bytes) in FORMATS.into_iter().zip([26, 12]) {
        assert_eq!(thin(&table, format, &lists, 13, bytes), Err(Refusal::Short));
        assert_eq!(thin(&table, format, &lists, 14, bytes - 1), Err(Refusal::Short));
        assert!(thin(&table, format, &lists, 14, bytes).is_ok());
    }
}

/// The widest clauses, in as many words as were given and 8 bytes, or 3, for each of them.
#[test]
fn enough_to_lend() {
    let mut table = Table::open(4096).unwrap();
    let mut notes = table.notes();
    let users: Vec<_> = (0..4096).map(|i| Lit::positive(User(i))).collect();
    table.pose(&users, false, &mut vec![lit(0); 4096], &mut notes).unwrap();
    let lists = table.binary_lists(&[[lit(8189), lit(8191)]; 20_000]).unwrap();
    for (format, each, clause) in [(Format::Text, 8, 16), (Format::Binary, 3, 6)] {
        let (left, half, bytes) = thin(&table, format, &lists, lists.len(), 0).unwrap();
        assert_eq!((left, half, bytes.len()), (lists.clone(), 20_000, 0));
        let mut valued = table.clone();
        valued.assign(lit(8190)).unwrap();
        let (left, half, bytes) = thin(&valued, format, &lists, lists.len(), each * lists.len()).unwrap();
        assert_eq!((left, half, bytes.len()), (vec![0; 8192], 0, clause * 20_000));
    }
}
