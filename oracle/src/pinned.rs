//! Calls that stand in every recorded list, whatever the seed: each sees a departure from documents 01 and 02 that random calls meet rarely or not.
use crate::call::{Call, Cause, Format, Mark, ProofStep, ASKED};
use crate::reading::{binary::words, Counts, Table};

/// A sound table of capacity 4: user 0 and solver index 1 at global 0; solver index 0, which is true, at global 1, which is hidden; global 2
/// deleted; global 3 not used yet.
pub fn base() -> Table {
    let mut t = Table::empty(4);
    t.give_user(0, 0, 9);
    t.counts.global = 3;
    t.records[1] = 2;
    t.give_solver(1, 0);
    t.give_solver(0, 1);
    t.assignment[0] = 2;
    t.recount();
    t
}

/// A sound table of capacity 6 with free solver indices below and above the one that is held, 1 of 4; global 1 hidden, global 2 deleted.
fn holes() -> Table {
    let mut t = Table::empty(6);
    t.give_user(0, 0, 9);
    t.give_user(3, 1, 9);
    t.records[1] = 2;
    t.counts.solver = 4;
    t.give_solver(0, 1);
    t.recount();
    t
}

/// Each breaks one clause of soundness and keeps all others, once the stored numbers are counted anew; a word above the global watermark of a map
/// cannot but break two.
const BROKEN: [fn(&mut Table); 31] = [
    // the capacity, and the lists' lengths
    |t| *t = Table::empty(0),
    |t| *t = Table::empty(4097),
    |t| t.global_from_user.push(0),
    |t| t.user_from_global.push(0),
    |t| t.solver_from_global.push(0),
    |t| t.global_from_solver.push(0),
    |t| t.assignment.push(0),
    |t| t.records.push(47),
    // records and assignment words within their bounds
    |t| t.records[2] = 83,
    |t| t.assignment[0] = 3,
    // watermarks
    |t| t.counts.user = 4,
    |t| t.counts.solver = 4,
    |t| t.counts.global = 5,
    // nothing at or above a watermark
    |t| t.counts.user = 0,
    |t| t.counts.solver = 1,
    |t| t.assignment[2] = 1,
    |t| t.records[3] = 50,
    |t| t.user_from_global[3] = 1,
    |t| t.solver_from_global[3] = 1,
    // maps mutually inverse: a word of each that the other does not return
    |t| (t.counts.user, t.global_from_user[1]) = (2, 1),
    |t| (t.counts.global, t.user_from_global[3], t.records[3]) = (4, 1, 9),
    |t| (t.global_from_solver[0], t.solver_from_global[1]) = (1, 0),
    |t| (t.global_from_solver[0], t.solver_from_global[1]) = (0, 2),
    // a user exactly if undeleted and not Hide
    |t| t.records[0] = 11,
    |t| t.records[1] = 0,
    |t| t.records[1] = 1,
    // a deleted global is Hide, isolated and without solver index
    |t| t.records[2] = 45,
    |t| t.records[2] = 46,
    |t| t.records[2] = 38,
    |t| t.records[2] = 62,
    |t| t.records[1] = 47,
];

pub fn broken() -> Vec<Table> {
    let spoilt = |change: &fn(&mut Table)| {
        let mut t = base();
        change(&mut t);
        t.recount();
        t
    };
    BROKEN.iter().map(spoilt).collect()
}

/// Tables with one stored number wrong, the other right: `used` and then `next` of each table is every number up to one past the capacity, and the largest.
pub fn miscounted() -> Vec<Table> {
    let mut all = vec![];
    for right in [base(), holes()] {
        let c = right.counts;
        for number in (0..c.capacity + 2).chain([u32::MAX]) {
            let with = |counts| Table { counts, ..right.clone() };
            all.extend([with(Counts { used: number, ..c }), with(Counts { next: number, ..c })]);
        }
        all.retain(|t| *t != right);
    }
    all
}

/// A call of each kind, all of which are accepted on the base table and on the one with holes.
fn each_kind(t: &Table) -> Vec<Call> {
    let (step, solver_vars, lits, hashes) = (ProofStep::AtClause(false), true, vec![2], vec![]);
    let sections = vec![0; 2 * t.counts.solver as usize];
    vec![
        Call::Lookup { asked: ASKED[0], index: 0 },
        Call::Map { user: 1, sampling: false, room: 3 },
        Call::NewUser { room: 3 },
        Call::Pose { lits: vec![0], sampling: true, outs: 1, room: 6 },
        Call::Grant { global: 0, room: 3 },
        Call::SetMode { global: 0, mode: 1, room: 3 },
        Call::Observe { outs: 4, room: 12 },
        Call::Mark { mark: Mark::Used, solver: 1 },
        Call::Assign { lit: 2 },
        Call::Remove { solver: 1, room: 6 },
        Call::Sweep { room: 12 },
        Call::Simplify { lits: lits.clone(), redundant: false, outs: 1, room: 8 },
        Call::Rename { step, solver_vars, lits: lits.clone(), hashes: hashes.clone(), outs: 1, hash_outs: 0 },
        Call::Write { step, solver_vars, lits, hashes, room: 8 },
        Call::Model { globals: 6, users: 6 },
        Call::SimplifyBinary { outs: sections.len(), lists: sections, room: 0 },
    ]
}

/// Four of them, of other kinds for each table, which are accepted once the stored numbers are right.
pub fn some_kinds(t: &Table, from: usize) -> Vec<Call> {
    let right = Table { counts: t.recounted(), ..t.clone() };
    let calls: Vec<Call> = each_kind(t).into_iter().cycle().skip(4 * from).take(4).collect();
    assert!(calls.iter().all(|call| call.read(Format::Text, &right).refusal == 0));
    calls
}

/// A deleted global's unit and assumed parts may be anything.
pub fn deleted() -> Vec<Table> {
    let with = |record: u32| {
        let mut t = base();
        t.records[2] = record;
        t
    };
    [47, 50, 53, 65, 68, 71].map(with).to_vec()
}

/// Every Lookup, each at another index.
pub fn lookups(from: u32) -> Vec<Call> {
    (from..).zip(ASKED).map(|(n, asked)| Call::Lookup { asked, index: n % 4 }).collect()
}

/// Solver indices 0 to 3 held by globals 3, 0, 2 and 1; 0 false and 1 true. Then a clause kept, dropped, shortened and made binary, redundant and not.
pub fn simplifications() -> Vec<Call> {
    let pose = Call::Pose { lits: vec![6, 0, 5, 2], sampling: true, outs: 4, room: 24 };
    let mut calls = vec![pose, Call::Assign { lit: 1 }, Call::Assign { lit: 2 }];
    let clauses: [&[u32]; 6] = [&[4, 7, 4], &[4, 2, 0], &[0, 4, 7, 5], &[4, 0, 7], &[0, 4], &[4, 6]];
    for lits in clauses.map(<[u32]>::to_vec) {
        for redundant in [false, true] {
            calls.push(Call::Simplify { lits: lits.clone(), redundant, outs: lits.len(), room: 30 });
        }
    }
    calls
}

/// Every kind of step with two literals and two hashes, of which some kinds take both, some the literals alone, some neither; those that take
/// hashes with one word too few for them; and assumptions that failed with more hashes than literals.
pub fn renamings() -> Vec<Call> {
    let rename = |step, lits: &[u32], hashes: &[u64], hash_outs| {
        let (lits, hashes, outs) = (lits.to_vec(), hashes.to_vec(), lits.len());
        Call::Rename { step, solver_vars: true, lits, hashes, outs, hash_outs }
    };
    let hashed = [ProofStep::AtClause(true), ProofStep::UnitClauses, ProofStep::FailedAssumptions];
    let others = [
        ProofStep::AddClause,
        ProofStep::DeleteClause(Cause::Simplified),
        ProofStep::Model,
        ProofStep::Assumptions,
        ProofStep::SolverVarName(1, 2),
        ProofStep::UserVarName(2, 0),
        ProofStep::DeleteVar(3),
        ProofStep::ChangeSamplingMode(0, true),
        ProofStep::ChangeHashBits(64),
        ProofStep::End,
    ];
    let (lits, hashes) = ([1, 2], [5, 1 << 40]);
    let mut calls: Vec<Call> = hashed.iter().chain(&others).map(|&step| rename(step, &lits, &hashes, 2)).collect();
    calls.extend(hashed.map(|step| rename(step, &lits, &hashes, 1)));
    calls.push(rename(ProofStep::FailedAssumptions, &lits[..1], &[7, 8, 9], 3));
    calls.push(rename(ProofStep::FailedAssumptions, &[], &[7], 1));
    calls
}

/// On the base table: calls that change names with a word or a user too few, and then with just enough.
pub fn rooms() -> Vec<Call> {
    let map = |room| Call::Map { user: 1, sampling: false, room };
    let observe = |outs, room| Call::Observe { outs, room };
    let grant = |room| Call::Grant { global: 2, room };
    let mut calls = vec![map(2), map(3), observe(0, 6), observe(1, 5), observe(1, 6), grant(2), grant(3)];
    calls.extend([2, 3].map(|room| Call::NewUser { room }));
    calls
}

/// On the base table solver index 0 is held by global 1, which is hidden, and 1 by global 0. With mode Hide index 0 is assumed, with the other modes
/// index 1, its global set to the mode first. The assumed index stays, with room or without, before a sweep and after it, and goes once it is
/// released; the other goes meanwhile.
pub fn removals(mode: u32) -> Vec<Call> {
    let (assumed, other) = if mode == 2 { (0, 1) } else { (1, 0) };
    let remove = |solver, room| Call::Remove { solver, room };
    let mark = |mark| Call::Mark { mark, solver: assumed };
    let mut calls = vec![];
    if mode != 2 {
        calls.push(Call::SetMode { global: 0, mode, room: 3 });
    }
    calls.extend([mark(Mark::Assumed), remove(assumed, 6), remove(assumed, 0), remove(other, 2), remove(2, 6), remove(4, 6)]);
    calls.extend([remove(other, 3), remove(other, 6), Call::Sweep { room: 6 }, remove(assumed, 6), mark(Mark::Released)]);
    calls.extend([remove(assumed, 2), remove(assumed, 6), remove(assumed, 6)]);
    calls
}

/// On an empty table: no sections at all, and a word too many.
pub fn no_sections() -> Vec<Call> {
    let binary = |lists: &[u32]| Call::SimplifyBinary { lists: lists.to_vec(), outs: 1, room: 1 };
    vec![binary(&[]), binary(&[0]), binary(&[u32::MAX])]
}

/// The lists of clauses over four indices, added in turn.
fn added(clauses: &[[u32; 2]]) -> Vec<u32> {
    let mut sections = vec![vec![]; 8];
    for &[a, b] in clauses {
        sections[a as usize ^ 1].push(b);
        sections[b as usize ^ 1].push(a);
    }
    words(&sections)
}

/// The words with one changed.
fn with(words: &[u32], place: usize, word: u32) -> Vec<u32> {
    let mut words = words.to_vec();
    words[place] = word;
    words
}

/// Solver indices 0 to 3 held by globals 3, 0, 2 and 1; 0 false and 1 true. Then lists of binary clauses: whole ones with enough room, just
/// enough and one too little of each; an order that no additions make; entries that are their own mirror; each damage by itself; and lists
/// once index 2 is not held.
pub fn binaries() -> Vec<Call> {
    let binary = |lists: &[u32], outs, room| Call::SimplifyBinary { lists: lists.to_vec(), outs, room };
    let pose = Call::Pose { lits: vec![6, 0, 5, 2], sampling: true, outs: 4, room: 24 };
    let mut calls = vec![pose, Call::Assign { lit: 1 }, Call::Assign { lit: 2 }];
    // the first three go, in 25 bytes of text or 12 in binary; the others stay
    let whole = added(&[[0, 4], [2, 0], [0, 1], [6, 6], [4, 7], [4, 7]]);
    calls.extend([(20, 30), (14, 25), (14, 24), (14, 12), (14, 11), (13, 25)].map(|(outs, room)| binary(&whole, outs, room)));
    let crossed = [0, 0, 0, 0, 2, 7, 6, 2, 6, 7, 2, 4, 5, 2, 5, 4];
    let alone = [3, 1, 1, 1, 0, 0, 0, 0, 0, 0, 3, 6, 6, 6];
    let same = [0, 1, 0, 0, 0, 0, 0, 0, 0];
    calls.extend([&crossed[..], &with(&crossed, 5, 6), &alone, &same, &[0; 8], &whole[..9]].map(|lists| binary(lists, 20, 30)));
    let longer = [&whole[..], &[0]].concat();
    calls.extend([&whole[..19], &whole[..17], &longer, &[]].map(|lists| binary(lists, 20, 30)));
    let changed = [(0, u32::MAX), (17, u32::MAX), (17, 1), (19, 8), (19, u32::MAX), (1, 2), (3, 6), (15, 5)];
    calls.extend(changed.map(|(place, word)| binary(&with(&whole, place, word), 20, 30)));

    calls.push(Call::Remove { solver: 2, room: 6 });
    let others = added(&[[0, 2], [6, 6]]);
    let lists = [&whole, &with(&whole, 19, 8), &others];
    calls.extend(lists.map(|lists| binary(lists, 0, 0)));
    calls.extend(lists.map(|lists| binary(lists, 20, 30)));
    calls
}

/// CNF files: lines that start with `c`, bounds of V, counts, and what is missing at the end.
pub fn files() -> Vec<String> {
    let many = "1234567890".repeat(4);
    let mut files: Vec<String> = [
        "",
        "c",
        "c\n",
        "c\nc x",
        "c\n\n",
        "p cnf 0 0\n",
        "p cnf 0 0",
        "p cnf 0 1\n0\n",
        "p cnf 4096 0\n",
        "p cnf 4097 0\n",
        "cnf 1\np cnf 1 1\n1 0\n",
        "p cnf 1 1\nc\n1 0\n",
        "p cnf 1 1\n1 0\nc\n",
        "p cnf 4096 1\n4096 -4096 0\n",
        "p cnf 4096 1\n4097 0\n",
        "p cnf 2 1\n3 0\n",
        "p cnf 2 1\n1 0 2 0\n",
        "p cnf 2 1\n1\n2 0\n",
        "p cnf 2 1\n1 0\n2 0\n",
        "c\np cnf 2 3\n1 0\n2 0\n",
        "c\np cnf 2 1\n1 0\n2 0\n3 0\n",
        "p cnf 01 0\n",
        "p cnf 0 00\n",
        "p cnf 2 1\n1 0\r\n",
        "p cnf 2 1\n1 0",
    ]
    .map(String::from)
    .to_vec();
    files.extend(["", "3 0\n"].map(|end| format!("p cnf 2 {}\n1 0\n{}", many, end)));
    files
}

/// Text proofs: separators of each kind and number, tokens that are none, joined or cut, a `d` in each place; two of more than 64 bytes.
pub fn texts() -> Vec<Vec<u8>> {
    let mut texts = [
        "",
        "\n",
        " \n \n",
        "0",
        "0\n",
        "d",
        "d\n",
        "d 0",
        "d\n\n0",
        "d1 0",
        "d d 0",
        "1 d 2 0",
        "1 0d 2 0",
        "1 02 0",
        "10",
        "1 0 2",
        "1 0 2 ",
        "1 0\n2 0",
        "1\n-2  0 d\n1 0",
        "\n\n1 x",
        "\n 1 0\n\n 2",
        "1\t0",
        "1 0\r\n",
        "1-2 0",
        "4096 -4096 0",
        "4097 0",
        "-4097 0",
        "40960 0",
        "01 0",
        "-0 0",
        "- 1 0",
    ]
    .map(|text| text.as_bytes().to_vec())
    .to_vec();
    texts.extend([vec![0], vec![255], b"1 0\xff".to_vec(), b"1\x00 0".to_vec()]);
    let long = [vec![b'\n'; 80], b"d 1".to_vec(), vec![b' '; 80], b"-2 0".to_vec()].concat();
    texts.extend([long[..long.len() - 1].to_vec(), long]);
    texts
}

/// Clauses as two lists, and lists that are none: no ends for a code, ends that fall, pass the last literal, leave it out; index 4,096.
pub fn clauses() -> Vec<(Vec<u32>, Vec<u64>)> {
    vec![
        (vec![], vec![]),
        (vec![], vec![0]),
        (vec![0, 3, 4], vec![2, 2, 3]),
        (vec![5], vec![1]),
        (vec![8191, 8190], vec![1, 2]),
        (vec![8192], vec![1]),
        (vec![0], vec![]),
        (vec![], vec![1]),
        (vec![0, 3, 4], vec![2, 1, 3]),
        (vec![0, 3, 4], vec![2, 4]),
        (vec![0, 3, 4], vec![4, 3]),
        (vec![0, 3, 4], vec![1, 2]),
    ]
}
