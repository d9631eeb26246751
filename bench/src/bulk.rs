//! Calls that do much at once, on tables that are known to be sound.
use std::time::Duration;

use hintzobar::{Lit, Table, User};
use varisat_unchanged::drive::{
    measure::{self, Bare},
    Format, Oracle,
};

use crate::{
    lent::Lent,
    plain::names::{Free, Hashed, Names, Ordered},
    random::Random,
    report::{ratio, time, Report},
    tables,
    timing::{race, span},
};

const BUDGET: Duration = Duration::from_millis(1500);

/// What is asked of all sides.
pub enum Call {
    Map(u32),
    /// The literals, as each side takes them.
    Pose(Vec<u32>, Vec<Lit<User>>, Vec<measure::Lit>),
    Observe,
    Sweep,
    Model,
}

impl Call {
    pub fn pose(codes: Vec<u32>) -> Call {
        let library = codes.iter().map(|&code| Lit::from_code(code)).collect();
        let rust = measure::lits(codes.iter().copied());
        Call::Pose(codes, library, rust)
    }
}

// ---- one call on each side

#[inline(never)]
pub fn library(call: &Call, table: &mut Table, lent: &mut Lent) -> usize {
    let notes = &mut lent.notes;
    match call {
        Call::Map(user) => table.map(User(*user), false, notes).unwrap().0 as usize,
        Call::Pose(_, lits, _) => table.pose(lits, false, &mut lent.solver_lits, notes).unwrap(),
        Call::Observe => table.observe(&mut lent.users, notes).unwrap(),
        Call::Sweep => {
            table.sweep(notes).unwrap();
            notes.len()
        }
        Call::Model => table.model(&mut lent.words, &mut lent.user_lits).unwrap().1,
    }
}

#[inline(never)]
fn rust(call: &Call, side: &mut Bare) -> usize {
    match call {
        Call::Map(user) => side.map(*user).index(),
        Call::Pose(_, _, lits) => {
            let mut posed = vec![];
            side.pose(&mut posed, lits);
            posed.len()
        }
        Call::Observe => side.observe().len(),
        Call::Sweep => {
            side.unit_simplify();
            0
        }
        Call::Model => side.model().len(),
    }
}

#[inline(never)]
fn names<F: Free>(call: &Call, side: &mut Names<F>) -> usize {
    match call {
        Call::Map(user) => side.map(*user) as usize,
        Call::Pose(lits, _, _) => {
            let mut posed = vec![];
            side.pose(&mut posed, lits);
            posed.len()
        }
        Call::Observe => side.observe().len(),
        Call::Sweep => {
            side.sweep();
            0
        }
        Call::Model => side.model().1.len(),
    }
}

// ---- the same results

pub fn oracle(table: &Table) -> Oracle {
    let state = tables::state(table);
    if state.records.is_empty() {
        return Oracle::new();
    }
    Oracle::load(&state).unwrap()
}

/// Answer, words filled, notes and the table left, on all sides.
pub fn same_results(call: &Call, table: &Table) {
    let (mut left, mut lent) = (table.clone(), Lent::new(table));
    let count = library(call, &mut left, &mut lent);
    let mut oracle = oracle(table);
    let mut plain = Names::<Ordered>::load(table);
    let notes = match call {
        Call::Map(user) => {
            let (global, notes) = oracle.map(*user, false);
            assert_eq!([global, global], [count as u32, plain.map(*user)]);
            notes
        }
        Call::Pose(lits, _, _) => {
            let (posed, notes) = oracle.pose(lits, false);
            let mut again = vec![];
            plain.pose(&mut again, lits);
            assert!(posed == again && lent.solver_lits[..count].iter().map(|lit| lit.code()).eq(posed));
            notes
        }
        Call::Observe => {
            let (users, notes) = oracle.observe();
            assert!(users == plain.observe() && lent.users[..count].iter().map(|user| user.0).eq(users));
            notes
        }
        Call::Sweep => {
            plain.sweep();
            oracle.sweep()
        }
        Call::Model => {
            let (globals, users) = oracle.model();
            let model = plain.model();
            assert!(globals == lent.words[..globals.len()] && globals == Names::<Ordered>::words(&model.0));
            assert!(users == model.1 && lent.user_lits[..count].iter().map(|lit| lit.code()).eq(users));
            vec![]
        }
    };
    assert!(matches!(call, Call::Model) || (notes == lent.note_words() && notes == plain.notes));
    assert_eq!(oracle.state(), tables::state(&left));
    assert!(plain.is(&left));
}

/// Nanoseconds of the library, varisat's own function, and the names alone with hash sets.
fn time_call(call: &Call, table: &Table) -> [f64; 3] {
    same_results(call, table);
    let mut lent = Lent::new(table);
    let start = Names::<Hashed>::load(table);
    race(
        BUDGET,
        [
            Box::new(|| {
                let mut table = table.clone();
                span(|| library(call, &mut table, &mut lent))
            }),
            Box::new(|| {
                let mut side = Bare::new(oracle(table), Format::Text);
                span(|| rust(call, &mut side))
            }),
            Box::new(|| {
                let mut side = start.clone();
                span(|| names(call, &mut side))
            }),
        ],
    )
}

/// Every user in both signs, in this order.
pub fn both_signs(users: impl IntoIterator<Item = u32>) -> Call {
    Call::pose(users.into_iter().flat_map(|user| [2 * user, 2 * user + 1]).collect())
}

/// Full, and every other global hidden: its user was withdrawn, its solver index stays.
pub fn half_hidden(capacity: u32) -> Table {
    tables::changed(&tables::full(capacity), |lists| {
        for g in (1..capacity as usize).step_by(2) {
            lists.records[g] += 2;
            lists.user_from_global[g] = 0;
            lists.global_from_user[g] = 0;
        }
    })
}

/// Full, nothing in use: all is swept.
pub fn idle(capacity: u32) -> Table {
    tables::changed(&tables::full(capacity), |lists| lists.records.fill(9))
}

/// A name, the call, the table before it, and the goal.
type Row = (&'static str, Call, Table, Option<(&'static str, f64)>);

fn rows(n: u32) -> Vec<Row> {
    let random = Random::new(1).shuffled(n);
    let (mut first, mut last) = (vec![n - 1], Random::new(1).shuffled(n - 1));
    first.extend(&last);
    last.push(n - 1);
    let pose = Some(("Pose", 0.7));
    let granted = Some(("Pose, all but one granted", 1.0));
    let sweep = Some(("Sweep", 0.7));
    vec![
        ("Map with a gap of 4,096", Call::Map(n - 1), tables::open(n), Some(("gap fill", 1.0))),
        ("Pose 8,192, none mapped, in order", both_signs(0..n), tables::open(n), pose),
        ("Pose 8,192, none mapped, random order", both_signs(random.clone()), tables::open(n), pose),
        ("Pose 8,192, all granted, random order", both_signs(random), tables::full(n), pose),
        ("Pose 8,192, all granted but the last user, random order", both_signs(last), tables::filled(n, n - 1), granted),
        ("Pose 8,192, all granted but the first user, random order", both_signs(first), tables::filled(n, n - 1), granted),
        ("Observe 2,048 of 4,096", Call::Observe, half_hidden(n), None),
        ("Sweep, all of 4,096 removed", Call::Sweep, idle(n), sweep),
        ("Sweep, two thirds of 4,096 removed", Call::Sweep, half_hidden(n), sweep),
        ("Model, full", Call::Model, tables::full(n), None),
        ("Model, shuffled", Call::Model, tables::shuffled(n), None),
    ]
}

pub fn calls(report: &Report) {
    let columns = ["call", "library", "varisat", "ratio", "goal", "names alone, hash sets", "ratio"];
    report.table("Bulk calls at capacity 4,096", &columns);
    for (name, call, table, goal) in rows(4096) {
        let [library, varisat, alone] = time_call(&call, &table);
        let goal = match goal {
            Some((goal, most)) => report.goal(goal, library / varisat, most),
            None => String::from("none"),
        };
        let times = [library, varisat, alone].map(time);
        let [first, second] = [varisat, alone].map(|rust| ratio(library, rust));
        let [library, varisat, alone] = times;
        report.row(&[name.into(), library, varisat, first, goal, alone, second]);
    }
}
