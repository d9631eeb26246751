//! Every call by itself, on a table half full: on a table that is known to be sound, beside varisat; and on its parts, which are tested first.
use std::{hint::black_box, time::Duration};

use hintzobar::{
    first_step, read, write_clause, write_proof, Format, Global, Lit, Lits, Made, Mark, Mode, Name, Parts, Refusal, Solver, Step,
    Table, User,
};
use varisat_unchanged::drive::{
    self,
    measure::{self, Bare, Var},
};

use crate::{
    bulk::oracle,
    calls::Calls,
    lent::Lent,
    plain::reader::{self, Proof},
    report::{ratio, time, Report},
    sound, tables,
    timing::{idle, race, span},
};

const BUDGET: Duration = Duration::from_millis(60);
const CAPACITIES: [u32; 2] = [64, 4096];
const SIMPLIFY: &str = "Simplify, 4 literals, one goes";
const LINE: &[u8] = b"1 -20 300 0\n";

/// What is asked of a single call, and of those that pass over the whole table.
const SINGLE: (&str, f64) = ("single call", 2.0);
const WHOLE: (&str, f64) = ("Model, Observe", 1.2);

/// Varisat, and its clause to fill.
struct Varisat {
    side: Bare,
    lits: Vec<measure::Lit>,
}

impl Varisat {
    fn new(table: &Table) -> Varisat {
        Varisat { side: Bare::new(oracle(table), drive::Format::Text), lits: vec![] }
    }
}

/// A call with its index among the calls of a round, and what it answers.
type Once<S> = Box<dyn Fn(&mut S, u32) -> u32>;
/// So many calls, so often. The call is compiled into the loop: one through a pointer would add to what takes two nanoseconds.
type Round<S> = Box<dyn Fn(&mut S, u32, u32)>;

struct Call<S> {
    once: Once<S>,
    round: Round<S>,
}

impl<S> Call<S> {
    fn new(call: impl Fn(&mut S, u32) -> u32 + Copy + 'static) -> Call<S> {
        let round = move |side: &mut S, calls: u32, repeats: u32| {
            for _ in 0..repeats {
                for i in 0..calls {
                    black_box(call(side, i));
                }
            }
        };
        Call { once: Box::new(call), round: Box::new(round) }
    }
}

/// A table, and what it fills.
type Library<T> = (T, Lent);

struct Row<T> {
    name: &'static str,
    table: fn(u32) -> Table,
    /// How many calls there are for a table of this capacity.
    calls: fn(u32) -> u32,
    /// A call that may be made again is repeated within a round.
    repeats: u32,
    library: Call<Library<T>>,
    rust: Option<Call<Varisat>>,
}

/// A call that may be made again and again, on the table half full.
fn ask<T: Calls>(
    name: &'static str,
    library: impl Fn(&mut T, &mut Lent, u32) -> u32 + Copy + 'static,
    rust: impl Fn(&mut Varisat, u32) -> u32 + Copy + 'static,
) -> Row<T> {
    Row { repeats: 100, ..change(name, tables::half, library, rust) }
}

/// A call that changes the table.
fn change<T: Calls>(
    name: &'static str,
    table: fn(u32) -> Table,
    library: impl Fn(&mut T, &mut Lent, u32) -> u32 + Copy + 'static,
    rust: impl Fn(&mut Varisat, u32) -> u32 + Copy + 'static,
) -> Row<T> {
    let library = Call::new(move |(table, lent): &mut Library<T>, i| library(table, lent, i));
    Row { name, table, calls: few, repeats: 1, library, rust: Some(Call::new(rust)) }
}

// ---- tables and arguments

/// An eighth of the capacity, so that three indices for each are in use.
fn few(capacity: u32) -> u32 {
    64.min(capacity / 8)
}

/// Half of the users mapped, no solver index given.
fn ungranted(capacity: u32) -> Table {
    let mut table = tables::open(capacity);
    let mut notes = table.notes();
    table.map(User(capacity / 2 - 1), false, &mut notes).unwrap();
    table
}

/// Half full, and one user more. So neither side does here what it does now and then: varisat's lists have just grown, and the first New user on a
/// table made of lists has looked through all users that are mapped.
fn begun(capacity: u32) -> Table {
    let mut table = tables::half(capacity);
    let mut notes = table.notes();
    table.new_user(&mut notes).unwrap();
    table
}

/// Half full, without any value.
fn unvalued(capacity: u32) -> Table {
    tables::changed(&tables::half(capacity), |lists| lists.assignment.fill(0))
}

/// Half full, all in use and without a value: Sweep finds nothing.
fn busy(capacity: u32) -> Table {
    tables::changed(&unvalued(capacity), |lists| lists.records[..capacity as usize / 2].fill(0))
}

/// Three codes whose variables are in use and have no value.
fn codes(i: u32) -> [u32; 3] {
    [6 * i, 6 * i + 7, 6 * i + 12]
}

/// The same, and one whose variable has a value by which it is false.
fn with_false(i: u32) -> [u32; 4] {
    let index = 3 * i + 1;
    let [a, b, c] = codes(i);
    [a, 2 * index + index % 2, b, c]
}

fn lits<N: Name, const K: usize>(codes: [u32; K]) -> [Lit<N>; K] {
    codes.map(Lit::from_code)
}

fn word(var: Option<Var>) -> u32 {
    var.map_or(0, |var| var.index() as u32 + 1)
}

fn some<N: Name>(answer: Result<Option<N>, Refusal>) -> u32 {
    answer.unwrap().map_or(0, |name| name.index() + 1)
}

/// The answer of a call that answers nothing.
fn done(answer: Result<(), Refusal>) -> u32 {
    answer.unwrap();
    0
}

/// The same of varisat's functions.
macro_rules! none {
    ($call:expr) => {{
        $call;
        0
    }};
}

// ---- the calls

fn lookups<T: Calls>() -> Vec<Row<T>> {
    vec![
        ask(
            "Lookup, global of a user",
            |t: &mut T, _, i| some(t.global_from_user(User(i))),
            |r, i| word(r.side.global_from_user(i)),
        ),
        ask(
            "Lookup, user of a global",
            |t: &mut T, _, i| some(t.user_from_global(Global(i))),
            |r, i| word(r.side.user_from_global(i)),
        ),
        ask(
            "Lookup, solver index of a global",
            |t: &mut T, _, i| some(t.solver_from_global(Global(i))),
            |r, i| word(r.side.solver_from_global(i)),
        ),
        ask(
            "Lookup, global of a solver index",
            |t: &mut T, _, i| some(t.global_from_solver(Solver(i))),
            |r, i| word(r.side.global_from_solver(i)),
        ),
        ask(
            "Lookup, record",
            |t: &mut T, _, i| t.record(Global(i)).unwrap().map_or(0, |record| record / 9 % 2),
            |r, i| r.side.isolated(i) as u32,
        ),
        ask(
            "Lookup, assignment",
            |t: &mut T, _, i| t.assignment(Solver(i)).unwrap().unwrap_or(0),
            |r, i| r.side.value(i).map_or(0, |value| 1 + value as u32),
        ),
    ]
}

fn names<T: Calls>() -> Vec<Row<T>> {
    let map = |t: &mut T, l: &mut Lent, user: u32| t.map(User(user), false, &mut l.notes).unwrap().0;
    let grant = |t: &mut T, l: &mut Lent, global: u32| t.grant(Global(global), &mut l.notes).unwrap().0;
    let pose = |t: &mut T, l: &mut Lent, i: u32| t.pose(&lits(codes(i)), false, &mut l.solver_lits, &mut l.notes).unwrap() as u32;
    let pose_rust = |r: &mut Varisat, i: u32| {
        r.side.pose(&mut r.lits, &codes(i).map(measure::lit));
        r.lits.len() as u32
    };
    vec![
        ask("Map, mapped already", map, |r, i| r.side.map(i).index() as u32),
        change(
            "Map, the next user",
            begun,
            move |t: &mut T, l, _| map(t, l, t.parts().counts.user),
            |r, _| r.side.map_next().index() as u32,
        ),
        change(
            "New user",
            begun,
            |t: &mut T, l, _| t.new_user(&mut l.notes).unwrap().0 .0,
            |r, _| r.side.new_user().index() as u32,
        ),
        ask("Pose, 3 literals", pose, pose_rust),
        // after the first call two of the three are held
        change("Pose, 3 literals, one granted", ungranted, pose, pose_rust),
        change("Pose, 3 literals, 3 users mapped, one granted", tables::open, pose, pose_rust),
        ask("Grant, held already", grant, |r, i| r.side.grant(i).index() as u32),
        change("Grant, a new index", ungranted, grant, |r, i| r.side.grant(i).index() as u32),
    ]
}

fn modes_and_marks<T: Calls>() -> Vec<Row<T>> {
    let set = |t: &mut T, l: &mut Lent, global: u32, mode: Mode| some(t.set_mode(Global(global), mode, &mut l.notes));
    // one for each index that is held
    let assign = change(
        "Assign",
        unvalued,
        |t: &mut T, _, i| done(t.assign(Lit::from_code(2 * i + i % 2))),
        |r, i| none!(r.side.assign(2 * i + i % 2)),
    );
    let observe = ask(
        "Observe, nothing hidden",
        |t: &mut T, l, _| t.observe(&mut l.users, &mut l.notes).unwrap() as u32,
        |r, _| r.side.observe().len() as u32,
    );
    let model = ask(
        "Model",
        |t: &mut T, l, _| t.model(&mut l.words, &mut l.user_lits).unwrap().1 as u32,
        |r, _| r.side.model().len() as u32,
    );
    vec![
        change(
            "Set mode, to Witness",
            tables::half,
            move |t: &mut T, l, i| set(t, l, i, Mode::Witness),
            |r, i| word(r.side.set_mode(i, 1)),
        ),
        change(
            "Set mode, to Hide",
            tables::half,
            move |t: &mut T, l, i| set(t, l, i, Mode::Hide),
            |r, i| word(r.side.set_mode(i, 2)),
        ),
        Row { repeats: 1, ..observe },
        ask("Mark, used", |t: &mut T, _, i| done(t.mark(Mark::Used, Solver(i))), |r, i| none!(r.side.used(i))),
        Row { calls: |capacity| capacity / 2, ..assign },
        change(
            "Remove",
            tables::half,
            |t: &mut T, l, i| done(t.remove(Solver(3 * i), &mut l.notes)),
            |r, i| none!(r.side.remove(3 * i)),
        ),
        change("Sweep, nothing to do", busy, |t: &mut T, l, _| done(t.sweep(&mut l.notes)), |r, _| none!(r.side.unit_simplify())),
        Row { repeats: 1, ..model },
    ]
}

fn lines<T: Calls>() -> Vec<Row<T>> {
    let rename = |t: &mut T, l: &mut Lent, i: u32| {
        let all = lits(codes(i));
        t.rename(Step::AtClause(true), Lits::Solver(&all), &[], &mut l.global_lits, &mut []).unwrap().lits as u32
    };
    let write = |t: &mut T, l: &mut Lent, i: u32| {
        let all = lits(codes(i));
        t.write(Format::Text, Step::AtClause(true), Lits::Solver(&all), &[], &mut l.bytes).unwrap() as u32
    };
    let simplify = |t: &mut T, l: &mut Lent, i: u32| {
        let all = lits(with_false(i));
        let made = t.simplify(Format::Text, &all, true, &mut l.solver_lits, &mut l.bytes).unwrap();
        assert!(made.made == Made::Shortened);
        made.bytes as u32
    };
    vec![
        ask("Rename, 3 literals", rename, |r, i| r.side.rename(&codes(i).map(measure::lit)) as u32),
        ask("Write, 3 literals, text", write, |r, i| none!(r.side.write(&codes(i).map(measure::lit)))),
        Row { rust: None, ..ask(SIMPLIFY, simplify, |_, _| 0) },
    ]
}

/// What varisat has no function for.
fn tests() -> Vec<Row<Parts>> {
    vec![
        ask("Soundness", |t: &mut Parts, _, _| t.is_sound() as u32, |_, _| 0),
        ask("Open", |t: &mut Parts, _, _| done(t.reopen(t.counts.capacity)), |_, _| 0),
    ]
}

fn rows<T: Calls>() -> Vec<Row<T>> {
    [lookups(), names(), modes_and_marks(), lines()].into_iter().flatten().collect()
}

// ---- timing

/// Both sides answer the same and leave the same table. Of Write the lines are compared instead.
fn same_results(row: &Row<Table>, table: &Table, rust: &Call<Varisat>) {
    let mut library = (table.clone(), Lent::new(table));
    let mut varisat = Varisat::new(table);
    for i in 0..(row.calls)(table.counts().capacity) {
        let answers = [(row.library.once)(&mut library, i), (rust.once)(&mut varisat, i)];
        if !row.name.starts_with("Write") {
            assert_eq!(answers[0], answers[1], "{}", row.name);
            continue;
        }
        let step = drive::Step::AtClause(true, &codes(i), &[]);
        let line = oracle(table).step(step, true, Some(drive::Format::Text)).bytes;
        assert_eq!(line, library.1.bytes[..answers[0] as usize]);
    }
    assert_eq!(tables::state(&library.0), varisat.side.state(), "{}", row.name);
}

/// How many tables a round has: where a call may be made but once for each index, several small ones.
fn copies<T>(row: &Row<T>, capacity: u32) -> u32 {
    if row.repeats == 1 {
        8.min(4096 / capacity)
    } else {
        1
    }
}

/// Rounds of so many calls, so often, on copies of a table.
fn library_round<'a, T: Calls>(row: &'a Row<T>, table: &'a Table, calls: u32, repeats: u32) -> impl FnMut() -> Duration + 'a {
    let capacity = table.counts().capacity;
    let mut sides: Vec<Library<T>> = (0..copies(row, capacity)).map(|_| (T::from(table.clone()), Lent::new(table))).collect();
    move || {
        sides.iter_mut().for_each(|side| side.0 = T::from(table.clone()));
        span(|| sides.iter_mut().for_each(|side| (row.library.round)(side, calls, repeats)))
    }
}

fn varisat_round<'a>(row: &'a Row<Table>, table: &'a Table, rust: &'a Call<Varisat>) -> impl FnMut() -> Duration + 'a {
    let capacity = table.counts().capacity;
    let calls = (row.calls)(capacity);
    move || {
        let mut sides: Vec<Varisat> = (0..copies(row, capacity)).map(|_| Varisat::new(table)).collect();
        span(|| sides.iter_mut().for_each(|side| (rust.round)(side, calls, row.repeats)))
    }
}

/// Nanoseconds of one call of the library and of varisat.
fn time_row(row: &Row<Table>, table: &Table) -> [f64; 2] {
    let capacity = table.counts().capacity;
    let calls = (row.calls)(capacity);
    let library = Box::new(library_round(row, table, calls, row.repeats));
    let calls = f64::from(row.repeats * copies(row, capacity) * calls);
    let Some(rust) = &row.rust else {
        let [library] = race(BUDGET, [library]);
        return [(library - idle()) / calls, time_rust_simplify(table)];
    };
    same_results(row, table, rust);
    race(BUDGET, [library, Box::new(varisat_round(row, table, rust))]).map(|ns| (ns - idle()) / calls)
}

/// Nanoseconds of one clause in `unit_simplify`, its share of the last loop included.
fn time_rust_simplify(table: &Table) -> f64 {
    let calls = few(table.counts().capacity);
    let clauses: Vec<_> = (0..2048).map(|i| with_false(i % calls).map(measure::lit).to_vec()).collect();
    let round = || {
        let mut side = Bare::new(oracle(table), drive::Format::Text);
        side.set_clauses(&clauses);
        span(|| side.unit_simplify())
    };
    let [least] = race(BUDGET, [Box::new(round)]);
    least / clauses.len() as f64
}

/// Nanoseconds of one call on a table's parts.
fn time_tested(row: &Row<Parts>, table: &Table) -> f64 {
    let capacity = table.counts().capacity;
    let calls = few(capacity);
    let [least] = race(BUDGET, [Box::new(library_round(row, table, calls, 1))]);
    (least - idle()) / f64::from(copies(row, capacity) * calls)
}

/// The least times of each row in four passes over all of them: a slow moment of the machine then falls on no row alone.
fn passes<R, const K: usize>(rows: &[R], times: impl Fn(&R) -> [f64; K]) -> Vec<[f64; K]> {
    let mut least = vec![[f64::INFINITY; K]; rows.len()];
    for _ in 0..4 {
        for (row, least) in rows.iter().zip(&mut least) {
            let times = times(row);
            *least = std::array::from_fn(|k| times[k].min(least[k]));
        }
    }
    least
}

pub fn table(report: &Report) {
    let columns = ["call", "capacity 64", "varisat", "ratio", "4,096", "varisat", "ratio", "goal"];
    report.table("Single calls on a table known to be sound, half full", &columns);
    let rows = rows::<Table>();
    let times = passes(&rows, |row| {
        let [[a, b], [c, d]] = CAPACITIES.map(|capacity| time_row(row, &(row.table)(capacity)));
        [a, b, c, d]
    });
    for (row, [small, varisat_small, large, varisat]) in rows.iter().zip(times) {
        let (goal, most) = if row.name.starts_with("Model") || row.name.starts_with("Observe") { WHOLE } else { SINGLE };
        let goals = [small / varisat_small, large / varisat].map(|ratio| report.goal(goal, ratio, most));
        // both capacities hold it, or the row does not
        let goal = goals.iter().find(|goal| goal.ends_with("missed")).unwrap_or(&goals[0]).clone();
        let ratios = [ratio(small, varisat_small), ratio(large, varisat)];
        let [small, varisat_small, large, varisat] = [small, varisat_small, large, varisat].map(time);
        let [first, second] = ratios;
        report.row(&[row.name.into(), small, varisat_small, first, large, varisat, second, goal]);
    }
    tested(report);
    without_table(report);
}

/// The same calls on the parts of a table: what refusal 1 costs.
fn tested(report: &Report) {
    report.table("The same calls, each with the test for refusal 1", &["call", "capacity 64", "4,096", "of it soundness"]);
    let mut rows = rows::<Parts>();
    rows.extend(tests());
    let times = passes(&rows, |row| {
        let large = (row.table)(4096);
        [time_tested(row, &(row.table)(64)), time_tested(row, &large), sound::cost(&large)]
    });
    for (row, [small, large, sound]) in rows.iter().zip(times) {
        let share = match row.name {
            "Open" => String::from("not tested"),
            _ => format!("{:.0} %", 100.0 * (sound / large).min(1.0)),
        };
        report.row(&[row.name.into(), time(small), time(large), share]);
    }
}
// ---- calls without a table

type Short<'a> = &'a mut dyn FnMut() -> usize;

/// A thousand calls of each side in turn, which answer the same.
fn short_row(report: &Report, name: &str, most: Option<f64>, library: Short, rust: Short) {
    assert_eq!(library(), rust());
    let many = |side: Short| span(|| (0..1000).map(|_| side()).sum::<usize>());
    let [library, rust] = race(BUDGET, [Box::new(|| many(library)), Box::new(|| many(rust))]).map(|ns| ns / 1000.0);
    let goal = most.map_or("none".into(), |most| report.goal(name, library / rust, most));
    report.row(&[name.into(), time(library), time(rust), ratio(library, rust), goal]);
}

/// A short line written, read, and taken off the front, beside the Rust's writer and the plain reader.
fn without_table(report: &Report) {
    report.table("Calls without a table: one line of 3 literals in text", &["call", "library", "Rust", "ratio", "goal"]);
    let (mut bytes, mut vec, mut proof) = ([0; 64], Vec::with_capacity(64), Proof::default());
    let (mut codes, mut ends, mut kinds) = ([Lit::from_code(0); 3], [0; 1], [0; 1]);
    let (all, rust_lits) = (lits([0, 39, 598]), measure::lits([0, 39, 598]));
    let mut write_rust = || {
        vec.clear();
        measure::text_to_vec(&mut vec, false, black_box(&rust_lits));
        vec.len()
    };
    let mut read_rust = || {
        reader::read(Format::Text, black_box(LINE), &mut proof).unwrap();
        proof.codes.len()
    };
    let mut write = || write_clause(Format::Text, false, black_box(&all), 0, 3, &mut bytes, 0).unwrap();
    let mut read = || read(Format::Text, black_box(LINE), &mut codes, &mut ends, &mut kinds).unwrap().lits;
    let mut first = || 3 * (first_step(Format::Text, black_box(LINE)).unwrap().len() + 1 == LINE.len()) as usize;
    short_row(report, "Write clause", None, &mut write, &mut write_rust);
    let mut whole = [0; 64];
    let mut write_whole = || write_proof(Format::Text, black_box(&all), &[3], &[0], &mut whole).unwrap();
    short_row(report, "Write proof, of this line", None, &mut write_whole, &mut write_rust);
    short_row(report, "Read, one line", Some(2.0), &mut read, &mut read_rust);
    short_row(report, "First step, beside reading it whole", None, &mut first, &mut read_rust);
}
