//! A session as a solver makes it: the same calls in turn on a table that is known to be sound, and on varisat. The calls are drawn beforehand; the
//! oracle compares the same session.
use std::time::Duration;

use hintzobar::{Format, Global, Lit, Lits, Mark, Mode, Solver, Step, Table, User};
use varisat_unchanged::drive::{
    self,
    measure::{self, Bare},
    session::{self, Call},
    Oracle,
};

use crate::{
    lent::Lent,
    report::{ratio, time, Report},
    tables,
    timing::{race, span},
};

const BUDGET: Duration = Duration::from_secs(4);
const CALLS: usize = 1_000_000;

/// What the calls answer, summed up so that no answer is left out.
fn library(calls: &[Call], table: &mut Table, lent: &mut Lent) -> u64 {
    calls.iter().fold(0, |sum, &call| sum.wrapping_add(u64::from(library_call(call, table, lent))))
}

fn library_call(call: Call, t: &mut Table, lent: &mut Lent) -> u32 {
    let word = |index: Option<u32>| index.map_or(0, |index| index + 1);
    let notes = &mut lent.notes;
    let step = Step::AtClause(true);
    match call {
        Call::Lookup(0, user) => word(t.global_from_user(User(user)).map(|global| global.0)),
        Call::Lookup(1, global) => word(t.user_from_global(Global(global)).map(|user| user.0)),
        Call::Lookup(2, global) => word(t.solver_from_global(Global(global)).map(|solver| solver.0)),
        Call::Lookup(_, solver) => word(t.global_from_solver(Solver(solver)).map(|global| global.0)),
        Call::Record(global) => t.record(Global(global)).map_or(0, |record| record / 9 % 2),
        Call::Value(solver) => t.assignment(Solver(solver)).unwrap_or(0),
        Call::Map(user) => t.map(User(user), false, notes).unwrap().0,
        Call::NewUser => t.new_user(notes).unwrap().0 .0,
        Call::Pose(codes) => {
            t.pose(&codes.map(Lit::from_code), false, &mut lent.solver_lits, notes).unwrap();
            lent.solver_lits[0].code()
        }
        Call::Grant(global) => t.grant(Global(global), notes).unwrap().0,
        Call::SetMode(global, mode) => {
            let mode = [Mode::Sample, Mode::Witness, Mode::Hide][mode as usize];
            word(t.set_mode(Global(global), mode, notes).unwrap().map(|user| user.0))
        }
        Call::Observe => t.observe(&mut lent.users, notes).unwrap() as u32,
        Call::Used(solver) => done(t.mark(Mark::Used, Solver(solver))),
        Call::Assumed(solver, true) => done(t.mark(Mark::Assumed, Solver(solver))),
        Call::Assumed(solver, false) => done(t.mark(Mark::Released, Solver(solver))),
        Call::Assign(code) => done(t.assign(Lit::from_code(code))),
        Call::Remove(solver) => done(t.remove(Solver(solver), notes)),
        Call::Sweep => done(t.sweep(notes)),
        Call::Rename(codes) => {
            let lits = codes.map(Lit::from_code);
            t.rename(step, Lits::Solver(&lits), &[], &mut lent.global_lits, &mut []).unwrap().lits as u32
        }
        Call::Write(codes) => {
            let lits = codes.map(Lit::from_code);
            t.write(Format::Text, step, Lits::Solver(&lits), &[], &mut lent.bytes).unwrap();
            0
        }
        Call::Model => t.model(&mut lent.words, &mut lent.user_lits).unwrap().1 as u32,
    }
}

fn done(answer: Result<(), hintzobar::Refusal>) -> u32 {
    answer.unwrap();
    0
}

fn varisat(calls: &[Call], side: &mut Bare, lits: &mut Vec<measure::Lit>) -> u64 {
    calls.iter().fold(0, |sum, &call| sum.wrapping_add(u64::from(varisat_call(call, side, lits))))
}

fn varisat_call(call: Call, r: &mut Bare, lits: &mut Vec<measure::Lit>) -> u32 {
    let word = |var: Option<measure::Var>| var.map_or(0, |var| var.index() as u32 + 1);
    match call {
        Call::Lookup(0, user) => word(r.global_from_user(user)),
        Call::Lookup(1, global) => word(r.user_from_global(global)),
        Call::Lookup(2, global) => word(r.solver_from_global(global)),
        Call::Lookup(_, solver) => word(r.global_from_solver(solver)),
        Call::Record(global) => r.isolated(global) as u32,
        Call::Value(solver) => r.value(solver).map_or(0, |value| 1 + value as u32),
        Call::Map(user) => r.map(user).index() as u32,
        Call::NewUser => r.new_user().index() as u32,
        Call::Pose(codes) => {
            r.pose(lits, &codes.map(measure::lit));
            lits[0].code() as u32
        }
        Call::Grant(global) => r.grant(global).index() as u32,
        Call::SetMode(global, mode) => word(r.set_mode(global, mode)),
        Call::Observe => r.observe().len() as u32,
        Call::Rename(codes) => r.rename(&codes.map(measure::lit)) as u32,
        Call::Model => r.model().len() as u32,
        _ => {
            varisat_change(call, r);
            0
        }
    }
}

/// The calls that answer nothing.
#[inline(always)]
fn varisat_change(call: Call, r: &mut Bare) {
    match call {
        Call::Used(solver) => r.used(solver),
        Call::Assumed(solver, set) => r.assumed(solver, set),
        Call::Assign(code) => r.assign(code),
        Call::Remove(solver) => r.remove(solver),
        Call::Sweep => r.unit_simplify(),
        Call::Write(codes) => r.write(&codes.map(measure::lit)),
        _ => unreachable!("{call:?}"),
    }
}

fn bare() -> Bare {
    Bare::new(Oracle::unrecorded(), drive::Format::Text)
}

/// Every answer, and the table in the end.
fn same_results(capacity: u32, calls: &[Call]) {
    let (mut table, mut side, mut lits) = (tables::open(capacity), bare(), vec![]);
    let mut lent = Lent::new(&table);
    for &call in calls {
        assert_eq!(library_call(call, &mut table, &mut lent), varisat_call(call, &mut side, &mut lits), "{call:?}");
    }
    assert_eq!(tables::state(&table), side.state());
}

pub fn table(report: &Report) {
    report.table("A session of 1,000,000 mixed calls, for each call", &["capacity", "library", "varisat", "ratio", "goal"]);
    for capacity in [64, 4096] {
        let calls = session::calls(capacity, CALLS, 1);
        same_results(capacity, &calls);
        let mut lent = Lent::new(&tables::open(capacity));
        let mut lits = vec![];
        let spans = race(
            BUDGET,
            [
                Box::new(|| {
                    let mut table = tables::open(capacity);
                    span(|| library(&calls, &mut table, &mut lent))
                }),
                Box::new(|| {
                    let mut side = bare();
                    span(|| varisat(&calls, &mut side, &mut lits))
                }),
            ],
        );
        let [library, varisat] = spans.map(|ns| ns / CALLS as f64);
        let goal = report.goal("session", library / varisat, 2.0);
        report.row(&[capacity.to_string(), time(library), time(varisat), ratio(library, varisat), goal]);
    }
}
