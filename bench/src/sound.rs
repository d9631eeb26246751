//! Soundness: what refusal 1 costs.
use std::{hint::black_box, time::Duration};

use hintzobar::{Counts, Lists, Parts, Table};

use crate::{
    plain::sound,
    report::{ratio, time, Report},
    tables,
    timing::{race, span},
};

const BUDGET: Duration = Duration::from_millis(300);

/// Nanoseconds of one call of the library, and of the plain loop in its two forms.
fn time_sound(table: &Parts) -> [f64; 3] {
    let (c, l) = (table.counts, &table.lists);
    assert!(table.is_sound() && sound::by_index(c, l) && sound::by_iterators(c, l));
    let calls = 100_000 / c.capacity;
    let spans = race(
        BUDGET,
        [
            Box::new(|| span(|| (0..calls).filter(|_| black_box(table).is_sound()).count())),
            Box::new(|| span(|| (0..calls).filter(|_| sound::by_index(c, black_box(l))).count())),
            Box::new(|| span(|| (0..calls).filter(|_| sound::by_iterators(c, black_box(l))).count())),
        ],
    );
    spans.map(|ns| ns / f64::from(calls))
}

/// All three say the same.
fn same_answer(c: Counts, lists: &Lists) {
    let plain = sound::by_index(c, lists);
    assert_eq!(plain, sound::by_iterators(c, lists));
    assert_eq!(plain, Parts { counts: c, lists: lists.clone() }.is_sound());
}

/// Each word of each list spoilt in turn, with the stored numbers as they were and counted anew; and each stored number.
fn same_answers(table: &Table) {
    let c = table.counts();
    for number in (0..c.capacity + 2).chain([u32::MAX]) {
        same_answer(Counts { used: number, ..c }, table.lists());
        same_answer(Counts { next: number, ..c }, table.lists());
    }
    for list in 0..6 {
        for place in 0..c.capacity as usize {
            for word in [0, 1, 2, 9, 47, 72] {
                let mut lists = table.lists().clone();
                let words = match list {
                    0 => &mut lists.global_from_user,
                    1 => &mut lists.user_from_global,
                    2 => &mut lists.solver_from_global,
                    3 => &mut lists.global_from_solver,
                    4 => &mut lists.assignment,
                    _ => &mut lists.records,
                };
                words[place] = word;
                same_answer(c, &lists);
                same_answer(c.recounted(&lists), &lists);
            }
        }
    }
}

/// A table of each capacity, and what it is called.
type Shape = (&'static str, fn(u32) -> Table);

pub fn tables(report: &Report) {
    same_answers(&tables::half(64));
    same_answers(&tables::shuffled(64));
    let columns = ["table", "capacity", "library", "plain loop by index", "ratio", "by iterators", "ratio", "goal"];
    report.table("Soundness, one call", &columns);
    let shapes: [Shape; 4] =
        [("open", tables::open), ("half", tables::half), ("full", tables::full), ("shuffled", tables::shuffled)];
    for (name, shape) in shapes {
        for capacity in [64, 512, 4096] {
            let [library, index, iterators] = time_sound(shape(capacity).parts());
            let goal = match name {
                "full" | "shuffled" => report.goal("soundness, full table", library / index.min(iterators), 1.0),
                _ => String::from("none"),
            };
            let [first, second] = [index, iterators].map(|plain| ratio(library, plain));
            let [library, index, iterators] = [library, index, iterators].map(time);
            report.row(&[name.into(), capacity.to_string(), library, index, first, iterators, second, goal]);
        }
    }
}

/// Nanoseconds of the soundness test of one table, in a short run.
pub fn cost(table: &Table) -> f64 {
    let calls = 100_000 / table.counts().capacity;
    let round = || span(|| (0..calls).filter(|_| black_box(table.parts()).is_sound()).count());
    let [least] = race(BUDGET / 10, [Box::new(round)]);
    least / f64::from(calls)
}
