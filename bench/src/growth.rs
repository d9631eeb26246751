//! How the time grows with the capacity: at each, as many tables as make 4,096 indices, so that the same number is done in each round.
use std::time::Duration;

use hintzobar::Table;

use crate::{
    bulk::{both_signs, half_hidden, idle, library, same_results, Call},
    lent::Lent,
    report::Report,
    tables,
    timing::{race, span, Side},
};

const BUDGET: Duration = Duration::from_millis(2500);
const CAPACITIES: [u32; 7] = [64, 128, 256, 512, 1024, 2048, 4096];

/// Nanoseconds for each index, at each capacity.
fn time_growth(call: fn(u32) -> Option<Call>, start: fn(u32) -> Table) -> [f64; 7] {
    let sides = CAPACITIES.map(|capacity| -> Side {
        let (call, table) = (call(capacity), start(capacity));
        if let Some(call) = &call {
            same_results(call, &table);
        }
        let mut lent = Lent::new(&table);
        Box::new(move || {
            let mut tables = vec![table.clone(); (4096 / capacity) as usize];
            span(|| {
                tables.iter_mut().for_each(|table| match &call {
                    Some(call) => drop(library(call, table, &mut lent)),
                    None => assert!(table.parts().is_sound()),
                });
            })
        })
    });
    race(BUDGET, sides).map(|ns| ns / 4096.0)
}

/// A row's name, its call at each capacity, and the table that it starts from.
type Row = (&'static str, fn(u32) -> Option<Call>, fn(u32) -> Table);

pub fn table(report: &Report) {
    let mut columns = vec!["call", "64", "128", "256", "512", "1,024", "2,048", "4,096"];
    columns.extend(["4,096 to 64", "goal"]);
    report.table("Growth, nanoseconds for each index of the capacity", &columns);
    let rows: [Row; 8] = [
        ("Soundness, full", |_| None, tables::full),
        ("Soundness, shuffled", |_| None, tables::shuffled),
        ("Map with a gap to the capacity", |n| Some(Call::Map(n - 1)), tables::open),
        ("Pose, two literals for each index", |n| Some(both_signs(0..n)), tables::open),
        ("Pose, all granted", |n| Some(both_signs(0..n)), tables::full),
        ("Observe half", |_| Some(Call::Observe), half_hidden),
        ("Sweep, all removed", |_| Some(Call::Sweep), idle),
        ("Model, full", |_| Some(Call::Model), tables::full),
    ];
    for (name, call, start) in rows {
        let times = time_growth(call, start);
        let growth = times[6] / times[0];
        let mut cells = vec![name.to_string()];
        cells.extend(times.iter().map(|ns| format!("{ns:.2}")));
        cells.extend([format!("{growth:.2}"), report.goal("growth", growth, 1.2)]);
        report.row(&cells);
    }
}
