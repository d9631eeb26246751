//! The count of a clause's distinct users: in one pass with marks, beside the plain count.
use std::time::Duration;

use hintzobar::{Global, Lit, Mode, Table, User};

use crate::{
    random::Random,
    report::{time, Report},
    tables,
    timing::{race, span},
};

const BUDGET: Duration = Duration::from_millis(2500);
/// Calls in one round, for clauses that are too short to time singly.
const SHORT: usize = 1000;

/// Every user was mapped and then hidden: the watermark is the capacity, and all are unmapped.
fn unmapped(capacity: u32) -> Table {
    let mut table = tables::open(capacity);
    let mut notes = table.notes();
    table.map(User(capacity - 1), false, &mut notes).unwrap();
    for g in 0..capacity {
        table.set_mode(Global(g), Mode::Hide, &mut notes).unwrap();
    }
    table
}

/// Every user twice, once in each sign, all of them and then all again.
fn twice(users: &[u32]) -> Vec<u32> {
    (0..2).flat_map(|sign| users.iter().map(move |user| 2 * user + sign)).collect()
}

fn time_counts(table: &Table, codes: &[u32]) -> [f64; 2] {
    let lits: Vec<Lit<User>> = codes.iter().map(|&code| Lit::from_code(code)).collect();
    let answer = table.users_to_map(&lits).unwrap();
    assert_eq!(answer, table.users_to_map_plain(&lits).unwrap());
    let calls = if lits.len() < 1000 { SHORT } else { 1 };
    let lits = &lits;
    race(
        BUDGET,
        [
            Box::new(|| span(|| (0..calls).map(|_| table.users_to_map(lits).unwrap().users).sum::<u32>())),
            Box::new(|| span(|| (0..calls).map(|_| table.users_to_map_plain(lits).unwrap().users).sum::<u32>())),
        ],
    )
    .map(|ns| ns / calls as f64)
}

pub fn counts(report: &Report) {
    report.table("The count of distinct users, capacity 4,096", &["literals", "in one pass", "plain", "ratio", "goal"]);
    let n = 4096;
    let (in_order, shuffled) = ((0..n).collect::<Vec<_>>(), Random::new(1).shuffled(n));
    let codes = twice(&in_order);
    let mixed = Random::new(2).shuffled(2 * n);
    let rows = [
        ("8,192, each user twice, in order, all unmapped", codes, unmapped(n), true),
        ("8,192, each user twice, shuffled, all unmapped", mixed, unmapped(n), true),
        ("8,192, one user, unmapped", vec![0; 8192], unmapped(n), false),
        ("8,192, each user twice, shuffled, all granted", twice(&shuffled), tables::full(n), false),
        ("30, shuffled, all unmapped", shuffled[..30].iter().map(|user| 2 * user).collect(), unmapped(n), false),
        ("3, shuffled, all unmapped", shuffled[..3].iter().map(|user| 2 * user).collect(), unmapped(n), false),
    ];
    for (name, codes, table, judged) in rows {
        let [marked, plain] = time_counts(&table, &codes);
        let goal = if judged { report.goal("count of distinct users", marked / plain, 0.1) } else { String::from("none") };
        report.row(&[name.into(), time(marked), time(plain), format!("{:.4}", marked / plain), goal]);
    }
}
