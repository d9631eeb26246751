//! Binary clauses before the sweep, beside varisat's `simplify_binary` on the same lists. The library tests that every entry has its mirror;
//! varisat's lists are made so that each has one, and nothing is tested there. So there is no goal.
use std::time::Duration;

use hintzobar::{Format, Lit, Solver, Table, Thinned};
use varisat_unchanged::drive::{
    self,
    measure::{self, Bare},
};

use crate::{
    bulk::oracle,
    random::Random,
    report::{ratio, time, Report},
    tables,
    timing::{race, span, Side},
};

const BUDGET: Duration = Duration::from_millis(1500);

/// Clauses, as codes.
type Pairs = Vec<[u32; 2]>;

/// A table that is full, with a value for every other index on average; the first two have none.
fn half_valued(capacity: u32) -> Table {
    let mut random = Random::new(7);
    tables::changed(&tables::full(capacity), |lists| {
        lists.assignment.iter_mut().for_each(|word| *word = random.below(2) * (1 + random.below(2)));
        lists.assignment[..2].fill(0);
    })
}

fn random_pairs(count: usize, capacity: u32) -> Pairs {
    let mut random = Random::new(count as u64);
    (0..count).map(|_| [0; 2].map(|_| random.below(2 * capacity))).collect()
}

/// A literal with so many others in turn.
fn star(centre: u32, count: u32) -> Pairs {
    (4..4 + count).map(|code| [centre, code]).collect()
}

/// A table, its lists, and memory to fill.
struct Case {
    table: Table,
    pairs: Pairs,
    lists: Vec<u32>,
    out: Vec<u32>,
    proof: Vec<u8>,
}

impl Case {
    fn new(capacity: u32, pairs: Pairs) -> Case {
        let table = half_valued(capacity);
        let clauses: Vec<[Lit<Solver>; 2]> = pairs.iter().map(|pair| pair.map(Lit::from_code)).collect();
        let lists = table.binary_lists(&clauses).unwrap();
        let (out, proof) = (vec![0; lists.len()], vec![0; 8 * lists.len()]);
        let mut case = Case { table, pairs, lists, out, proof };
        case.same_results();
        case
    }

    fn library(&mut self, format: Format) -> Thinned {
        self.table.simplify_binary(format, &self.lists, &mut self.out, &mut self.proof).unwrap()
    }

    /// Lists left, half count and bytes, in both formats.
    fn same_results(&mut self) {
        for (format, rust) in [(Format::Text, drive::Format::Text), (Format::Binary, drive::Format::Binary)] {
            let thinned = self.library(format);
            let varisat = oracle(&self.table).simplify_binary(&self.lists, rust);
            assert!(self.out[..thinned.words] == varisat.words && self.proof[..thinned.bytes] == varisat.bytes);
            assert_eq!(thinned.half, varisat.count);
        }
    }

    /// Nanoseconds of the library and of varisat, in text. Varisat's lists are made anew for each round.
    fn time(&mut self) -> [f64; 2] {
        let clauses: Vec<_> = self.pairs.iter().map(|pair| pair.map(measure::lit)).collect();
        let mut side = Bare::new(oracle(&self.table), drive::Format::Text);
        let varisat = || {
            side.set_binary(&clauses);
            span(|| side.simplify_binary())
        };
        race(BUDGET, [Box::new(|| span(|| self.library(Format::Text))), Box::new(varisat)])
    }
}

/// Two stars whose sections are shuffled, so that no additions make these lists: each entry is counted, and so is its mirror. Varisat can
/// have no such lists.
fn crossed(report: &Report) {
    let mut case = Case::new(4096, [star(0, 4000), star(2, 4000)].concat());
    let half = case.library(Format::Text).half;
    let (mut random, mut at) = (Random::new(3), 0);
    while at < case.lists.len() {
        let section = at + 1..at + 1 + case.lists[at] as usize;
        let entries = case.lists[section.clone()].to_vec();
        let places = random.shuffled(entries.len() as u32);
        case.lists[section.clone()].iter_mut().zip(places).for_each(|(word, place)| *word = entries[place as usize]);
        at = section.end;
    }
    assert_eq!(case.library(Format::Text).half, half);
    let [library] = race(BUDGET, [Box::new(|| span(|| case.library(Format::Text)))]);
    let name = String::from("two stars of 4,000 pairs, shuffled");
    let none = || String::from("none");
    report.row(&[name, String::from("4096"), time(library), none(), String::new(), none()]);
}

/// How the time grows with a star, at a capacity that grows along: nanoseconds a pair.
fn growth(report: &Report) {
    report.table(
        "Binary clauses, growth with a star, nanoseconds a pair",
        &["call", "1,000", "2,000", "4,000", "8,000", "8,000 to 1,000"],
    );
    let sides = [1, 2, 4, 8].map(|k| -> Side {
        let mut case = Case::new(512 * k, star(0, 1000 * k));
        Box::new(move || span(|| (0..8 / k).map(|_| case.library(Format::Text).words).sum::<usize>()))
    });
    let times = race(BUDGET, sides).map(|ns| ns / 8000.0);
    let mut cells = vec![String::from("Binary, a star")];
    cells.extend(times.iter().map(|ns| format!("{ns:.2}")));
    cells.push(format!("{:.2}", times[3] / times[0]));
    report.row(&cells);
}

pub fn lists(report: &Report) {
    let columns = ["lists", "capacity", "library", "varisat", "ratio", "goal"];
    report.table("Binary clauses, half of the indices with a value", &columns);
    let rows = [
        ("4,096 random pairs", 4096, random_pairs(4096, 4096)),
        ("100,000 random pairs", 4096, random_pairs(100_000, 4096)),
        ("a star of 8,000 pairs", 4096, star(0, 8000)),
        ("no pairs", 4096, vec![]),
        ("200 random pairs", 64, random_pairs(200, 64)),
    ];
    for (name, capacity, pairs) in rows {
        let mut case = Case::new(capacity, pairs);
        let [library, varisat] = case.time();
        let goal = String::from("none: varisat tests no mirrors");
        report.row(&[name.into(), capacity.to_string(), time(library), time(varisat), ratio(library, varisat), goal]);
    }
    crossed(report);
    growth(report);
}
