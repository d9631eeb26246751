//! CNF files of 1 MB, written and read: random clauses, and formulas on adders, parity and pigeonholes (proofs/README.md).
use std::{
    io::{self, Write},
    time::Duration,
};

use hintzobar::{Global, Lit, Refusal};
use varisat_unchanged::drive::measure::{self, Target};

use crate::{
    codec::Kept,
    plain::cnf::{self as plain, Cnf},
    random::Random,
    report::{ratio, time, Report},
    timing::{race, span},
};

const BUDGET: Duration = Duration::from_millis(900);
const MEGABYTE: usize = 1 << 20;
const NAMES: u32 = 4096;

const FORMULAS: [(&str, &[u8]); 3] = [
    ("adder, 24 bits", include_bytes!("../proofs/adder-24.cnf")),
    ("parity of 64", include_bytes!("../proofs/parity-64.cnf")),
    ("pigeonhole 9", include_bytes!("../proofs/pigeonhole-9.cnf")),
];

/// Clauses one after another, as each side takes them.
#[derive(Default)]
struct Clauses {
    lits: Vec<Lit<Global>>,
    ends: Vec<u64>,
    rust_lits: Vec<measure::Lit>,
    parts: Vec<(usize, usize, bool)>,
    /// How many bytes their lines take.
    length: usize,
}

impl Clauses {
    fn full(&self) -> bool {
        self.length >= MEGABYTE
    }

    fn push(&mut self, clause: impl Iterator<Item = Lit<Global>>) {
        let start = self.lits.len();
        for lit in clause {
            self.length += lit.to_string().len() + 1;
            self.lits.push(lit);
        }
        self.length += 2;
        self.ends.push(self.lits.len() as u64);
        self.parts.push((start, self.lits.len(), false));
    }

    fn finish(mut self) -> Clauses {
        self.rust_lits = measure::lits(self.lits.iter().map(|lit| lit.code()));
        self
    }

    fn file(&self) -> Vec<u8> {
        let mut file = vec![];
        plain::write(&self.lits, &self.ends, &mut file);
        file
    }
}

// ---- the formulas

/// Clauses of this many literals under random names.
fn random(length: usize, names: u32) -> Clauses {
    let mut random = Random::new(length as u64);
    let mut all = Clauses::default();
    while !all.full() {
        let clause: Vec<_> = (0..length).map(|_| Lit::from_code(random.below(2 * names))).collect();
        all.push(clause.into_iter());
    }
    all.finish()
}

/// Copies of the formulas, one after another, each under names of its own, while there are any; then from the first name on again. So the
/// numbers are as wide as those of one large formula, and neighbours are as alike.
fn copies(files: &[&[u8]]) -> Clauses {
    let mut all = Clauses::default();
    let mut first = 0;
    for file in files.iter().cycle() {
        let mut cnf = Cnf::default();
        plain::read(file, &mut cnf).unwrap_or_else(|place| panic!("the line at byte {place} is wrong"));
        assert!(!cnf.ends.is_empty(), "a formula of no clauses");
        if first + cnf.variables > NAMES {
            first = 0;
        }
        let mut start = 0;
        for &end in &cnf.ends {
            if all.full() {
                return all.finish();
            }
            all.push(cnf.codes[start..end as usize].iter().map(|code| Lit::from_code(code + 2 * first)));
            start = end as usize;
        }
        first += cnf.variables;
    }
    all
}

/// Clauses with a name, and the number of names that they are drawn from.
fn inputs() -> Vec<(String, String, Clauses)> {
    let mut inputs = vec![];
    for length in [3, 30] {
        for names in [NAMES, 60] {
            inputs.push((format!("random, {length} literals"), names.to_string(), random(length, names)));
        }
    }
    for (name, file) in FORMULAS {
        inputs.push((name.into(), String::new(), copies(&[file])));
    }
    inputs.push(("all three in turn".into(), String::new(), copies(&FORMULAS.map(|(_, file)| file))));
    for path in std::env::args().filter(|word| word.ends_with(".cnf")) {
        let file = std::fs::read(&path).unwrap_or_else(|error| panic!("{path}: {error}"));
        inputs.push((path, String::new(), copies(&[&file])));
    }
    for (_, names, all) in &mut inputs {
        if names.is_empty() {
            *names = all.lits.iter().map(|lit| lit.code() / 2 + 1).max().unwrap_or(0).to_string();
        }
    }
    inputs
}

// ---- the writers

#[inline(never)]
fn library_write(all: &Clauses, out: &mut [u8]) -> usize {
    hintzobar::write_cnf(&all.lits, &all.ends, out).unwrap()
}

fn rust_header(all: &Clauses, target: &mut impl Write) {
    let largest = all.rust_lits.iter().map(|lit| lit.index() + 1).max().unwrap_or(0);
    writeln!(target, "p cnf {} {}", largest, all.parts.len()).unwrap();
}

/// The lines are those of added clauses in varisat's text format.
fn rust_write(all: &Clauses, target: &mut Target) {
    rust_header(all, target);
    measure::proof(measure::Format::Text, target, &all.rust_lits, &all.parts);
}

fn rust_write_vec(all: &Clauses, file: &mut Vec<u8>) {
    rust_header(all, file);
    measure::proof_to_vec(measure::Format::Text, file, &all.rust_lits, &all.parts);
}

/// Nanoseconds of the library, of varisat's writer to its own target and to a `Vec`, and of the plain loop. All write the same bytes.
fn time_writers(all: &Clauses) -> [f64; 4] {
    let want = all.file();
    let mut out = vec![0; 6 * all.lits.len() + 2 * all.ends.len() + 32];
    let kept = Kept::default();
    let mut target: Target = io::BufWriter::new(Box::new(kept.clone()));
    let (mut vec, mut loop_vec) = (vec![], vec![]);
    let length = library_write(all, &mut out);
    rust_write(all, &mut target);
    rust_write_vec(all, &mut vec);
    assert!(out[..length] == want[..] && kept.0.borrow()[..] == want[..] && vec == want);
    race(
        BUDGET,
        [
            Box::new(|| span(|| library_write(all, &mut out))),
            Box::new(|| {
                kept.0.borrow_mut().clear();
                span(|| rust_write(all, &mut target))
            }),
            Box::new(|| {
                vec.clear();
                span(|| rust_write_vec(all, &mut vec))
            }),
            Box::new(|| {
                loop_vec.clear();
                span(|| plain::write(&all.lits, &all.ends, &mut loop_vec))
            }),
        ],
    )
}

fn writers(report: &Report, inputs: &[(String, String, Clauses)]) {
    let columns =
        ["clauses", "names", "library, ns a literal", "Rust", "ratio", "goal", "Rust to a `Vec`", "ratio", "plain loop", "ratio"];
    report.table("CNF writer, 1 MB", &columns);
    for (name, names, all) in inputs {
        let times = time_writers(all).map(|ns| ns / all.lits.len() as f64);
        let goal = report.goal("CNF writer", times[0] / times[1], 0.8);
        let [library, rust, vec, plain] = times.map(|ns| format!("{ns:.2}"));
        let [first, second, third] = [1, 2, 3].map(|side| ratio(times[0], times[side]));
        report.row(&[name.clone(), names.clone(), library, rust, first, goal, vec, second, plain, third]);
    }
}

// ---- the readers

/// Memory that the library fills.
struct Lent {
    lits: Vec<Lit<Global>>,
    ends: Vec<u64>,
}

/// Both readers give the same words, or refuse at the same place.
fn same_reading(file: &[u8], lent: &mut Lent, cnf: &mut Cnf) {
    let library = hintzobar::read_cnf(file, &mut lent.lits, &mut lent.ends);
    match plain::read(file, cnf) {
        Ok(()) => {
            let read = library.unwrap();
            assert_eq!((read.variables, read.lits, read.clauses), (cnf.variables, cnf.codes.len(), cnf.ends.len()));
            assert!(lent.lits[..read.lits].iter().map(|lit| lit.code()).eq(cnf.codes.iter().copied()));
            assert!(lent.ends[..read.clauses] == cnf.ends[..]);
        }
        Err(place) => assert_eq!(library, Err(Refusal::BadCnf(place))),
    }
}

fn time_readers(file: &[u8]) -> [f64; 2] {
    let mut lent = Lent { lits: vec![Lit::from_code(0); file.len() / 2], ends: vec![0; file.len() / 2] };
    let mut cnf = Cnf::default();
    same_reading(file, &mut lent, &mut cnf);
    race(
        BUDGET,
        [
            Box::new(|| span(|| hintzobar::read_cnf(file, &mut lent.lits, &mut lent.ends))),
            Box::new(|| span(|| plain::read(file, &mut cnf))),
        ],
    )
}

/// The file with one byte spoilt.
fn spoilt(file: &[u8], at: usize) -> Vec<u8> {
    let mut file = file.to_vec();
    file[at] = b'x';
    file
}

/// The file with a clause more than its header says.
fn miscounted(file: &[u8]) -> Vec<u8> {
    [file, b"0\n"].concat()
}

fn read_rows(report: &Report, name: &str, names: &str, file: &[u8], refused: bool) {
    let files = [
        ("whole", file.to_vec()),
        ("a clause too many", miscounted(file)),
        ("cut at the end", file[..file.len() - 1].to_vec()),
        ("a bad byte in the middle", spoilt(file, file.len() / 2)),
        ("a bad byte at 1 %", spoilt(file, file.len() / 100)),
    ];
    for (input, file) in files.iter().take(if refused { files.len() } else { 1 }) {
        let [library, plain] = time_readers(file);
        let goal = match *input {
            "whole" => report.goal("CNF reader", library / plain, 1.0),
            _ => String::from("none"),
        };
        let cells = [name, names, input, &time(library), &time(plain), &ratio(library, plain), &goal];
        report.row(&cells.map(String::from));
    }
}

pub fn files(report: &Report) {
    let inputs = inputs();
    writers(report, &inputs);
    report.table("CNF reader, 1 MB", &["clauses", "names", "input", "library", "plain reader", "ratio", "goal"]);
    for (name, names, all) in &inputs {
        read_rows(report, name, names, &all.file(), name == "random, 3 literals" && names == "4096");
    }
}
