//! Proofs of real solvers (proofs/README.md). Neighbouring literals are alike there, in length and in sign, so that branches on them are
//! foreseen more often than with random literals. Each proof is repeated until it fills 1 MB.
use hintzobar::{Format, Lit};

use crate::{
    codec::{broken_rows, library_whole, rust_whole, time_readers, time_writers, Clauses, FORMATS},
    plain::reader::{self, Proof},
    report::{ratio, time, Report},
};

const PROOFS: [(&str, &str, &[u8]); 6] = [
    ("adder, 56 bits", "CaDiCaL", include_bytes!("../proofs/adder-56-cadical.drat")),
    ("adder, 32 bits", "z3", include_bytes!("../proofs/adder-32-z3.drat")),
    ("parity of 40", "CaDiCaL", include_bytes!("../proofs/parity-40-cadical.drat")),
    ("parity of 28", "z3", include_bytes!("../proofs/parity-28-z3.drat")),
    ("pigeonhole 7", "CaDiCaL", include_bytes!("../proofs/pigeonhole-7-cadical.drat")),
    ("pigeonhole 7", "z3", include_bytes!("../proofs/pigeonhole-7-z3.drat")),
];

/// A proof's name, who made it, and its bytes in binary.
type Input = (String, &'static str, Vec<u8>);

/// Each proof, all of them one after another, and those given on the command line. A processor learns the branches of a proof that comes again
/// and again, the fewer bytes it has the better, and there the plain reader gains: so the long ones count more.
fn inputs() -> Vec<Input> {
    let mut inputs: Vec<Input> = PROOFS.iter().map(|&(proof, solver, file)| (proof.into(), solver, file.to_vec())).collect();
    inputs.push(("all six in turn".into(), "both", PROOFS.map(|(_, _, file)| file).concat()));
    for path in std::env::args().filter(|word| word.ends_with(".drat")) {
        let file = std::fs::read(&path).unwrap_or_else(|error| panic!("{path}: {error}"));
        inputs.push((path, "given", file));
    }
    inputs
}

/// The proof over and over, in this format, until there is 1 MB.
fn repeated(format: Format, file: &[u8]) -> Clauses {
    let mut proof = Proof::default();
    reader::read(Format::Binary, file, &mut proof).unwrap_or_else(|place| panic!("the step at byte {place} is not whole"));
    assert!(!proof.ends.is_empty(), "a proof of no steps");
    let lits: Vec<_> = proof.codes.iter().map(|&code| Lit::from_code(code)).collect();
    let starts = std::iter::once(&0).chain(&proof.ends);
    let steps = starts.zip(&proof.ends).map(|(&a, &b)| &lits[a as usize..b as usize]).zip(&proof.kinds);
    let mut all = Clauses::none(format);
    for (clause, &kind) in steps.cycle() {
        if all.full() {
            break;
        }
        all.push(clause, kind == 1);
    }
    all.finish()
}

pub fn proofs(report: &Report) {
    report.table(
        "Reader, proofs of real solvers, 1 MB",
        &["proof", "solver", "format", "library", "plain reader", "ratio", "goal"],
    );
    for (format, name, _) in FORMATS {
        for (proof, solver, file) in inputs() {
            let bytes = repeated(format, &file).bytes();
            let [library, plain] = time_readers(format, &bytes);
            let goal = report.goal(&format!("reader, {name}, real proofs"), library / plain, 1.0);
            report.row(&[proof, solver.into(), name.into(), time(library), time(plain), ratio(library, plain), goal]);
        }
    }
    let columns = ["proof", "solver", "between tokens", "library", "plain reader", "ratio", "goal"];
    report.table("Reader, proofs of real solvers, text of 1 MB with its lines broken at random separators", &columns);
    for (proof, solver, file) in inputs() {
        broken_rows(report, &[proof, solver.into()], &repeated(Format::Text, &file).bytes());
    }
    let columns = ["proof", "solver", "format", "library, ns a literal", "Rust", "ratio", "goal", "Rust to a `Vec`", "ratio"];
    report.table("Writer, proofs of real solvers, 1 MB in one call", &columns);
    for (format, name, most) in FORMATS {
        for (proof, solver, file) in inputs() {
            let all = repeated(format, &file);
            let times = time_writers(&all, library_whole, rust_whole).map(|ns| ns / all.lits.len() as f64);
            let goal = report.goal(&format!("writer, {name}, real proofs"), times[0] / times[1], most);
            let [library, rust, vec] = times.map(|ns| format!("{ns:.2}"));
            let ratios = [1, 2].map(|side| ratio(times[0], times[side]));
            let [first, second] = ratios;
            report.row(&[proof, solver.into(), name.into(), library, rust, first, goal, vec, second]);
        }
    }
}
