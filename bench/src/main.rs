//! Times the proved library, through the safe crate, against varisat's own functions and plain Rust loops. Both sides of every pair are first
//! seen to give the same; then they run in turn, and the least time of each is taken.
#![deny(missing_docs)]

mod binary;
mod bulk;
#[path = "../../oracle/src/calls.rs"]
mod calls;
mod cnf;
mod codec;
mod growth;
mod lent;
mod plain;
mod random;
mod real;
mod report;
mod session;
mod single;
mod sound;
mod tables;
mod timing;
mod users;

/// A part of the run, and its name on the command line.
type Part = (&'static str, fn(&report::Report));

/// All parts, or those named on the command line.
fn main() {
    let report = report::Report::default();
    let parts: [Part; 12] = [
        ("writers", codec::writers),
        ("readers", codec::readers),
        ("broken", codec::broken_lines),
        ("real", real::proofs),
        ("cnf", cnf::files),
        ("sound", sound::tables),
        ("bulk", bulk::calls),
        ("binary", binary::lists),
        ("users", users::counts),
        ("single", single::table),
        ("session", session::table),
        ("growth", growth::table),
    ];
    let asked: Vec<String> = std::env::args().skip(1).collect();
    for (name, part) in parts {
        if asked.is_empty() || asked.iter().any(|word| word == name) {
            part(&report);
        }
    }
    report.summary();
}
