//! Compares document 01's calls: varisat's own functions, a plain reading of the document, and the proved library.
#![deny(missing_docs)]

mod call;
#[cfg(feature = "library")]
mod calls;
mod cnf;
mod compare;
mod ledger;
#[cfg(feature = "library")]
mod library;
mod lists;
mod pinned;
mod random;
mod reachable;
mod reading;
mod record;
mod run;

use std::{env, panic, process, time::Instant};

use compare::Tally;
use random::Rng;

const USAGE: &str = "usage: oracle sample [SEED]        about a minute of everything
       oracle calls N [SEED]       N calls in random sessions
       oracle session N [SEED]     N calls of the session that the benchmarks time, at capacity 4,096
       oracle binary N [SEED]      N lists of binary clauses on random sound tables
       oracle dimacs N [SEED]      N CNF files read, N written from clauses, every small one
       oracle reachable            every reachable table of capacity 1 and 2, every table of capacity 1
       oracle record [SEED]        the recorded list that crates/replay replays, to standard output";

fn sample(seed: u64, tally: &mut Tally) -> run::Verdict<()> {
    let mut rng = Rng::new(seed);
    let tables = reachable::walk(1, 1, tally).map_err(run::told)?;
    println!("capacity 1: {} reachable tables", tables);
    run::sessions(&mut rng, 5_000_000, tally)?;
    // the session that the benchmarks time at capacity 4,096, its first calls, and all of a small one
    run::solver_session(4096, 20_000, 1, tally)?;
    run::solver_session(64, 100_000, seed, tally)?;
    binary(&mut rng, 400_000, tally)?;
    let [unsound, miscounted] = run::damaged(&mut rng, 200_000, tally)?;
    println!("200000 damaged tables, {} of them unsound, {} of these by their stored numbers alone", unsound, miscounted);
    let opened = run::opens(&mut rng, 20_000)?;
    println!("20000 Opens, {} accepted", opened);
    let by = run::proofs(&mut rng, 1_000_000)?;
    println!("1000000 proofs read: {} whole, {} with too little room, {} broken", by[0], by[1], by[2]);
    let by = run::writes(&mut rng, 1_000_000)?;
    println!("1000000 proofs written from lists: {} whole, {} no proof, {} with too little room", by[0], by[1], by[2]);
    dimacs(&mut rng, 500_000)
}

/// CNF files: varisat's files have no part in these.
fn dimacs(rng: &mut Rng, times: u64) -> run::Verdict<()> {
    let by = cnf::small()?;
    println!("{} small CNF files: {} right, {} wrong", by.iter().sum::<u64>(), by[0], by[1]);
    let by = cnf::reads(rng, times)?;
    println!("{} CNF files read: {} right, {} wrong, {} with too little room", times, by[0], by[1], by[2]);
    let by = cnf::writes(rng, times)?;
    println!("{} CNF files written from clauses: {} whole, {} no clauses, {} with too little room", times, by[0], by[1], by[2]);
    Ok(())
}

fn binary(rng: &mut Rng, calls: u64, tally: &mut Tally) -> run::Verdict<()> {
    let [accepted, compared] = run::binaries(rng, calls, tally)?;
    println!("{} lists of binary clauses, {} accepted, {} of these answered by varisat too", calls, accepted, compared);
    Ok(())
}

fn reachable(tally: &mut Tally) -> run::Verdict<()> {
    let sound = reachable::tables_of_one(tally).map_err(run::told)?;
    println!("capacity 1: {} sound tables", sound);
    for capacity in 1..=2 {
        let tables = reachable::walk(capacity, 16, tally).map_err(run::told)?;
        println!("capacity {}: {} reachable tables", capacity, tables);
    }
    Ok(())
}

/// The list to standard output, a summary to standard error.
fn record(seed: u64) -> ! {
    match record::list(seed) {
        Ok(list) => {
            print!("{}", list.text);
            eprint!("{}", record::summary(&list));
            process::exit(0)
        }
        Err(what) => {
            eprintln!("NO LIST\n{}", what);
            process::exit(1)
        }
    }
}

fn told(tally: &Tally) {
    tally.print();
    println!("{} sessions, {} clause steps read back", tally.sessions, tally.steps_read);
    println!(
        "{} calls, {} of them answered by varisat too, {} panics of varisat on refused calls",
        tally.calls, tally.compared, tally.panics
    );
    println!(
        "{} removals of assumed indices, all refused (16): varisat would make them and is not run on them",
        tally.kept_assumed()
    );
}

fn main() {
    // panics of varisat's functions are caught and judged
    panic::set_hook(Box::new(|_| ()));
    let args: Vec<String> = env::args().skip(1).collect();
    let number = |i: usize| args.get(i).and_then(|arg| arg.parse().ok());
    let began = Instant::now();
    let mut tally = Tally::default();
    let verdict = match args.first().map(String::as_str) {
        Some("sample") => sample(number(1).unwrap_or(1), &mut tally),
        Some("calls") => run::sessions(&mut Rng::new(number(2).unwrap_or(1)), number(1).unwrap_or(1_000_000), &mut tally),
        Some("session") => run::solver_session(4096, number(1).unwrap_or(1_000_000) as usize, number(2).unwrap_or(1), &mut tally),
        Some("binary") => binary(&mut Rng::new(number(2).unwrap_or(1)), number(1).unwrap_or(1_000_000), &mut tally),
        Some("dimacs") => dimacs(&mut Rng::new(number(2).unwrap_or(1)), number(1).unwrap_or(1_000_000)),
        Some("reachable") => reachable(&mut tally),
        Some("record") => record(number(1).unwrap_or(1)),
        _ => {
            eprintln!("{}", USAGE);
            process::exit(2);
        }
    };
    if tally.calls > 0 {
        told(&tally);
    }
    let sides = match (cfg!(feature = "library"), tally.calls > 0) {
        (true, true) => "document 01, varisat and the library",
        (false, true) => "document 01 and varisat",
        (true, false) => "document 02 and the library",
        (false, false) => "document 02's reader and writer",
    };
    match verdict {
        Ok(()) => println!("{} agree: 0 disagreements ({:.0} s)", sides, began.elapsed().as_secs_f64()),
        Err(what) => {
            println!("DISAGREEMENT\n{}", what);
            process::exit(1);
        }
    }
}
