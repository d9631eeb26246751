//! A session: every call is answered by document 01's reading, by varisat's own functions and by the proved library.
use std::panic::{self, AssertUnwindSafe};

use crate::call::{state_of, table_of, Call, Format, ProofStep, KINDS};
use crate::ledger::Ledger;
#[cfg(feature = "library")]
use crate::library::Library;
use crate::random::{self, Rng, Style};
use crate::reading::{Outcome, Table};
use varisat_unchanged::drive::{self, pairs::additions, Oracle};

/// Refusals are numbered up to 17; 0 is none.
const REFUSALS: usize = 18;

/// The place of Remove among the kinds of calls.
const REMOVE: usize = 9;

/// How many calls of each kind were answered with each refusal, 0 being accepted.
#[derive(Default)]
pub struct Tally {
    pub by: [[u64; REFUSALS]; 16],
    pub sessions: u64,
    pub calls: u64,
    /// Accepted calls that varisat's functions answered too.
    pub compared: u64,
    /// Refused calls on which varisat's functions were seen to panic.
    pub panics: u64,
    pub steps_read: u64,
}

impl Tally {
    pub fn print(&self) {
        println!(
            "{:<10}{}",
            "",
            (0..REFUSALS).map(|n| format!("{:>9}", if n == 0 { "accepted".into() } else { n.to_string() })).collect::<String>()
        );
        for (kind, row) in KINDS.iter().zip(&self.by) {
            let cells: String = row.iter().map(|&n| if n == 0 { format!("{:>9}", "") } else { format!("{:>9}", n) }).collect();
            println!("{:<10}{}", kind, cells.trim_end());
        }
    }

    /// Removals refused since the index belongs to an assumed global.
    pub fn kept_assumed(&self) -> u64 {
        self.by[REMOVE][16]
    }

    /// Refusals that documents 01 and 02 list for a call of which there was none.
    pub fn missing(&self) -> Vec<String> {
        const LISTED: [&[usize]; 16] = [
            &[1],
            &[1, 2, 3, 4, 5],
            &[1, 2, 5],
            &[1, 2, 3, 4, 5],
            &[1, 2, 3, 6],
            &[1, 2, 3, 6, 7],
            &[1, 2, 7],
            &[1, 8],
            &[1, 8, 9],
            &[1, 2, 8, 16],
            &[1, 2],
            &[1, 2, 3, 8, 12],
            &[1, 2, 3, 8, 14],
            &[1, 2, 3, 8, 11, 14],
            &[1, 2],
            &[1, 2, 8, 15],
        ];
        let mut missing = vec![];
        for (kind, listed) in LISTED.iter().enumerate() {
            for &n in [0].iter().chain(*listed) {
                if self.by[kind][n] == 0 {
                    missing.push(format!("{} {}", KINDS[kind], n));
                }
            }
            for n in 1..REFUSALS {
                if self.by[kind][n] != 0 && !listed.contains(&n) {
                    missing.push(format!("{} answered {}", KINDS[kind], n));
                }
            }
        }
        missing
    }
}

/// A table as the reading has it, with varisat's state and the library's table beside it.
pub struct Session {
    pub format: Format,
    pub table: Table,
    rust: Option<Oracle>,
    #[cfg(feature = "library")]
    library: Library,
}

pub struct Disagreement {
    pub format: Format,
    pub table: Table,
    pub call: Call,
    pub what: String,
}

impl Session {
    /// From a freshly opened table.
    pub fn open(format: Format, capacity: u32) -> Session {
        Session { rust: Some(Oracle::new()), ..Session::without(format, &Table::empty(capacity)) }
    }

    /// From any table. Varisat can be brought into the state of a sound one, with few exceptions; else it is left out.
    pub fn load(format: Format, table: &Table) -> Session {
        let rust = if table.is_sound() { Oracle::load(&state_of(table)) } else { None };
        Session { rust, ..Session::without(format, table) }
    }

    /// With varisat left out.
    pub fn without(format: Format, table: &Table) -> Session {
        Session {
            format,
            table: table.clone(),
            rust: None,
            #[cfg(feature = "library")]
            library: Library::load(format, table),
        }
    }

    /// Makes the call on all sides. What was answered, or how they differ.
    pub fn call(&mut self, call: &Call, tally: &mut Tally) -> Result<Outcome, Box<Disagreement>> {
        let want = call.read(self.format, &self.table);
        tally.calls += 1;
        tally.by[call.kind()][want.refusal as usize] += 1;
        let result = if want.refusal == 0 { self.accepted(call, &want, tally) } else { Ok(()) };
        if let Err(what) = result.and_then(|()| self.library(call, &want)) {
            return Err(Box::new(Disagreement { format: self.format, table: self.table.clone(), call: call.clone(), what }));
        }
        self.table = want.table.clone();
        Ok(want)
    }

    /// Varisat's own functions answer accepted calls here, and by `panics` some refused ones. A removal refused with 16 is among neither: varisat
    /// would make it.
    fn accepted(&mut self, call: &Call, want: &Outcome, tally: &mut Tally) -> Result<(), String> {
        let Some(rust) = &mut self.rust else {
            return Ok(());
        };
        if !is_possible(call, &self.table) {
            return Ok(());
        }
        tally.compared += 1;
        let ran = panic::catch_unwind(AssertUnwindSafe(|| call.run(self.format, rust)));
        let Ok(mut got) = ran else {
            drive::forget();
            return Err(format!("document 01 accepts with {:?}, varisat panics", want.values));
        };
        got.table = table_of(&rust.state(), self.table.counts.capacity);
        // varisat stores no such numbers: only the older parts of the table are compared
        (got.table.counts.used, got.table.counts.next) = (want.table.counts.used, want.table.counts.next);
        if &got != want {
            return Err(differs(want, &got, "varisat"));
        }
        let free = (want.table.next_user(), next_global(&want.table), want.table.next_solver());
        if rust.next_free() != free {
            return Err(format!("next free: document 01 {:?}, varisat {:?}", free, rust.next_free()));
        }
        Ok(())
    }

    #[cfg(not(feature = "library"))]
    fn library(&mut self, _call: &Call, _want: &Outcome) -> Result<(), String> {
        Ok(())
    }

    /// The library answers every call, refused ones too; on a sound table also by the calls that do not test it.
    #[cfg(feature = "library")]
    fn library(&mut self, call: &Call, want: &Outcome) -> Result<(), String> {
        for (who, got) in self.library.call(call)? {
            if &got != want {
                return Err(differs(want, &got, who));
            }
        }
        Ok(())
    }

    /// Whether varisat's own functions panic on a call that is refused.
    pub fn panics(&self, call: &Call) -> Option<bool> {
        let mut rust = Oracle::load(&state_of(&self.table))?;
        let ran = panic::catch_unwind(AssertUnwindSafe(|| call.run(self.format, &mut rust)));
        drive::forget();
        Some(ran.is_err())
    }
}

/// Varisat's variables end at 2^28; naming steps are the only accepted calls that could carry more. Its lists of binary clauses are made by
/// additions.
fn is_possible(call: &Call, t: &Table) -> bool {
    let fits = |index: u32, word: u32| index < 1 << 28 && word < 1 << 28;
    match call {
        Call::Rename { step, .. } | Call::Write { step, .. } => match *step {
            ProofStep::SolverVarName(g, word) | ProofStep::UserVarName(g, word) => fits(g, word),
            ProofStep::DeleteVar(g) | ProofStep::ChangeSamplingMode(g, _) => fits(g, 0),
            _ => true,
        },
        Call::SimplifyBinary { lists, .. } => additions(lists, 2 * t.counts.solver as usize).is_some(),
        _ => true,
    }
}

/// The least deleted global, else the watermark.
fn next_global(t: &Table) -> u32 {
    (0..t.counts.global).find(|&g| t.record(g) >= 36).unwrap_or(t.counts.global)
}

fn differs(want: &Outcome, got: &Outcome, who: &str) -> String {
    let mut what = String::new();
    let mut part = |name: &str, a: String, b: String| {
        if a != b {
            what.push_str(&format!("\n  {}\n    document 01: {}\n    {}: {}", name, a, who, b));
        }
    };
    part("refusal", want.refusal.to_string(), got.refusal.to_string());
    part("values", format!("{:?}", want.values), format!("{:?}", got.values));
    part("notes", format!("{:?}", want.notes), format!("{:?}", got.notes));
    part("words", format!("{:?}", want.words), format!("{:?}", got.words));
    part("more", format!("{:?}", want.more), format!("{:?}", got.more));
    part("bytes", format!("{:?}", want.bytes), format!("{:?}", got.bytes));
    part("table", format!("{:?}", want.table), format!("{:?}", got.table));
    what
}

impl std::fmt::Display for Disagreement {
    fn fmt(&self, f: &mut std::fmt::Formatter) -> std::fmt::Result {
        write!(f, "{:?} {:?}\n on {:?}\n {}", self.format, self.call, self.table, self.what)
    }
}

/// A random session from the given table, or from a freshly opened one; at its end the ledger is closed.
pub fn random_session(
    rng: &mut Rng,
    from: Option<&Table>,
    capacity: u32,
    calls: u64,
    tally: &mut Tally,
) -> Result<(), Box<Disagreement>> {
    let format = if rng.flag() { Format::Text } else { Format::Binary };
    let mut session = match from {
        Some(table) => Session::load(format, table),
        None => Session::open(format, capacity),
    };
    let style = Style::draw(rng, capacity);
    let mut ledger = from.is_none().then(|| Ledger::new(format, capacity));
    tally.sessions += 1;
    for _ in 0..calls {
        let call = random::call(rng, format, &session.table, &style);
        let outcome = session.call(&call, tally)?;
        if let Some(ledger) = &mut ledger {
            ledger.enter(&call, &outcome);
        }
        if outcome.refusal != 0 && must_panic(&call, outcome.refusal) && capacity <= 64 && rng.one_in(16) {
            if session.panics(&call) == Some(false) {
                let what = format!("refused with {}, and varisat answers", outcome.refusal);
                return Err(Box::new(Disagreement { format, table: session.table.clone(), call, what }));
            }
            tally.panics += 1;
        }
    }
    if let Some(ledger) = ledger {
        tally.steps_read += ledger.len() as u64;
        if let Err(what) = ledger.check(&session.table, rng) {
            let call = Call::Sweep { room: 0 };
            return Err(Box::new(Disagreement { format, table: session.table.clone(), call, what }));
        }
    }
    Ok(())
}

/// Refused calls on which varisat's own functions panic, with its debug assertions on; on others it goes on (docs/DIFFERENCES.md), as on a removal
/// refused with 16.
fn must_panic(call: &Call, refusal: u32) -> bool {
    match (call, refusal) {
        (Call::Map { .. } | Call::Pose { .. }, 4) => true,
        (Call::Grant { global, .. } | Call::SetMode { global, .. }, 3) => *global < 1 << 27,
        (Call::Grant { .. } | Call::SetMode { .. }, 6) => true,
        (Call::SetMode { .. } | Call::Observe { .. }, 7) => true,
        (Call::Mark { .. } | Call::Remove { .. }, 8) => true,
        (Call::Rename { .. } | Call::Write { .. }, 8) => true,
        (Call::Write { .. }, 11) => true,
        (Call::Simplify { .. }, 12) => true,
        _ => false,
    }
}
