//! Demand 3 at run time: the ledger of a session, fed only each call's arguments, answer and notes.
use crate::call::{Call, Format};
use crate::random::{self, Rng};
use crate::reading::{
    drat::{self, Clause},
    is_shown, steps, Outcome, Table,
};
use crate::run;

pub struct Ledger {
    format: Format,
    /// By the notes alone: who holds each solver index, and whether each global is undeleted and not hidden.
    holder: Vec<Option<u32>>,
    shown: Vec<bool>,
    steps: Vec<Clause>,
    bytes: Vec<u8>,
}

impl Ledger {
    pub fn new(format: Format, capacity: u32) -> Ledger {
        let n = capacity as usize;
        Ledger { format, holder: vec![None; n], shown: vec![false; n], steps: vec![], bytes: vec![] }
    }

    /// A refused call enters nothing.
    pub fn enter(&mut self, call: &Call, outcome: &Outcome) {
        if outcome.refusal != 0 {
            return;
        }
        if let Call::SetMode { global, mode: 2, .. } = call {
            self.shown[*global as usize] = false;
        }
        for note in outcome.notes.chunks(3) {
            self.note(note[0], note[1], note[2]);
        }
        match call {
            Call::Simplify { lits, .. } => {
                let made = outcome.values[0];
                if made >= 2 {
                    self.step(false, true, &outcome.words);
                }
                if made >= 1 {
                    self.step(true, true, lits);
                }
            }
            Call::Write { step, solver_vars, lits, .. } => {
                for clause in steps::clause_steps(*step, steps::carried(*step, lits)) {
                    self.step(clause.delete, *solver_vars, &clause.lits);
                }
            }
            Call::SimplifyBinary { lists, .. } => self.pairs(lists, &outcome.words),
            _ => (),
        }
        self.bytes.extend(&outcome.bytes);
    }

    fn note(&mut self, kind: u32, global: u32, last: u32) {
        match (kind, last) {
            (0, 0) => (),
            (0, _) => self.shown[global as usize] = true,
            (1, 0) => {
                for holder in self.holder.iter_mut().filter(|holder| **holder == Some(global)) {
                    *holder = None;
                }
            }
            (1, _) => self.holder[last as usize - 1] = Some(global),
            (2, _) => self.shown[global as usize] = false,
            _ => (),
        }
    }

    /// By the lists given and answered: an entry went if its section has none of the kind any more. Of the two entries of a clause one is
    /// deleted.
    fn pairs(&mut self, given: &[u32], answered: &[u32]) {
        let sections = |mut words: &[u32]| {
            let mut all = vec![];
            while let Some((&count, rest)) = words.split_first() {
                let (section, after) = rest.split_at(count as usize);
                all.push(section.to_vec());
                words = after;
            }
            all
        };
        for (l, (before, after)) in (0u32..).zip(sections(given).iter().zip(sections(answered))) {
            for &m in before.iter().filter(|m| l ^ 1 < **m && !after.contains(m)) {
                self.step(true, true, &[l ^ 1, m]);
            }
        }
    }

    fn step(&mut self, delete: bool, solver_vars: bool, lits: &[u32]) {
        let under = |code: u32| 2 * self.holder[code as usize / 2].expect("held by the notes") + code % 2;
        let lits = lits.iter().map(|&code| if solver_vars { under(code) } else { code }).collect();
        self.steps.push(Clause { delete, lits });
    }

    /// What holds after a session. Text is read with other separators too.
    pub fn check(&self, t: &Table, rng: &mut Rng) -> Result<(), String> {
        let holder: Vec<u32> = self.holder.iter().map(|holder| holder.map_or(0, |g| g + 1)).collect();
        if holder != t.global_from_solver {
            return Err("the notes say another holder".into());
        }
        let shown: Vec<bool> = t.records.iter().map(|&record| is_shown(record)).collect();
        if shown != self.shown {
            return Err("the notes say otherwise what is shown".into());
        }
        if !t.is_sound() {
            return Err("the table is not sound".into());
        }
        self.reads_back(&self.bytes)?;
        if self.format == Format::Text {
            self.reads_back(&random::rebroken(rng, &self.bytes))?;
        }
        Ok(())
    }

    /// The bytes read as the steps, plainly and by the library.
    fn reads_back(&self, bytes: &[u8]) -> Result<(), String> {
        match drat::read(self.format, bytes) {
            Err(at) => return Err(format!("the joined bytes have no reading: a fault at {}", at)),
            Ok(steps) if steps != self.steps => return Err("the joined bytes read as other steps".into()),
            Ok(_) => (),
        }
        let rooms = [bytes.len(); 3];
        run::read_of(self.format, bytes, rooms, &drat::read_call(self.format, bytes, rooms))
    }
}

impl Ledger {
    /// How many clause steps were entered.
    pub fn len(&self) -> usize {
        self.steps.len()
    }
}
