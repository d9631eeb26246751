//! The recorded list: calls with their whole answers, one a line, for crates/replay, which replays them with no Rust at hand.
//! The form of a line is described in crates/replay/README.md.
use std::fmt::Display;

use crate::call::{Call, Cause, Format, ProofStep, KINDS};
use crate::cnf;
use crate::compare::{Session, Tally};
use crate::pinned;
use crate::random::{self, Rng, Style};
use crate::reading::{dimacs, drat, names, steps::step_words, Counts, Outcome, Table, FRESH, MOST_LITERALS};
use crate::run::{self, told, Verdict};

/// The longest line of a drawn call; one that would be longer is not made.
const LONGEST: usize = 1500;

/// What the program has memory for: the words of a list of a table, and of any other slice.
const MOST_LIST: usize = 4_100;
const MOST_SLICE: usize = 8_200;

/// The largest number that the program reads.
const LARGEST: u64 = 18_446_744_073_709_551_609;

/// The line of Binary: `binary FORMAT lits WORD .. room WORDS BYTES gives REFUSAL WORDS HALF BYTES words WORD .. bytes BYTE ..`. Under `lits`
/// stand the words of the lists given, under `words` those of the lists left, counts and entries as they are lent; under `room` the lengths
/// of the two slices lent; after the refusal the fields of the C answer, words filled, half count, bytes filled. Empty parts are left out.
const NAMES: [&str; 16] = [
    "lookup", "map", "newuser", "pose", "grant", "setmode", "observe", "mark", "assign", "remove", "sweep", "simplify", "rename",
    "write", "model", "binary",
];

#[derive(Default)]
pub struct Record {
    pub text: String,
    pub tally: Tally,
    /// Opens, Reads and first steps by their refusal.
    pub opens: [u64; 15],
    pub reads: [u64; 15],
    pub firsts: [u64; 15],
    /// Reads and writes of CNF files by their refusal.
    pub cnf_reads: [u64; 18],
    pub cnf_writes: [u64; 18],
    /// Questions whether a table is sound: no, yes.
    pub sounds: [u64; 2],
    /// Calls refused with 1 that are not if `used` is counted anew, and the same of `next`, by their kind.
    miscounted: [[u64; 16]; 2],
    /// Accepted Lookups by what they ask for, and the step kinds of Rename and of Write.
    lookups: [u64; 6],
    kinds: [[u64; 13]; 2],
}

/// A line while it is written.
struct Line(String);

impl Line {
    fn new(name: &str) -> Line {
        Line(name.to_string())
    }

    fn put(&mut self, words: impl IntoIterator<Item = impl Display>) -> &mut Line {
        for word in words {
            self.0.push_str(&format!(" {}", word));
        }
        self
    }

    /// A part under its name.
    fn part(&mut self, name: &str, words: impl IntoIterator<Item = impl Display>) -> &mut Line {
        self.0.push_str(&format!(" {}", name));
        self.put(words)
    }

    /// A part that is left out where it is empty.
    fn some(&mut self, name: &str, words: &[impl Display]) -> &mut Line {
        if words.is_empty() {
            return self;
        }
        self.part(name, words)
    }

    /// The counts, if they have changed, and the words of the lists that have: list, place, word.
    fn changes(&mut self, before: &Table, after: &Table) -> &mut Line {
        if before.counts != after.counts {
            self.part("counts", counts(after));
        }
        let mut set: Vec<usize> = vec![];
        for (k, (old, new)) in before.lists().into_iter().zip(after.lists()).enumerate() {
            for (i, word) in new.iter().enumerate().filter(|&(i, word)| old.get(i) != Some(word)) {
                set.extend([k, i, *word as usize]);
            }
        }
        self.some("set", &set)
    }

    fn end(&mut self) -> String {
        std::mem::take(&mut self.0) + "\n"
    }
}

fn counts(t: &Table) -> [u32; 6] {
    let c = t.counts;
    [c.capacity, c.user, c.global, c.solver, c.used, c.next]
}

/// A step's kind and what it carries, three words.
fn step(step: ProofStep) -> Vec<u64> {
    let mut words = step_words(step);
    words.resize(3, 0);
    words
}

/// The arguments that are numbers, as the C surface has them.
fn arguments(call: &Call, format: Format) -> Vec<u64> {
    match call {
        Call::Lookup { asked, index } => vec![*asked as u64, (*index).into()],
        Call::Map { user, sampling, .. } => vec![(*user).into(), (*sampling).into()],
        Call::Pose { sampling, .. } => vec![(*sampling).into()],
        Call::Grant { global, .. } => vec![(*global).into()],
        Call::SetMode { global, mode, .. } => vec![(*global).into(), (*mode).into()],
        Call::Mark { mark, solver } => vec![*mark as u64, (*solver).into()],
        Call::Assign { lit } => vec![(*lit).into()],
        Call::Remove { solver, .. } => vec![(*solver).into()],
        Call::Simplify { redundant, .. } => vec![format as u64, (*redundant).into()],
        Call::Rename { step: given, solver_vars, .. } => [step(*given), vec![(*solver_vars).into()]].concat(),
        Call::Write { step: given, solver_vars, .. } => [vec![format as u64], step(*given), vec![(*solver_vars).into()]].concat(),
        Call::SimplifyBinary { .. } => vec![format as u64],
        Call::NewUser { .. } | Call::Observe { .. } | Call::Sweep { .. } | Call::Model { .. } => vec![],
    }
}

/// The literals given; of Binary the words of the lists.
fn literals(call: &Call) -> &[u32] {
    match call {
        Call::Pose { lits, .. } | Call::Simplify { lits, .. } | Call::Rename { lits, .. } | Call::Write { lits, .. } => lits,
        Call::SimplifyBinary { lists, .. } => lists,
        _ => &[],
    }
}

fn hashes(call: &Call) -> &[u64] {
    match call {
        Call::Rename { hashes, .. } | Call::Write { hashes, .. } => hashes,
        _ => &[],
    }
}

/// The fields of the C answer after the refusal, without the counts; those that are left out at the end are 0.
fn fields(call: &Call, o: &Outcome) -> Vec<u64> {
    let v = &o.values;
    match call {
        Call::Rename { step: given, .. } => [step(*given), v.iter().take(2).copied().collect()].concat(),
        _ if o.refusal != 0 => vec![],
        Call::Lookup { .. } => v.iter().flat_map(|&value| [1, value]).collect(),
        Call::SetMode { .. } if v.len() == 1 => vec![0, 0, v[0]],
        Call::SetMode { .. } => vec![1, v[0], v[1]],
        _ => v.clone(),
    }
}

fn line(call: &Call, format: Format, before: &Table, o: &Outcome) -> String {
    let mut call = call.clone();
    let rooms: Vec<usize> = call.rooms().into_iter().map(|room| *room).collect();
    assert!(rooms.iter().chain([&literals(&call).len(), &hashes(&call).len()]).all(|&n| n <= MOST_SLICE));
    let mut line = Line::new(NAMES[call.kind()]);
    line.put(arguments(&call, format)).some("lits", literals(&call)).some("hashes", hashes(&call)).some("room", &rooms);
    line.part("gives", [u64::from(o.refusal)]).put(fields(&call, o));
    line.some("notes", &o.notes).some("words", &o.words).some("more", &o.more).some("bytes", &o.bytes);
    line.changes(before, &o.table).end()
}

impl Record {
    pub fn calls(&self) -> u64 {
        let all = |by: &[u64]| by.iter().sum::<u64>();
        let cnfs = all(&self.cnf_reads) + all(&self.cnf_writes);
        self.tally.calls + all(&self.opens) + all(&self.reads) + all(&self.firsts) + all(&self.sounds) + cnfs
    }

    /// Memory for a table: every word 0, of the records 47, and then the words that differ.
    fn load(&mut self, t: &Table) {
        let mut blank = t.clone();
        for (k, list) in blank.lists_mut().into_iter().enumerate() {
            list.fill(if k == 5 { FRESH } else { 0 });
        }
        assert!(t.lists().iter().all(|list| list.len() <= MOST_LIST));
        let mut line = Line::new("load");
        line.put(counts(t)).put(t.lists().map(Vec::len)).changes(&blank, t);
        self.text.push_str(&line.end());
    }

    fn sound(&mut self, t: &Table) -> Verdict<()> {
        run::soundness(t)?;
        self.sounds[t.is_sound() as usize] += 1;
        self.text.push_str(&Line::new("sound").part("gives", [0, t.is_sound() as u32]).end());
        Ok(())
    }

    fn open(&mut self, memory: &Table) -> Verdict<Outcome> {
        let want = names::open(memory);
        run::open_in(memory, &want)?;
        self.opens[want.refusal as usize] += 1;
        let mut line = Line::new("open");
        line.put([memory.counts.capacity]).part("gives", [want.refusal]).changes(memory, &want.table);
        self.text.push_str(&line.end());
        Ok(want)
    }

    /// Makes the call on all sides and writes what they agree on.
    fn call(&mut self, session: &mut Session, call: &Call) -> Verdict<()> {
        let before = session.table.clone();
        let outcome = session.call(call, &mut self.tally).map_err(told)?;
        match call {
            Call::Lookup { asked, .. } if outcome.refusal == 0 => self.lookups[*asked as usize] += 1,
            Call::Rename { step: given, .. } => self.kinds[0][step(*given)[0] as usize] += 1,
            Call::Write { step: given, .. } => self.kinds[1][step(*given)[0] as usize] += 1,
            _ => (),
        }
        if outcome.refusal == 1 {
            self.unsound(call, &before);
        }
        self.text.push_str(&line(call, session.format, &before, &outcome));
        Ok(())
    }

    /// Whether it was one stored number alone that refused the call.
    fn unsound(&mut self, call: &Call, t: &Table) {
        let (given, right) = (t.counts, t.recounted());
        for (k, counts) in [Counts { used: right.used, ..given }, Counts { next: right.next, ..given }].into_iter().enumerate() {
            self.miscounted[k][call.kind()] += Table { counts, ..t.clone() }.is_sound() as u64;
        }
    }

    /// So many drawn calls.
    fn calls_of(&mut self, rng: &mut Rng, session: &mut Session, style: &Style, calls: u64) -> Verdict<()> {
        let mut left = calls;
        while left > 0 {
            let call = random::call(rng, session.format, &session.table, style);
            let length = line(&call, session.format, &session.table, &call.read(session.format, &session.table)).len();
            if length <= LONGEST {
                self.call(session, &call)?;
                left -= 1;
            }
        }
        Ok(())
    }

    /// A session from Open in memory that holds anything, or from a sound table that calls need not reach.
    fn session(&mut self, rng: &mut Rng, capacity: u32, calls: u64, opened: bool) -> Verdict<()> {
        let format = if rng.flag() { Format::Text } else { Format::Binary };
        let style = Style::draw(rng, capacity);
        self.tally.sessions += 1;
        let mut session = if opened {
            let memory = memory(rng, capacity);
            self.load(&memory);
            self.open(&memory)?;
            Session::open(format, capacity)
        } else {
            let table = random::sound_table(rng, capacity);
            self.load(&table);
            self.sound(&table)?;
            Session::load(format, &table)
        };
        self.calls_of(rng, &mut session, &style, calls)
    }

    /// Tables with one thing changed: whether it is sound, and calls drawn for the table before.
    fn damaged(&mut self, rng: &mut Rng, tables: u64) -> Verdict<()> {
        for _ in 0..tables {
            let capacity = 1 + rng.below(9) as u32;
            let table = random::sound_table(rng, capacity);
            let damaged = random::damaged(rng, &table);
            self.load(&damaged);
            self.sound(&damaged)?;
            let style = Style::draw(rng, capacity);
            for _ in 0..2 {
                let call = random::call(rng, Format::Text, &table, &style);
                self.call(&mut Session::load(Format::Text, &damaged), &call)?;
                if damaged.is_sound() {
                    break;
                }
            }
        }
        Ok(())
    }

    /// Open in memory of any size and content, the ends of the range among it.
    fn opens(&mut self, rng: &mut Rng, times: u64) -> Verdict<()> {
        for capacity in [1, 4096, 4097, 0] {
            let mut memory = Table::empty(capacity);
            memory.counts.capacity = capacity;
            self.load(&memory);
            self.open(&memory)?;
        }
        for _ in 0..times {
            let capacity = 1 + rng.below(12) as u32;
            let table = random::sound_table(rng, capacity);
            let memory = random::damaged(rng, &table);
            self.load(&memory);
            self.open(&memory)?;
        }
        Ok(())
    }

    /// The table, whether it is sound, and these calls on it.
    fn on(&mut self, format: Format, table: &Table, calls: &[Call]) -> Verdict<()> {
        self.load(table);
        self.sound(table)?;
        let mut session = Session::load(format, table);
        calls.iter().try_for_each(|call| self.call(&mut session, call))
    }

    /// What random calls meet rarely: each clause of soundness broken by itself, with every Lookup; stored numbers that are wrong, with every kind of
    /// call; every outcome of Simplify, redundant and not; every kind of step renamed, with hashes; names with too little room; removals of an
    /// assumed index and of others; lists of binary clauses.
    fn pinned(&mut self) -> Verdict<()> {
        for (n, table) in (0..).zip(pinned::broken().into_iter().chain(pinned::deleted())) {
            self.on(Format::Text, &table, &pinned::lookups(n))?;
        }
        for (n, table) in pinned::miscounted().iter().enumerate() {
            self.on(Format::Text, table, &pinned::some_kinds(table, n / 2))?;
        }
        for format in [Format::Text, Format::Binary] {
            self.on(format, &Table::empty(4), &pinned::simplifications())?;
        }
        self.on(Format::Text, &pinned::base(), &pinned::renamings())?;
        self.on(Format::Text, &pinned::base(), &pinned::rooms())?;
        for mode in 0..3 {
            self.on(Format::Text, &pinned::base(), &pinned::removals(mode))?;
        }
        self.on(Format::Text, &Table::empty(1), &pinned::no_sections())?;
        for format in [Format::Text, Format::Binary] {
            self.on(format, &Table::empty(4), &pinned::binaries())?;
        }
        for text in pinned::texts() {
            self.read(Format::Text, &text, [4; 3])?;
        }
        Ok(())
    }

    /// Clauses of 8,192 literals, which is the most there may be, and of one more.
    fn long(&mut self) -> Verdict<()> {
        let memory = Table::empty(4);
        self.load(&memory);
        self.open(&memory)?;
        let mut session = Session::open(Format::Binary, 4);
        for n in [MOST_LITERALS, MOST_LITERALS + 1] {
            let lits: Vec<u32> = (0..n as u32).map(|i| i % 7 % 3).collect();
            let (outs, room, hashes) = (n, 12, vec![5]);
            let (step, solver_vars) = (ProofStep::AtClause(true), true);
            self.call(&mut session, &Call::Pose { lits: lits.clone(), sampling: true, outs, room })?;
            self.call(&mut session, &Call::Simplify { lits: lits.clone(), redundant: true, outs, room: 0 })?;
            let (given, hash_outs) = (lits.clone(), 1);
            self.call(&mut session, &Call::Rename { step, solver_vars, lits: given, hashes: hashes.clone(), outs, hash_outs })?;
            let step = ProofStep::DeleteClause(Cause::Satisfied);
            self.call(&mut session, &Call::Write { step, solver_vars, lits, hashes, room: 8194 })?;
        }
        Ok(())
    }

    /// Proofs, whole ones and others: Read, and the first step.
    fn proofs(&mut self, rng: &mut Rng, times: u64) -> Verdict<()> {
        for _ in 0..times {
            let (format, bytes, rooms) = run::draw_proof(rng);
            self.read(format, &bytes, rooms)?;
        }
        Ok(())
    }

    fn read(&mut self, format: Format, bytes: &[u8], rooms: [usize; 3]) -> Verdict<()> {
        let want = drat::read_call(format, bytes, rooms);
        run::read_of(format, bytes, rooms, &want)?;
        self.reads[want.refusal as usize] += 1;
        let mut line = Line::new("read");
        line.put([format as u32]).some("proof", bytes).part("room", rooms);
        line.part("gives", [want.refusal as usize, want.place, want.codes.len(), want.ends.len()]);
        line.some("words", &want.codes).some("more", &want.ends).some("bytes", &want.kinds);
        self.text.push_str(&line.end());
        self.first(format, bytes);
        Ok(())
    }

    fn first(&mut self, format: Format, bytes: &[u8]) {
        let (refusal, place, length) = match drat::first_step(format, bytes) {
            Ok((_, part)) => (0, part.start, part.len()),
            Err(place) => (13, place, 0),
        };
        self.firsts[refusal] += 1;
        let mut line = Line::new("first");
        self.text.push_str(&line.put([format as u32]).some("proof", bytes).part("gives", [refusal, place, length]).end());
    }

    fn read_cnf(&mut self, file: &[u8], rooms: [usize; 2]) -> Verdict<()> {
        let want = dimacs::read_call(file, rooms);
        cnf::read_of(file, rooms, &want)?;
        self.cnf_reads[want.refusal as usize] += 1;
        let mut line = Line::new("readcnf");
        line.some("proof", file).part("room", rooms).part("gives", [want.refusal as usize, want.place, want.variables as usize]);
        line.put([want.codes.len(), want.ends.len()]).some("words", &want.codes).some("more", &want.ends);
        self.text.push_str(&line.end());
        Ok(())
    }

    fn write_cnf(&mut self, codes: &[u32], ends: &[u64], room: usize) -> Verdict<()> {
        let want = dimacs::write_call(codes, ends, room);
        cnf::write_of(codes, ends, room, &want)?;
        let (refusal, bytes) = want.map_or_else(|refusal| (refusal as usize, vec![]), |bytes| (0, bytes));
        self.cnf_writes[refusal] += 1;
        let mut line = Line::new("writecnf");
        line.some("lits", codes).some("hashes", ends).part("room", [room]).part("gives", [refusal, bytes.len()]);
        self.text.push_str(&line.some("bytes", &bytes).end());
        Ok(())
    }

    /// CNF files, right ones and others, read; clauses, and lists that are none, written; and what random ones meet rarely.
    fn cnfs(&mut self, rng: &mut Rng, times: u64) -> Verdict<()> {
        for file in pinned::files() {
            self.read_cnf(file.as_bytes(), [file.len(); 2])?;
        }
        for (codes, ends) in pinned::clauses() {
            self.write_cnf(&codes, &ends, 40)?;
        }
        for _ in 0..times {
            let (file, rooms) = cnf::draw_file(rng);
            self.read_cnf(&file, rooms)?;
            let (codes, ends, room) = cnf::draw_lists(rng);
            if ends.iter().all(|&end| end <= LARGEST) {
                self.write_cnf(&codes, &ends, room)?;
            }
        }
        // a clause may have any number of literals
        self.write_cnf(&[8191; MOST_SLICE], &[MOST_SLICE as u64], MOST_SLICE)
    }

    /// What documents 01 and 02 name and the list lacks.
    fn missing(&self) -> Vec<String> {
        let mut missing = self.tally.missing();
        for (name, by, listed) in [
            ("Open", &self.opens[..], &[0, 10][..]),
            ("Read", &self.reads, &[0, 2, 13]),
            ("First step", &self.firsts, &[0, 13]),
            ("Read CNF", &self.cnf_reads, &[0, 2, 17]),
            ("Write CNF", &self.cnf_writes, &[0, 2, 3]),
        ] {
            missing.extend(listed.iter().filter(|&&n| by[n] == 0).map(|n| format!("{} {}", name, n)));
        }
        for (name, by) in [("Lookup of", &self.lookups[..]), ("Rename of", &self.kinds[0]), ("Write of", &self.kinds[1])] {
            missing.extend((0..by.len()).filter(|&n| by[n] == 0).map(|n| format!("{} {}", name, n)));
        }
        for (number, by) in ["used", "next"].iter().zip(&self.miscounted) {
            missing.extend(
                KINDS.iter().zip(by).filter(|(_, &n)| n == 0).map(|(kind, _)| format!("{} with a wrong `{}`", kind, number)),
            );
        }
        missing
    }
}

/// Memory for this capacity that holds anything.
fn memory(rng: &mut Rng, capacity: u32) -> Table {
    let mut t = if capacity > 64 { Table::empty(capacity) } else { random::sound_table(rng, capacity) };
    for _ in 0..rng.below(4) {
        let (list, at, word) = (rng.index(6), rng.index(capacity as usize), rng.next() as u32);
        t.lists_mut()[list][at] = word;
    }
    t
}

/// The list, from a seed. It fails where two sides disagree or where a call or a refusal of documents 01 and 02 does not occur.
pub fn list(seed: u64) -> Verdict<Record> {
    let mut rng = Rng::new(seed);
    let mut record = Record::default();
    for n in 0..56 {
        record.session(&mut rng, 1 + n % 12, 56, n % 4 != 3)?;
    }
    for opened in [true, true, false, false] {
        record.session(&mut rng, 64, 40, opened)?;
    }
    for _ in 0..3 {
        record.session(&mut rng, 4096, 40, true)?;
    }
    record.damaged(&mut rng, 400)?;
    record.opens(&mut rng, 60)?;
    record.proofs(&mut rng, 400)?;
    record.long()?;
    record.pinned()?;
    record.cnfs(&mut rng, 300)?;
    let missing = record.missing();
    if !missing.is_empty() {
        return Err(format!("the list lacks {:?}", missing));
    }
    Ok(record)
}

/// What is in the list, for a person.
pub fn summary(record: &Record) -> String {
    let (calls, compared, bytes) = (record.calls(), record.tally.compared, record.text.len());
    let mut text = format!("{} calls, {} of them answered by varisat too, {} bytes\n", calls, compared, bytes);
    for (kind, row) in KINDS.iter().zip(&record.tally.by) {
        text.push_str(&format!("{}: {:?}\n", kind, row));
    }
    text.push_str(&format!("Open {:?}\nRead {:?}\nFirst step {:?}\n", record.opens, record.reads, record.firsts));
    text.push_str(&format!("Read CNF {:?}\nWrite CNF {:?}\n", record.cnf_reads, record.cnf_writes));
    let [used, next] = record.miscounted.map(|by| by.iter().sum::<u64>());
    text.push_str(&format!("refused for a wrong `used` {}, for a wrong `next` {}\n", used, next));
    text
}
