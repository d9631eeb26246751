//! The runs: random sessions, a session as a solver makes it, damaged tables, memory to open, and proofs to read.
use crate::call::{Asked, Call, Format, Mark, ProofStep};
use crate::compare::{random_session, Disagreement, Session, Tally};
use crate::ledger::Ledger;
use crate::random::{self, Rng, Style};
use crate::reading::{drat, names, Table};
use varisat_unchanged::drive::session;

/// A disagreement, told.
pub type Verdict<T> = Result<T, String>;

pub fn told(d: Box<Disagreement>) -> String {
    d.to_string()
}

fn capacity(rng: &mut Rng) -> u32 {
    match rng.below(80) {
        0 => 4096,
        1..=5 => 64,
        n => 1 + n as u32 % 12,
    }
}

/// Random sessions until so many calls were made, one in four from a random sound table.
pub fn sessions(rng: &mut Rng, calls: u64, tally: &mut Tally) -> Verdict<()> {
    let until = tally.calls + calls;
    while tally.calls < until {
        let capacity = capacity(rng);
        let from = rng.one_in(4).then(|| random::sound_table(rng, capacity));
        let length = (20 + rng.below(200)).min(until - tally.calls);
        random_session(rng, from.as_ref(), capacity, length, tally).map_err(told)?;
    }
    Ok(())
}

/// The session that the benchmarks time, so many calls of it: each is accepted. At its end the ledger is closed.
pub fn solver_session(capacity: u32, calls: usize, seed: u64, tally: &mut Tally) -> Verdict<()> {
    let mut session = Session::open(Format::Text, capacity);
    let mut ledger = Ledger::new(Format::Text, capacity);
    tally.sessions += 1;
    for call in session::calls(capacity, calls, seed) {
        let call = random::roomed(session.format, &session.table, solver_call(call));
        let outcome = session.call(&call, tally).map_err(told)?;
        if outcome.refusal != 0 {
            return Err(format!("{:?} is refused with {}", call, outcome.refusal));
        }
        ledger.enter(&call, &outcome);
    }
    tally.steps_read += ledger.len() as u64;
    ledger.check(&session.table, &mut Rng::new(seed))
}

/// The call with room for anything.
fn solver_call(call: session::Call) -> Call {
    let all = usize::MAX;
    let looked = |asked: Asked, index: u32| Call::Lookup { asked, index };
    let step = ProofStep::AtClause(true);
    match call {
        session::Call::Lookup(0, user) => looked(Asked::GlobalFromUser, user),
        session::Call::Lookup(1, global) => looked(Asked::UserFromGlobal, global),
        session::Call::Lookup(2, global) => looked(Asked::SolverFromGlobal, global),
        session::Call::Lookup(_, solver) => looked(Asked::GlobalFromSolver, solver),
        session::Call::Record(global) => looked(Asked::Record, global),
        session::Call::Value(solver) => looked(Asked::Assignment, solver),
        session::Call::Map(user) => Call::Map { user, sampling: false, room: all },
        session::Call::NewUser => Call::NewUser { room: all },
        session::Call::Pose(lits) => Call::Pose { lits: lits.to_vec(), sampling: false, outs: all, room: all },
        session::Call::Grant(global) => Call::Grant { global, room: all },
        session::Call::SetMode(global, mode) => Call::SetMode { global, mode, room: all },
        session::Call::Observe => Call::Observe { outs: all, room: all },
        session::Call::Used(solver) => Call::Mark { mark: Mark::Used, solver },
        session::Call::Assumed(solver, true) => Call::Mark { mark: Mark::Assumed, solver },
        session::Call::Assumed(solver, false) => Call::Mark { mark: Mark::Released, solver },
        session::Call::Assign(lit) => Call::Assign { lit },
        session::Call::Remove(solver) => Call::Remove { solver, room: all },
        session::Call::Sweep => Call::Sweep { room: all },
        session::Call::Rename(lits) => {
            Call::Rename { step, solver_vars: true, lits: lits.to_vec(), hashes: vec![], outs: all, hash_outs: all }
        }
        session::Call::Write(lits) => Call::Write { step, solver_vars: true, lits: lits.to_vec(), hashes: vec![], room: all },
        session::Call::Model => Call::Model { globals: all, users: all },
    }
}

/// Lists of binary clauses, a few on each of many sound tables. How many calls were accepted, and how many varisat answered too.
pub fn binaries(rng: &mut Rng, calls: u64, tally: &mut Tally) -> Verdict<[u64; 2]> {
    let (before, compared, until) = (tally.by[15][0], tally.compared, tally.calls + calls);
    while tally.calls < until {
        let capacity = capacity(rng);
        let table = random::sound_table(rng, capacity);
        let format = if rng.flag() { Format::Text } else { Format::Binary };
        let mut session = Session::load(format, &table);
        for _ in 0..(4 + rng.below(12)).min(until - tally.calls) {
            let call = random::binary(rng, format, &table);
            session.call(&call, tally).map_err(told)?;
        }
    }
    Ok([tally.by[15][0] - before, tally.compared - compared])
}

/// Tables with one thing changed, so that most are unsound: a few calls on each. How many were unsound, and how many by their stored numbers alone.
pub fn damaged(rng: &mut Rng, tables: u64, tally: &mut Tally) -> Verdict<[u64; 2]> {
    let mut unsound = [0; 2];
    for _ in 0..tables {
        let capacity = if rng.one_in(50) { capacity(rng) } else { 1 + rng.below(12) as u32 };
        let table = random::sound_table(rng, capacity);
        let damaged = random::damaged(rng, &table);
        let right = Table { counts: damaged.recounted(), ..damaged.clone() };
        unsound[0] += !damaged.is_sound() as u64;
        unsound[1] += (right.is_sound() && !damaged.is_sound()) as u64;
        soundness(&damaged)?;
        // the calls are drawn for the sound table, so that only the damage refuses them
        let style = Style::draw(rng, capacity);
        for _ in 0..3 {
            let call = random::call(rng, Format::Text, &table, &style);
            Session::load(Format::Text, &damaged).call(&call, tally).map_err(told)?;
        }
    }
    Ok(unsound)
}

/// Open in memory of any size and content.
pub fn opens(rng: &mut Rng, times: u64) -> Verdict<u64> {
    let mut accepted = 0;
    for _ in 0..times {
        let capacity = capacity(rng);
        let table = random::sound_table(rng, capacity);
        let memory = if rng.flag() { table } else { random::damaged(rng, &table) };
        let want = names::open(&memory);
        accepted += (want.refusal == 0) as u64;
        open_in(&memory, &want)?;
    }
    Ok(accepted)
}

/// Proofs: whole ones, cut ones, ones with a byte changed, and text broken at other separators.
pub fn proofs(rng: &mut Rng, times: u64) -> Verdict<[u64; 3]> {
    let mut by = [0; 3];
    for _ in 0..times {
        let (format, bytes, rooms) = draw_proof(rng);
        let want = drat::read_call(format, &bytes, rooms);
        by[[0, 2, 13].iter().position(|&n| n == want.refusal).unwrap()] += 1;
        read_of(format, &bytes, rooms, &want)?;
        if format == Format::Text && want.refusal != 13 {
            let broken = random::rebroken(rng, &bytes);
            if drat::read_call(format, &broken, rooms) != want {
                return Err(format!("{:?} broken as {:?} reads as other steps", bytes, broken));
            }
            read_of(format, &broken, rooms, &want)?;
        }
    }
    Ok(by)
}

/// Whole proofs written from their lists, some of which were damaged. How many were written, were no proof, had too little room.
pub fn writes(rng: &mut Rng, times: u64) -> Verdict<[u64; 3]> {
    let mut by = [0; 3];
    for _ in 0..times {
        let format = if rng.flag() { Format::Text } else { Format::Binary };
        let mut lists = drat::read_call(format, &proof(rng, format), [usize::MAX; 3]);
        if rng.one_in(3) {
            damage(rng, &mut lists);
        }
        let length = drat::write_call(format, &lists, usize::MAX).map_or(9, |bytes| bytes.len());
        let room = if rng.one_in(8) { rng.index(length + 1) } else { length + rng.index(3) * rng.index(40) };
        let want = drat::write_call(format, &lists, room);
        by[[0, 3, 2].iter().position(|&n| n == want.as_ref().err().copied().unwrap_or(0)).unwrap()] += 1;
        write_of(format, &lists, room, &want)?;
    }
    Ok(by)
}

/// One word of the lists changed, added or taken away.
fn damage(rng: &mut Rng, lists: &mut drat::Filled) {
    let drat::Filled { codes, ends, kinds, .. } = lists;
    let wild = rng.of(&[0, 1, 2, 3, 8191, 8192, u64::MAX]);
    match rng.below(8) {
        0 => codes.push(wild as u32),
        1 => ends.push(wild),
        2 => kinds.push(wild as u8),
        3 => drop(codes.pop()),
        4 => drop(ends.pop()),
        5 if !codes.is_empty() => *codes.last_mut().unwrap() = wild as u32,
        6 if !ends.is_empty() => {
            let at = rng.index(ends.len());
            ends[at] = if rng.flag() { wild } else { ends[at].wrapping_sub(1) };
        }
        7 if !kinds.is_empty() => kinds[0] = wild as u8,
        _ => drop(kinds.pop()),
    }
}

/// A proof, and the lengths of the slices to read it into: what it needs, a little more, or now and then too little.
pub fn draw_proof(rng: &mut Rng) -> (Format, Vec<u8>, [usize; 3]) {
    let format = if rng.flag() { Format::Text } else { Format::Binary };
    let bytes = proof(rng, format);
    let full = drat::read_call(format, &bytes, [usize::MAX; 3]);
    let mut rooms = [full.codes.len(), full.ends.len(), full.kinds.len()];
    for room in &mut rooms {
        if rng.one_in(3) {
            *room += rng.index(3);
        } else if rng.one_in(12) {
            *room = room.saturating_sub(1);
        }
    }
    (format, bytes, rooms)
}

fn proof(rng: &mut Rng, format: Format) -> Vec<u8> {
    let top = [2, 20, 200, 8192][rng.index(4)];
    let steps: Vec<drat::Clause> = (0..rng.index(6))
        .map(|_| {
            let lits = (0..rng.index(7)).map(|_| rng.below(top) as u32).collect();
            drat::Clause { delete: rng.flag(), lits }
        })
        .collect();
    let mut bytes = drat::encode(format, &steps);
    if format == Format::Text && rng.flag() {
        bytes = random::rebroken(rng, &bytes);
    }
    match rng.below(6) {
        0 => bytes.truncate(rng.index(bytes.len() + 1)),
        1 | 2 if !bytes.is_empty() => {
            let at = rng.index(bytes.len());
            bytes[at] = odd_byte(rng);
        }
        3 => {
            let at = rng.index(bytes.len() + 1);
            bytes.insert(at, odd_byte(rng));
        }
        4 if rng.one_in(3) => bytes = (0..rng.index(12)).map(|_| odd_byte(rng)).collect(),
        _ => (),
    }
    bytes
}

fn odd_byte(rng: &mut Rng) -> u8 {
    if rng.one_in(4) {
        return rng.next() as u8;
    }
    rng.of(b"0123456789- \n\rda+\t\x00\x01\x02\x7f\x80\x81\xff\x40")
}

// ---- the library's part

#[cfg(feature = "library")]
use crate::library;

#[cfg(feature = "library")]
pub fn soundness(table: &Table) -> Verdict<()> {
    let (want, got) = (table.is_sound(), library::Library::load(Format::Text, table).is_sound());
    if want != got {
        return Err(format!("sound by document 01: {}, by the library: {}; {:?}", want, got, table));
    }
    Ok(())
}

#[cfg(feature = "library")]
pub fn open_in(memory: &Table, want: &crate::reading::Outcome) -> Verdict<()> {
    for got in library::Library::open(memory) {
        if &got != want {
            return Err(format!("Open of {:?}\n document 01: {:?}\n the library: {:?}", memory, want, got));
        }
    }
    Ok(())
}

#[cfg(feature = "library")]
pub fn read_of(format: Format, bytes: &[u8], rooms: [usize; 3], want: &drat::Filled) -> Verdict<()> {
    let got = library::read(format, bytes, rooms)?;
    if &got != want {
        return Err(format!("Read of {:?} {:?}\n document 01: {:?}\n the library: {:?}", format, bytes, want, got));
    }
    let want = drat::first_step(format, bytes).map(|(_, range)| range);
    let got = library::first_step(format, bytes);
    if got != want {
        return Err(format!("the first step of {:?} {:?}: {:?}, the library: {:?}", format, bytes, want, got));
    }
    Ok(())
}

#[cfg(feature = "library")]
fn write_of(format: Format, lists: &drat::Filled, room: usize, want: &Result<Vec<u8>, u32>) -> Verdict<()> {
    let got = library::write_proof(format, lists, room)?;
    if &got != want {
        return Err(format!("{:?} {:?} written in {}\n plainly: {:?}\n the library: {:?}", format, lists, room, want, got));
    }
    Ok(())
}

#[cfg(not(feature = "library"))]
pub fn soundness(_table: &Table) -> Verdict<()> {
    Ok(())
}

#[cfg(not(feature = "library"))]
pub fn open_in(_memory: &Table, _want: &crate::reading::Outcome) -> Verdict<()> {
    Ok(())
}

#[cfg(not(feature = "library"))]
pub fn read_of(_format: Format, _bytes: &[u8], _rooms: [usize; 3], _want: &drat::Filled) -> Verdict<()> {
    Ok(())
}

#[cfg(not(feature = "library"))]
fn write_of(_format: Format, _lists: &drat::Filled, _room: usize, _want: &Result<Vec<u8>, u32>) -> Verdict<()> {
    Ok(())
}
