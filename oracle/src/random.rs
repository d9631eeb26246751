//! Random calls, random sound tables and damaged ones, all from a seed.
use crate::call::{Call, Format, Mark, ProofStep, ASKED, CAUSES, MARKS};
use crate::lists;
use crate::reading::{Table, FRESH, MOST_LITERALS};

/// xorshift64*
pub struct Rng(u64);

impl Rng {
    pub fn new(seed: u64) -> Rng {
        let mut rng = Rng(seed.wrapping_mul(0x9e37_79b9_7f4a_7c15) | 1);
        (0..4).for_each(|_| {
            rng.next();
        });
        rng
    }

    pub fn next(&mut self) -> u64 {
        self.0 ^= self.0 >> 12;
        self.0 ^= self.0 << 25;
        self.0 ^= self.0 >> 27;
        self.0.wrapping_mul(0x2545_f491_4f6c_dd1d)
    }

    /// Below n, which is above 0.
    pub fn below(&mut self, n: u64) -> u64 {
        (self.next() >> 16) % n
    }

    pub fn index(&mut self, n: usize) -> usize {
        self.below(n as u64) as usize
    }

    pub fn one_in(&mut self, n: u64) -> bool {
        self.below(n) == 0
    }

    pub fn of<T: Copy>(&mut self, all: &[T]) -> T {
        all[self.index(all.len())]
    }

    pub fn flag(&mut self) -> bool {
        self.one_in(2)
    }

    pub fn shuffle<T>(&mut self, all: &mut [T]) {
        for i in (1..all.len()).rev() {
            all.swap(i, self.index(i + 1));
        }
    }
}

/// How often each kind of call is made in a session; drawn anew for each, so that some hide much, some remove much, some only write.
pub struct Style {
    weights: [u64; 16],
    /// One in so many arguments is any number at all.
    wild: u64,
    /// The most literals in a clause.
    longest: usize,
}

const USUAL: [u64; 16] = [4, 8, 5, 6, 8, 12, 3, 12, 10, 8, 4, 10, 5, 8, 3, 10];

impl Style {
    pub fn draw(rng: &mut Rng, capacity: u32) -> Style {
        let mut weights = USUAL;
        for weight in &mut weights {
            *weight = 1 + *weight * rng.below(9) / 4;
        }
        let longest = match rng.below(8) {
            0 if capacity >= 64 => 300,
            1..=3 => 3,
            _ => 8,
        };
        Style { weights, wild: 4 + rng.below(40), longest }
    }

    fn kind(&self, rng: &mut Rng) -> usize {
        let mut left = rng.below(self.weights.iter().sum());
        for (kind, &weight) in self.weights.iter().enumerate() {
            if left < weight {
                return kind;
            }
            left -= weight;
        }
        unreachable!()
    }
}

/// Any number, the ends of ranges more often.
fn any(rng: &mut Rng, capacity: u32) -> u32 {
    match rng.below(6) {
        0 => capacity,
        1 => capacity + 1,
        2 => u32::MAX - rng.below(3) as u32,
        3 => (1 << 31) + rng.below(3) as u32,
        4 => rng.next() as u32,
        _ => rng.below(u64::from(capacity) * 2 + 2) as u32,
    }
}

/// An index: below the mark mostly, else below the capacity, else any.
fn index(rng: &mut Rng, wild: u64, mark: u32, capacity: u32) -> u32 {
    if rng.one_in(wild) {
        return any(rng, capacity);
    }
    if mark > 0 && !rng.one_in(5) {
        return rng.below(mark.into()) as u32;
    }
    if rng.flag() {
        return mark.min(capacity - 1);
    }
    rng.below(capacity.into()) as u32
}

/// A user index: a gap of thousands is made rarely.
fn user(rng: &mut Rng, t: &Table, wild: u64) -> u32 {
    let c = t.counts;
    if c.capacity > 64 && !rng.one_in(200) {
        let top = (c.user + 1 + rng.below(12) as u32).min(c.capacity);
        return if rng.one_in(wild) { any(rng, c.capacity) } else { rng.below(top.into()) as u32 };
    }
    index(rng, wild, c.user, c.capacity)
}

/// A solver index that is held, if there is one within a few tries.
fn solver(rng: &mut Rng, t: &Table, wild: u64) -> u32 {
    for _ in 0..8 {
        let s = index(rng, wild, t.counts.solver, t.counts.capacity);
        if !t.not_held(s) || rng.one_in(wild) {
            return s;
        }
    }
    index(rng, wild, t.counts.solver, t.counts.capacity)
}

fn signed(rng: &mut Rng, index: u32) -> u32 {
    index.wrapping_mul(2).wrapping_add(rng.below(2) as u32)
}

/// How many literals: few mostly; in a large table now and then the most there may be, or one more.
fn length(rng: &mut Rng, t: &Table, longest: usize) -> usize {
    if t.counts.capacity >= 64 && rng.one_in(400) {
        return MOST_LITERALS - 1 + rng.index(3);
    }
    if rng.one_in(12) {
        return 0;
    }
    1 + rng.index(longest)
}

fn solver_lits(rng: &mut Rng, t: &Table, wild: u64, longest: usize) -> Vec<u32> {
    let n = length(rng, t, longest);
    let wild = wild * n.max(1) as u64;
    let held: Vec<u32> = (0..t.counts.solver).filter(|&s| !t.not_held(s)).collect();
    (0..n)
        .map(|_| {
            let s = if held.is_empty() || rng.one_in(wild) {
                index(rng, wild, t.counts.solver, t.counts.capacity)
            } else {
                rng.of(&held)
            };
            signed(rng, s)
        })
        .collect()
}

fn user_lits(rng: &mut Rng, t: &Table, wild: u64, longest: usize) -> Vec<u32> {
    let n = length(rng, t, longest);
    let wild = wild * n.max(1) as u64;
    if n > 1000 {
        let top = t.counts.capacity.min(t.counts.user + 600);
        return (0..n)
            .map(|_| {
                let u = rng.below(top.into()) as u32;
                signed(rng, u)
            })
            .collect();
    }
    (0..n)
        .map(|_| {
            let u = user(rng, t, wild);
            signed(rng, u)
        })
        .collect()
}

fn global_lits(rng: &mut Rng, t: &Table, wild: u64, longest: usize) -> Vec<u32> {
    let n = length(rng, t, longest);
    let wild = wild * n.max(1) as u64;
    (0..n)
        .map(|_| {
            let g = if rng.one_in(wild) { any(rng, t.counts.capacity) } else { rng.below(t.counts.capacity.into()) as u32 };
            signed(rng, g)
        })
        .collect()
}

fn proof_step(rng: &mut Rng, t: &Table) -> ProofStep {
    let name = |rng: &mut Rng| if rng.one_in(9) { rng.next() as u32 } else { rng.below(u64::from(t.counts.capacity) + 2) as u32 };
    match rng.below(20) {
        0 => ProofStep::AddClause,
        1..=4 => ProofStep::AtClause(rng.flag()),
        5..=7 => ProofStep::UnitClauses,
        8..=10 => ProofStep::DeleteClause(rng.of(&CAUSES)),
        11 => ProofStep::Model,
        12 => ProofStep::Assumptions,
        13 => ProofStep::FailedAssumptions,
        14 => ProofStep::SolverVarName(name(rng), name(rng)),
        15 => ProofStep::UserVarName(name(rng), name(rng)),
        16 => ProofStep::DeleteVar(name(rng)),
        17 => ProofStep::ChangeSamplingMode(name(rng), rng.flag()),
        18 => ProofStep::ChangeHashBits(rng.next() as u32),
        _ => ProofStep::End,
    }
}

fn step_parts(rng: &mut Rng, t: &Table, style: &Style) -> (ProofStep, bool, Vec<u32>, Vec<u64>) {
    let step = proof_step(rng, t);
    let solver_vars = !rng.one_in(3);
    let lits =
        if solver_vars { solver_lits(rng, t, style.wild, style.longest) } else { global_lits(rng, t, style.wild, style.longest) };
    let matched = step == ProofStep::UnitClauses && !rng.one_in(6);
    let count = if matched { lits.len() } else { rng.index(5) };
    let hashes = (0..count).map(|_| rng.next()).collect();
    (step, solver_vars, lits, hashes)
}

/// A call with room for anything.
fn roomy(rng: &mut Rng, t: &Table, style: &Style) -> Call {
    let c = t.counts;
    let wild = style.wild;
    let all = usize::MAX;
    match style.kind(rng) {
        0 => {
            let mark = c.global.max(1);
            Call::Lookup { asked: rng.of(&ASKED), index: index(rng, wild, mark, c.capacity) }
        }
        1 => Call::Map { user: user(rng, t, wild), sampling: rng.flag(), room: all },
        2 => Call::NewUser { room: all },
        3 => Call::Pose { lits: user_lits(rng, t, wild, style.longest), sampling: rng.flag(), outs: all, room: all },
        4 => Call::Grant { global: index(rng, wild, c.global, c.capacity), room: all },
        5 => {
            let mode = if rng.flag() { 2 } else { rng.below(3) as u32 };
            Call::SetMode { global: index(rng, wild, c.global, c.capacity), mode, room: all }
        }
        6 => Call::Observe { outs: all, room: all },
        7 => {
            let mark = if rng.one_in(3) { Mark::Released } else { rng.of(&MARKS) };
            Call::Mark { mark, solver: solver(rng, t, wild) }
        }
        8 => {
            let s = solver(rng, t, wild);
            Call::Assign { lit: signed(rng, s) }
        }
        9 => Call::Remove { solver: solver(rng, t, wild), room: all },
        10 => Call::Sweep { room: all },
        11 => Call::Simplify { lits: solver_lits(rng, t, wild, style.longest), redundant: rng.flag(), outs: all, room: all },
        12 => {
            let (step, solver_vars, lits, hashes) = step_parts(rng, t, style);
            Call::Rename { step, solver_vars, lits, hashes, outs: all, hash_outs: all }
        }
        13 => {
            let (step, solver_vars, lits, hashes) = step_parts(rng, t, style);
            Call::Write { step, solver_vars, lits, hashes, room: all }
        }
        14 => Call::Model { globals: all, users: all },
        _ => Call::SimplifyBinary { lists: lists::draw(rng, t), outs: all, room: all },
    }
}

/// A call whose rooms are what it needs, a little more, or now and then too little.
pub fn call(rng: &mut Rng, format: Format, t: &Table, style: &Style) -> Call {
    let call = roomy(rng, t, style);
    in_rooms(rng, format, t, call)
}

/// Lists of binary clauses likewise.
pub fn binary(rng: &mut Rng, format: Format, t: &Table) -> Call {
    let call = Call::SimplifyBinary { lists: lists::draw(rng, t), outs: usize::MAX, room: usize::MAX };
    in_rooms(rng, format, t, call)
}

/// The call with just the rooms that it needs.
pub fn roomed(format: Format, t: &Table, mut call: Call) -> Call {
    let needed = call.filled(&call.read(format, t));
    call.rooms().into_iter().zip(needed).for_each(|(room, needed)| *room = needed);
    call
}

fn in_rooms(rng: &mut Rng, format: Format, t: &Table, mut call: Call) -> Call {
    let needed = call.filled(&call.read(format, t));
    let short = rng.one_in(10);
    for (room, needed) in call.rooms().into_iter().zip(needed) {
        *room = needed + [0, 0, 1, 7][rng.index(4)];
        if short && rng.flag() {
            *room = if rng.flag() { needed.saturating_sub(1) } else { rng.index(needed + 1) };
        }
    }
    call
}

/// A sound table of this capacity, which calls need not reach.
pub fn sound_table(rng: &mut Rng, capacity: u32) -> Table {
    let mut t = Table::empty(capacity);
    let globals = rng.below(u64::from(capacity) + 1) as u32;
    t.counts.global = globals;
    t.counts.user = rng.below(u64::from(globals) + 1) as u32;
    t.counts.solver = rng.below(u64::from(globals) + 1) as u32;
    let mut users: Vec<u32> = (0..t.counts.user).collect();
    let mut solvers: Vec<u32> = (0..t.counts.solver).collect();
    rng.shuffle(&mut users);
    rng.shuffle(&mut solvers);
    let mut order: Vec<u32> = (0..globals).collect();
    rng.shuffle(&mut order);
    let (hide, grant) = (1 + rng.below(6), 1 + rng.below(6));
    for g in order {
        let (unit, assumed) = (rng.below(3) as u32, rng.below(2) as u32);
        let mut record = 2 + 3 * unit + 9 * rng.below(2) as u32 + 18 * assumed;
        let mut deleted = rng.one_in(4);
        if !rng.one_in(hide) {
            if let Some(user) = users.pop() {
                t.give_user(g, user, 0);
                record = record - 2 + rng.below(2) as u32;
                deleted = false;
            }
        }
        if !deleted && !rng.one_in(grant) {
            if let Some(solver) = solvers.pop() {
                t.give_solver(g, solver);
            }
        }
        t.records[g as usize] = if deleted { 47 + 3 * unit + 18 * assumed - record_unit(FRESH) } else { record };
    }
    for word in &mut t.assignment[..t.counts.solver as usize] {
        *word = rng.below(3) as u32;
    }
    t.recount();
    debug_assert!(t.is_sound());
    t
}

fn record_unit(record: u32) -> u32 {
    3 * (record / 3 % 3)
}

/// The table with one thing changed; most often it is then unsound. A third of them have a wrong stored number and are unsound by that alone. In
/// most others the stored numbers are counted anew after the change, so that it alone is judged.
pub fn damaged(rng: &mut Rng, t: &Table) -> Table {
    let mut t = t.clone();
    if rng.one_in(3) {
        let (c, number) = (t.counts, if rng.flag() { &mut t.counts.used } else { &mut t.counts.next });
        *number = damaged_number(rng, *number, c.capacity);
        debug_assert!(!t.is_sound() && t.recounted() == c);
        return t;
    }
    damage(rng, &mut t);
    if !rng.one_in(4) {
        t.recount();
    }
    t
}

/// One change of the lists, of their lengths, of the capacity or of a watermark.
fn damage(rng: &mut Rng, t: &mut Table) {
    let capacity = t.counts.capacity;
    match rng.below(12) {
        0 => t.counts.capacity = [0, capacity + 1, capacity - 1, 4097, u32::MAX][rng.index(5)],
        1 => t.counts.user = damaged_mark(rng, t.counts.user, capacity),
        2 => t.counts.global = damaged_mark(rng, t.counts.global, capacity),
        3 => t.counts.solver = damaged_mark(rng, t.counts.solver, capacity),
        4 => {
            let list = rng.index(6);
            let list = t.lists_mut().into_iter().nth(list).unwrap();
            if rng.flag() {
                list.pop();
            } else {
                list.push(0);
            }
        }
        _ => {
            let list = rng.index(6);
            let at = rng.index(capacity as usize);
            let word = match rng.below(5) {
                0 => rng.next() as u32,
                1 => u32::MAX,
                2 => [36, 37, 45, 47, 71, 72, 2, 3, 0, 9][rng.index(10)],
                _ => rng.below(u64::from(capacity) + 2) as u32,
            };
            t.lists_mut().into_iter().nth(list).unwrap()[at] = word;
        }
    }
}

/// Another number: off by one, at an end of its range, or any.
fn damaged_number(rng: &mut Rng, number: u32, capacity: u32) -> u32 {
    loop {
        let near = [number.wrapping_sub(1), number + 1, 0, capacity, u32::MAX, any(rng, capacity)];
        let other = rng.of(&near);
        if other != number {
            return other;
        }
    }
}

fn damaged_mark(rng: &mut Rng, mark: u32, capacity: u32) -> u32 {
    [mark.wrapping_sub(1), mark + 1, capacity, capacity + 1, 0, u32::MAX][rng.index(6)]
}

/// The text with other separators: one or more for each, any number before the first token and after the last.
pub fn rebroken(rng: &mut Rng, text: &[u8]) -> Vec<u8> {
    let mut broken = separators(rng, 0);
    for word in text.split(|byte| b" \n".contains(byte)).filter(|word| !word.is_empty()) {
        broken.extend(word);
        broken.extend(separators(rng, 1));
    }
    if rng.one_in(3) && !broken.is_empty() {
        let end = broken.iter().rposition(|byte| !b" \n".contains(byte)).map_or(0, |last| last + 1);
        broken.truncate(end);
    }
    broken
}

fn separators(rng: &mut Rng, least: usize) -> Vec<u8> {
    let more = if rng.one_in(4) { rng.index(5) } else { 0 };
    (0..least + more).map(|_| rng.of(b" \n")).collect()
}
