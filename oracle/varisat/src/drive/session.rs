//! A session as a solver makes it: calls that are all accepted, drawn from a seed, one after the other, against the supplied functions.
use super::{lit, var, Oracle};
use crate::variables::data::SamplingMode;

/// A call and its arguments. Literals are codes; sampling is never required.
#[derive(Clone, Copy, PartialEq, Eq, Debug)]
pub enum Call {
    /// The map, numbered as in `Oracle::lookup`, and the index.
    Lookup(u32, u32),
    /// Of a global.
    Record(u32),
    /// Of a solver index.
    Value(u32),
    /// A user.
    Map(u32),
    /// The least unmapped user.
    NewUser,
    /// A clause of user literals.
    Pose([u32; 3]),
    /// A global.
    Grant(u32),
    /// A global, and the number of its mode.
    SetMode(u32, u32),
    /// All hidden globals.
    Observe,
    /// A solver index is in use.
    Used(u32),
    /// A solver index is assumed, or no longer.
    Assumed(u32, bool),
    /// A solver literal.
    Assign(u32),
    /// A solver index.
    Remove(u32),
    /// All solver indices.
    Sweep,
    /// A clause of solver literals, which follows.
    Rename([u32; 3]),
    /// The same, as a line.
    Write([u32; 3]),
    /// The model.
    Model,
}

/// How many of 10,000 calls are of each kind, about: Lookup, Pose, Assign, Mark, Write, Rename, Map, Grant, New user, Set mode, Remove, Sweep,
/// Observe, Model.
const SHARES: [u32; 14] = [3500, 1000, 900, 1000, 1300, 700, 600, 400, 200, 250, 150, 1, 1, 2];

/// So many assumptions at a time.
const ASSUMED: usize = 64;

/// So many calls on a table of this capacity, from its opening on. Half of it is mapped first; from then on it stays about half to three quarters
/// full.
pub fn calls(capacity: u32, count: usize, seed: u64) -> Vec<Call> {
    let random = 0x9e37_79b9_7f4a_7c15 ^ seed;
    let mut draw = Draw { oracle: Oracle::new(), random, capacity, used: 0, assumed: vec![] };
    let mut calls = Vec::with_capacity(count);
    calls.push(Call::Map(capacity / 2 - 1));
    draw.make(calls[0]);
    while calls.len() < count {
        if let Some(call) = draw.call() {
            draw.make(call);
            calls.push(call);
        }
    }
    calls
}

struct Draw {
    oracle: Oracle,
    random: u64,
    capacity: u32,
    /// How many globals are undeleted.
    used: u32,
    /// The solver indices that are assumed.
    assumed: Vec<u32>,
}

impl Draw {
    fn below(&mut self, bound: u32) -> u32 {
        self.random ^= self.random << 13;
        self.random ^= self.random >> 7;
        self.random ^= self.random << 17;
        ((self.random >> 11) % u64::from(bound.max(1))) as u32
    }

    fn one_in(&mut self, n: u32) -> bool {
        self.below(n) == 0
    }

    // ---- what the context holds

    /// Whether a few more users may be mapped.
    fn has_room(&self) -> bool {
        self.used < self.capacity / 4 * 3
    }

    /// A user that is mapped; or where there is room, now and then any up to the watermark.
    fn user(&mut self) -> Option<u32> {
        let (users, _, _) = self.oracle.watermarks();
        if self.has_room() && self.one_in(8) {
            return Some(self.below((users + 1).min(self.capacity)));
        }
        let user = self.below(users);
        (self.oracle.lookup(0, user) != 0).then_some(user)
    }

    /// An undeleted global.
    fn global(&mut self) -> Option<u32> {
        let (_, globals, _) = self.oracle.watermarks();
        let global = self.below(globals);
        (!self.oracle.ctx.variables.var_data_global(var(global)).deleted).then_some(global)
    }

    /// A solver index that is held, and its global.
    fn held(&mut self) -> Option<(u32, u32)> {
        let (_, _, solvers) = self.oracle.watermarks();
        let solver = self.below(solvers);
        self.oracle.lookup(3, solver).checked_sub(1).map(|global| (solver, global))
    }

    fn is_assumed(&self, global: u32) -> bool {
        self.oracle.ctx.variables.var_data_global(var(global)).assumed
    }

    fn is_hidden(&self, global: u32) -> bool {
        self.oracle.ctx.variables.var_data_global(var(global)).sampling_mode == SamplingMode::Hide
    }

    fn signed(&mut self, index: u32) -> u32 {
        2 * index + self.below(2)
    }

    fn clause(&mut self, index: fn(&mut Draw) -> Option<u32>) -> Option<[u32; 3]> {
        let mut clause = [0; 3];
        for code in &mut clause {
            let index = index(self)?;
            *code = self.signed(index);
        }
        Some(clause)
    }

    // ---- calls

    /// A call that is accepted; none where the arguments drawn do not allow one.
    fn call(&mut self) -> Option<Call> {
        let mut at = self.below(SHARES.iter().sum());
        let kind = SHARES.iter().position(|&share| {
            let here = at < share;
            at = at.wrapping_sub(share);
            here
        });
        Some(match kind? {
            0 => self.lookup(),
            1 => Call::Pose(self.clause(Draw::user)?),
            2 => {
                let (solver, _) = self.held()?;
                let code = self.signed(solver);
                self.oracle.ctx.assignment.lit_is_unk(lit(code)).then_some(Call::Assign(code))?
            }
            3 => self.mark()?,
            4 => Call::Write(self.clause(|draw| draw.held().map(|(solver, _)| solver))?),
            5 => Call::Rename(self.clause(|draw| draw.held().map(|(solver, _)| solver))?),
            6 => Call::Map(self.user()?),
            7 => Call::Grant(self.global()?),
            8 => self.has_room().then_some(Call::NewUser)?,
            9 => {
                let global = self.global().filter(|&global| !self.is_assumed(global))?;
                let mode = if self.used < self.capacity / 2 { self.below(2) } else { self.below(6).min(2) };
                Call::SetMode(global, mode)
            }
            10 => {
                let (solver, global) = self.held()?;
                (!self.is_assumed(global)).then_some(Call::Remove(solver))?
            }
            11 => Call::Sweep,
            12 => Call::Observe,
            _ => Call::Model,
        })
    }

    fn lookup(&mut self) -> Call {
        let (users, globals, solvers) = self.oracle.watermarks();
        match self.below(6) {
            0 => Call::Lookup(0, self.below(users)),
            3 => Call::Lookup(3, self.below(solvers.max(1))),
            4 => Call::Record(self.below(globals)),
            5 if solvers > 0 => Call::Value(self.below(solvers)),
            map => Call::Lookup(1 + map % 2, self.below(globals)),
        }
    }

    fn mark(&mut self) -> Option<Call> {
        let (solver, global) = self.held()?;
        if self.below(4) > 0 {
            return Some(Call::Used(solver));
        }
        if self.assumed.len() < ASSUMED && !self.is_hidden(global) && !self.is_assumed(global) {
            return Some(Call::Assumed(solver, true));
        }
        let last = *self.assumed.first()?;
        Some(Call::Assumed(last, false))
    }

    /// Makes the call; those that change nothing are left out.
    fn make(&mut self, call: Call) {
        let oracle = &mut self.oracle;
        let (notes, maps) = match call {
            Call::Map(user) => (oracle.map(user, false).1, true),
            Call::NewUser => (oracle.new_user().1, true),
            Call::Pose(clause) => (oracle.pose(&clause, false).1, true),
            Call::Grant(global) => (oracle.grant(global).1, false),
            Call::SetMode(global, mode) => (oracle.set_mode(global, mode).1, false),
            Call::Observe => (oracle.observe().1, false),
            Call::Remove(solver) => (oracle.remove(solver), false),
            Call::Sweep => (oracle.sweep(), false),
            Call::Used(solver) => return oracle.used(solver),
            Call::Assumed(solver, set) => {
                oracle.assumed(solver, set);
                self.assumed.retain(|&other| other != solver);
                return if set {
                    self.assumed.push(solver)
                };
            }
            Call::Assign(code) => return oracle.assign(code),
            Call::Lookup(..) | Call::Record(_) | Call::Value(_) | Call::Rename(_) | Call::Write(_) | Call::Model => return,
        };
        for note in notes.chunks(3) {
            self.used += (maps && note[0] == 0) as u32;
            self.used -= (note[0] == 2) as u32;
        }
    }
}
