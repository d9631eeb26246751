//! The calls that a table and its parts have in common, for what is to be done with either.
use hintzobar::{
    Format, Global, Lit, Lits, Mark, Mode, Notes, Parts, Refusal, Renamed, Simplified, Solver, Step, Table, Thinned, User,
};

macro_rules! calls {
    (
        $(look $look:ident($index:ident: $i:ty) -> $found:ty;)*
        $(fn $name:ident($($arg:ident: $t:ty),*) -> $answer:ty;)*
    ) => {
        /// Lookups are refused by the parts alone. The oracle and the benchmarks each use some of the calls.
        #[allow(dead_code)]
        pub trait Calls: From<Table> {
            fn parts(&self) -> &Parts;
            $(fn $look(&self, $index: $i) -> Result<Option<$found>, Refusal>;)*
            $(fn $name(&mut self, $($arg: $t),*) -> Result<$answer, Refusal>;)*
        }

        impl Calls for Parts {
            fn parts(&self) -> &Parts {
                self
            }

            $(#[inline]
            fn $look(&self, $index: $i) -> Result<Option<$found>, Refusal> {
                Parts::$look(self, $index)
            })*

            $(#[inline]
            fn $name(&mut self, $($arg: $t),*) -> Result<$answer, Refusal> {
                Parts::$name(self, $($arg),*)
            })*
        }

        impl Calls for Table {
            fn parts(&self) -> &Parts {
                Table::parts(self)
            }

            $(#[inline]
            fn $look(&self, $index: $i) -> Result<Option<$found>, Refusal> {
                Ok(Table::$look(self, $index))
            })*

            $(#[inline]
            fn $name(&mut self, $($arg: $t),*) -> Result<$answer, Refusal> {
                Table::$name(self, $($arg),*)
            })*
        }
    };
}

calls! {
    look global_from_user(user: User) -> Global;
    look user_from_global(global: Global) -> User;
    look solver_from_global(global: Global) -> Solver;
    look global_from_solver(solver: Solver) -> Global;
    look record(global: Global) -> u32;
    look assignment(solver: Solver) -> u32;
    fn reopen(capacity: u32) -> ();
    fn map(user: User, sampling: bool, notes: &mut Notes) -> Global;
    fn new_user(notes: &mut Notes) -> (User, Global);
    fn pose(lits: &[Lit<User>], sampling: bool, out: &mut [Lit<Solver>], notes: &mut Notes) -> usize;
    fn grant(global: Global, notes: &mut Notes) -> Solver;
    fn set_mode(global: Global, mode: Mode, notes: &mut Notes) -> Option<User>;
    fn observe(out: &mut [User], notes: &mut Notes) -> usize;
    fn mark(mark: Mark, solver: Solver) -> ();
    fn assign(lit: Lit<Solver>) -> ();
    fn remove(solver: Solver, notes: &mut Notes) -> ();
    fn sweep(notes: &mut Notes) -> ();
    fn simplify(format: Format, lits: &[Lit<Solver>], redundant: bool, out: &mut [Lit<Solver>], proof: &mut [u8]) -> Simplified;
    fn simplify_binary(format: Format, lists: &[u32], out: &mut [u32], proof: &mut [u8]) -> Thinned;
    fn rename(step: Step, lits: Lits, hashes: &[u64], out: &mut [Lit<Global>], hash_out: &mut [u64]) -> Renamed;
    fn write(format: Format, step: Step, lits: Lits, hashes: &[u64], proof: &mut [u8]) -> usize;
    fn model(globals: &mut [u32], users: &mut [Lit<User>]) -> (usize, usize);
}
