//! The exported functions, as include/hintzobar.h declares them. Any numbers and any words are allowed in every argument, but for those of `known`;
//! slices come from references, so they are aligned, not null, and apart from each other where they are to be changed.

pub use crate::Counts;

#[repr(C)]
#[derive(Clone, Copy, PartialEq, Eq)]
pub struct Step {
    pub kind: u32,
    pub a: u32,
    pub b: u32,
}

#[repr(C)]
pub struct Changed {
    pub refusal: u32,
    pub counts: Counts,
}

#[repr(C)]
pub struct Noted {
    pub refusal: u32,
    pub counts: Counts,
    pub notes: u32,
}

#[repr(C)]
pub struct Found {
    pub refusal: u32,
    pub found: bool,
    pub value: u32,
}

#[repr(C)]
pub struct Mapped {
    pub refusal: u32,
    pub counts: Counts,
    pub global: u32,
    pub notes: u32,
}

#[repr(C)]
pub struct NewMapped {
    pub refusal: u32,
    pub counts: Counts,
    pub user: u32,
    pub global: u32,
    pub notes: u32,
}

#[repr(C)]
pub struct Granted {
    pub refusal: u32,
    pub counts: Counts,
    pub solver: u32,
    pub notes: u32,
}

#[repr(C)]
pub struct ModeSet {
    pub refusal: u32,
    pub counts: Counts,
    pub granted: bool,
    pub user: u32,
    pub notes: u32,
}

#[repr(C)]
pub struct Posed {
    pub refusal: u32,
    pub counts: Counts,
    pub filled: u32,
    pub notes: u32,
}

#[repr(C)]
pub struct Users {
    pub refusal: u32,
    pub users: u32,
    pub grants: u32,
}

#[repr(C)]
pub struct Simplified {
    pub refusal: u32,
    pub made: u32,
    pub lits: usize,
    pub redundant: bool,
    pub bytes: usize,
}

#[repr(C)]
pub struct Thinned {
    pub refusal: u32,
    pub words: usize,
    pub half: usize,
    pub bytes: usize,
}

#[repr(C)]
pub struct Renamed {
    pub refusal: u32,
    pub step: Step,
    pub lits: usize,
    pub hashes: usize,
}

#[repr(C)]
pub struct RenamedIn {
    pub refusal: u32,
    pub lits: usize,
}

#[repr(C)]
pub struct Written {
    pub refusal: u32,
    pub bytes: usize,
}

#[repr(C)]
pub struct Modelled {
    pub refusal: u32,
    pub globals: u32,
    pub users: u32,
}

#[repr(C)]
pub struct Reading {
    pub refusal: u32,
    pub place: usize,
    pub lits: usize,
    pub steps: usize,
}

#[repr(C)]
pub struct Cnf {
    pub refusal: u32,
    pub place: usize,
    pub variables: u32,
    pub lits: usize,
    pub clauses: usize,
}

#[repr(C)]
pub struct First {
    pub refusal: u32,
    pub place: usize,
    pub length: usize,
}

/// Declares exported functions and gives each a safe form, or an unsafe one where it has a precondition: a slice becomes a pointer and a length,
/// `table` and `lent` the table's six lists, to be changed and only read.
macro_rules! exported {
    ($(fn $name:ident = $symbol:ident($($args:tt)*) -> $answer:ty;)*) => {
        $(exported!(@next [] $name $symbol $answer, [$($args)*] [] [] []);)*
    };
    ($(unsafe fn $name:ident = $symbol:ident($($args:tt)*) -> $answer:ty;)*) => {
        $(exported!(@next [unsafe] $name $symbol $answer, [$($args)*] [] [] []);)*
    };
    // one argument after another: what is declared, what the form takes, what it passes on
    (@next $u:tt $name:ident $symbol:ident $answer:ty, [table $(, $($rest:tt)*)?] $d:tt $p:tt $a:tt) => {
        exported!(@next $u $name $symbol $answer, [
            gu: &mut [u32], ug: &mut [u32], sg: &mut [u32], gs: &mut [u32], assignment: &mut [u32], records: &mut [u32], $($($rest)*)?
        ] $d $p $a);
    };
    (@next $u:tt $name:ident $symbol:ident $answer:ty, [lent $(, $($rest:tt)*)?] $d:tt $p:tt $a:tt) => {
        exported!(@next $u $name $symbol $answer, [
            gu: &[u32], ug: &[u32], sg: &[u32], gs: &[u32], assignment: &[u32], records: &[u32], $($($rest)*)?
        ] $d $p $a);
    };
    (@next $u:tt $name:ident $symbol:ident $answer:ty,
        [$arg:ident: &mut [$t:ty] $(, $($rest:tt)*)?] [$($d:tt)*] [$($p:tt)*] [$($a:tt)*]) => {
        exported!(@next $u $name $symbol $answer, [$($($rest)*)?]
            [$($d)* _: *mut $t, _: usize,] [$($p)* $arg: &mut [$t],] [$($a)* $arg.as_mut_ptr(), $arg.len(),]);
    };
    (@next $u:tt $name:ident $symbol:ident $answer:ty,
        [$arg:ident: &[$t:ty] $(, $($rest:tt)*)?] [$($d:tt)*] [$($p:tt)*] [$($a:tt)*]) => {
        exported!(@next $u $name $symbol $answer, [$($($rest)*)?]
            [$($d)* _: *const $t, _: usize,] [$($p)* $arg: &[$t],] [$($a)* $arg.as_ptr(), $arg.len(),]);
    };
    (@next $u:tt $name:ident $symbol:ident $answer:ty, [$arg:ident: $t:ty $(, $($rest:tt)*)?] [$($d:tt)*] [$($p:tt)*] [$($a:tt)*]) => {
        exported!(@next $u $name $symbol $answer, [$($($rest)*)?] [$($d)* _: $t,] [$($p)* $arg: $t,] [$($a)* $arg,]);
    };
    (@next [$($unsafe:tt)?] $name:ident $symbol:ident $answer:ty, [] [$($d:tt)*] [$($p:tt)*] [$($a:tt)*]) => {
        #[allow(clippy::too_many_arguments)]
        #[inline]
        pub $($unsafe)? fn $name($($p)*) -> $answer {
            extern "C" {
                fn $symbol($($d)*) -> $answer;
            }
            // Sound: the library reads and writes only within the slices, which is proved; it has no precondition, or the caller keeps it.
            unsafe { $symbol($($a)*) }
        }
    };
}

exported! {
    fn open = hz_open(capacity: u32, table) -> Changed;
    fn is_sound = hz_is_sound(c: Counts, lent) -> bool;
    fn global_from_user = hz_global_from_user(c: Counts, lent, user: u32) -> Found;
    fn user_from_global = hz_user_from_global(c: Counts, lent, global: u32) -> Found;
    fn solver_from_global = hz_solver_from_global(c: Counts, lent, global: u32) -> Found;
    fn global_from_solver = hz_global_from_solver(c: Counts, lent, solver: u32) -> Found;
    fn record = hz_record(c: Counts, lent, global: u32) -> Found;
    fn assignment = hz_assignment(c: Counts, lent, solver: u32) -> Found;
    fn map = hz_map(c: Counts, table, user: u32, sampling: bool, notes: &mut [u32]) -> Mapped;
    fn new_user = hz_new_user(c: Counts, table, notes: &mut [u32]) -> NewMapped;
    fn pose = hz_pose(c: Counts, table, lits: &[u32], sampling: bool, out: &mut [u32], notes: &mut [u32]) -> Posed;
    fn users_to_map = hz_users_to_map(watermark: u32, gu: &[u32], sg: &[u32], lits: &[u32]) -> Users;
    fn users_to_map_plain = hz_users_to_map_plain(watermark: u32, gu: &[u32], sg: &[u32], lits: &[u32]) -> Users;
    fn grant = hz_grant(c: Counts, table, global: u32, notes: &mut [u32]) -> Granted;
    fn set_mode = hz_set_mode(c: Counts, table, global: u32, mode: u32, notes: &mut [u32]) -> ModeSet;
    fn observe = hz_observe(c: Counts, table, out: &mut [u32], notes: &mut [u32]) -> Posed;
    fn mark = hz_mark(c: Counts, table, mark: u32, solver: u32) -> Changed;
    fn assign = hz_assign(c: Counts, table, lit: u32) -> Changed;
    fn remove = hz_remove(c: Counts, table, solver: u32, notes: &mut [u32]) -> Noted;
    fn sweep = hz_sweep(c: Counts, table, notes: &mut [u32]) -> Noted;
    fn simplify = hz_simplify(c: Counts, lent, format: u32, lits: &[u32], redundant: bool, out: &mut [u32], proof: &mut [u8]) -> Simplified;
    fn simplify_binary = hz_simplify_binary(c: Counts, lent, format: u32, lists: &[u32], out: &mut [u32], proof: &mut [u8]) -> Thinned;
    fn rename = hz_rename(c: Counts, lent, step: Step, solver_vars: bool, lits: &[u32], hashes: &[u64], out: &mut [u32], hash_out: &mut [u64]) -> Renamed;
    fn write = hz_write(c: Counts, lent, format: u32, step: Step, solver_vars: bool, lits: &[u32], hashes: &[u64], proof: &mut [u8]) -> Written;
    fn write_clause = hz_write_clause(format: u32, kind: u32, lits: &[u32], a: usize, b: usize, proof: &mut [u8], at: usize) -> Written;
    fn write_proof = hz_write_proof(format: u32, codes: &[u32], ends: &[u64], kinds: &[u8], proof: &mut [u8]) -> Written;
    fn read = hz_read(format: u32, bytes: &[u8], codes: &mut [u32], ends: &mut [u64], kinds: &mut [u8]) -> Reading;
    fn first_step = hz_first_step(format: u32, bytes: &[u8]) -> First;
    fn write_cnf = hz_write_cnf(codes: &[u32], ends: &[u64], out: &mut [u8]) -> Written;
    fn read_cnf = hz_read_cnf(bytes: &[u8], codes: &mut [u32], ends: &mut [u64]) -> Cnf;
    fn model = hz_model(c: Counts, lent, globals: &mut [u32], users: &mut [u32]) -> Modelled;
}

// Lent only the lists that they touch, with no precondition: the answer is the call's on every sound table that has these lists. Where `map_in` and `grant_in` find nothing, and where `pose_in` says no, the call is refused or has more to do. `rename_in` is Rename of the solver
// literals of a step that carries literals, without hashes; UnitClauses only without literals.
exported! {
    fn global_from_user_in = hz_global_from_user_in(gu: &[u32], user: u32) -> Found;
    fn user_from_global_in = hz_user_from_global_in(ug: &[u32], global: u32) -> Found;
    fn solver_from_global_in = hz_solver_from_global_in(sg: &[u32], global: u32) -> Found;
    fn global_from_solver_in = hz_global_from_solver_in(gs: &[u32], solver: u32) -> Found;
    fn record_in = hz_record_in(watermark: u32, records: &[u32], global: u32) -> Found;
    fn assignment_in = hz_assignment_in(watermark: u32, assignment: &[u32], solver: u32) -> Found;
    fn mark_in = hz_mark_in(gs: &[u32], records: &mut [u32], mark: u32, solver: u32) -> u32;
    fn assign_in = hz_assign_in(gs: &[u32], assignment: &mut [u32], lit: u32) -> u32;
    fn map_in = hz_map_in(gu: &[u32], records: &[u32], user: u32, sampling: bool) -> Found;
    fn grant_in = hz_grant_in(sg: &[u32], global: u32) -> Found;
    fn pose_in = hz_pose_in(gu: &[u32], sg: &[u32], records: &[u32], lits: &[u32], sampling: bool, out: &mut [u32]) -> bool;
    fn rename_in = hz_rename_in(gs: &[u32], lits: &[u32], out: &mut [u32]) -> RenamedIn;
}

/// The calls that do not test the table.
///
/// # Safety
///
/// The counts and the lists are a sound table. Every user index below `ufrom` is mapped, and `ufrom` is at most the user watermark; no global below
/// `gfrom` is deleted, and `gfrom` is at most the global watermark.
pub mod known {
    use super::*;

    exported! {
        unsafe fn map = hz_known_map(c: Counts, table, user: u32, sampling: bool, gfrom: u32, notes: &mut [u32]) -> Mapped;
        unsafe fn new_user = hz_known_new_user(c: Counts, table, ufrom: u32, gfrom: u32, notes: &mut [u32]) -> NewMapped;
        unsafe fn pose = hz_known_pose(c: Counts, table, lits: &[u32], sampling: bool, gfrom: u32, out: &mut [u32], notes: &mut [u32]) -> Posed;
        unsafe fn grant = hz_known_grant(c: Counts, table, global: u32, notes: &mut [u32]) -> Granted;
        unsafe fn set_mode = hz_known_set_mode(c: Counts, table, global: u32, mode: u32, ufrom: u32, notes: &mut [u32]) -> ModeSet;
        unsafe fn observe = hz_known_observe(c: Counts, table, ufrom: u32, out: &mut [u32], notes: &mut [u32]) -> Posed;
        unsafe fn remove = hz_known_remove(c: Counts, table, solver: u32, notes: &mut [u32]) -> Noted;
        unsafe fn sweep = hz_known_sweep(c: Counts, table, notes: &mut [u32]) -> Noted;
        unsafe fn simplify = hz_known_simplify(c: Counts, lent, format: u32, lits: &[u32], redundant: bool, out: &mut [u32], proof: &mut [u8]) -> Simplified;
        unsafe fn simplify_binary = hz_known_simplify_binary(c: Counts, lent, format: u32, lists: &[u32], out: &mut [u32], proof: &mut [u8]) -> Thinned;
        unsafe fn rename = hz_known_rename(c: Counts, lent, step: Step, solver_vars: bool, lits: &[u32], hashes: &[u64], out: &mut [u32], hash_out: &mut [u64]) -> Renamed;
        unsafe fn write = hz_known_write(c: Counts, lent, format: u32, step: Step, solver_vars: bool, lits: &[u32], hashes: &[u64], proof: &mut [u8]) -> Written;
        unsafe fn model = hz_known_model(c: Counts, lent, globals: &mut [u32], users: &mut [u32]) -> Modelled;
    }
}
