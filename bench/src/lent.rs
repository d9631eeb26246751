//! Memory that the library's calls fill, enough for any of them.
use hintzobar::{Global, Lit, Notes, Solver, Table, User};

pub struct Lent {
    pub notes: Notes,
    pub solver_lits: Vec<Lit<Solver>>,
    pub global_lits: Vec<Lit<Global>>,
    pub user_lits: Vec<Lit<User>>,
    pub users: Vec<User>,
    pub words: Vec<u32>,
    pub bytes: Vec<u8>,
}

impl Lent {
    pub fn new(table: &Table) -> Lent {
        let capacity = table.counts().capacity as usize;
        Lent {
            notes: table.notes(),
            solver_lits: vec![Lit::from_code(0); 8192],
            global_lits: vec![Lit::from_code(0); 8192],
            user_lits: vec![Lit::from_code(0); capacity],
            users: vec![User(0); capacity],
            words: vec![0; capacity],
            bytes: vec![0; 4096],
        }
    }

    pub fn note_words(&self) -> &[u32] {
        &self.notes.words()[..3 * self.notes.len()]
    }
}
