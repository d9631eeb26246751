//! Variable names, notes, DRAT proof lines and DIMACS CNF files, over a static library whose every call is proved to do what documents 01
//! and 02 say.
//!
//! A [`Table`] gives variables three sorts of name: [`User`] indices for intake, [`Global`] indices for the proof, [`Solver`] indices for the
//! search. Each call on it answers a value or a [`Refusal`]; no argument makes one panic, and a refused call changes nothing.
//! What a call did to names it says in [`Notes`]; what it proved it writes as DRAT, in either [`Format`].
//!
//! A `Table` is known to be sound, and its calls do not test it. For words of the caller's own there are [`Parts`], with the same calls, which read the
//! whole table first and refuse one that is not sound.
//!
//! ```
//! use hintzobar::{Format, Lit, Lits, Step, Table, User};
//!
//! let mut table = Table::open(16)?;
//! let mut notes = table.notes();
//!
//! // intake's literals 3 and -7, as the search will know them
//! let clause = [Lit::positive(User(2)), Lit::negative(User(6))];
//! let mut posed = [Lit::from_code(0); 2];
//! table.pose(&clause, false, &mut posed, &mut notes)?;
//!
//! // a line of the proof, under global names
//! let mut proof = [0; 64];
//! let n = table.write(Format::Text, Step::AtClause(false), Lits::Solver(&posed), &[], &mut proof)?;
//! assert_eq!(&proof[..n], b"3 -7 0\n");
//! # Ok::<(), hintzobar::Refusal>(())
//! ```
//!
//! How full the table is, and which solver index comes next, [`Table::fill`] says at any time.
//!
//! The clauses themselves go out and come in as DIMACS CNF, by [`write_cnf`] and [`read_cnf`].
#![deny(missing_docs)]

mod answers;
mod binary;
mod cnf;
mod ffi;
mod fill;
mod names;
mod parts;
mod proof;
mod refusal;
mod table;
mod users;

pub use binary::Thinned;
pub use cnf::{read_cnf, write_cnf, Cnf};
pub use fill::Fill;
pub use names::{Global, Lit, Name, Note, Notes, Solver, User};
pub use parts::{Counts, Lists, Parts};
pub use proof::{first_range, first_step, read, write_clause, write_proof, Cause, Format, Lits, Reading, Renamed, Step};
pub use refusal::{Place, Refusal};
pub use table::{Made, Mark, Mode, Simplified, Table};
pub use users::UsersToMap;
