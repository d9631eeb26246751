//! Clauses as a DIMACS CNF file, out and in.
use crate::{ffi, Global, Lit, Refusal};

/// What [`read_cnf`] read.
#[derive(Clone, Copy, PartialEq, Eq, Hash, Debug)]
pub struct Cnf {
    /// The header's number of variables, which no literal's number exceeds. It may be larger than all of them.
    pub variables: u32,
    /// How many literals were filled.
    pub lits: usize,
    /// How many ends were filled: the header's number of clauses.
    pub clauses: usize,
}

/// Writes clauses, the literals of all of them in a row and where each ends in it, as a DIMACS CNF file: a header `p cnf V C` with the largest
/// variable's number (0 if there is none) and the number of clauses, then a line for each clause. Answers how many bytes it took. Refusals:
/// 3 where an index is 4,096 or more or the ends fall, pass the last literal or leave it out, 2.
///
/// To lend: the bytes of the file; 6 for each literal, 2 for each clause and 32 for the header are enough.
///
/// ```
/// use hintzobar::{write_cnf, Global, Lit, Refusal};
/// let lits = [Lit::positive(Global(0)), Lit::negative(Global(6)), Lit::positive(Global(2))];
/// let mut file = [0; 32];
/// let end = write_cnf(&lits, &[2, 2, 3], &mut file)?;
/// assert_eq!(&file[..end], b"p cnf 7 3\n1 -7 0\n0\n3 0\n");
///
/// let left_out = write_cnf(&lits, &[2], &mut file);
/// assert_eq!(left_out, Err(Refusal::OutOfRange));
/// # Ok::<(), Refusal>(())
/// ```
pub fn write_cnf(lits: &[Lit<Global>], ends: &[u64], file: &mut [u8]) -> Result<usize, Refusal> {
    let answer = ffi::write_cnf(crate::names::codes(lits), ends, file);
    Refusal::check(answer.refusal, 0)?;
    Ok(answer.bytes)
}

/// Reads a DIMACS CNF file of the form that [`write_cnf`] writes; lines that start with `c` may stand before the header, and the header's number
/// of variables may be any up to 4,096 that no literal's number exceeds. Fills the literals of all clauses in a row, and where each ends in it.
/// Refusals: 17, 2.
///
/// To lend: a literal for each one in the file, an end for each clause. As many of each as half the bytes is enough.
///
/// ```
/// use hintzobar::{read_cnf, Cnf, Global, Lit, Refusal};
/// let (mut lits, mut ends) = ([Lit::from_code(0); 4], [0; 2]);
/// let cnf = read_cnf(b"c two boxes\np cnf 9 2\n1 -7 0\n3 0\n", &mut lits, &mut ends)?;
/// assert_eq!(cnf, Cnf { variables: 9, lits: 3, clauses: 2 });
/// assert_eq!(lits[..3], [Lit::positive(Global(0)), Lit::negative(Global(6)), Lit::positive(Global(2))]);
/// assert_eq!(ends, [2, 3]);
///
/// let above = read_cnf(b"p cnf 6 2\n1 2 0\n3 -7 0\n", &mut lits, &mut ends);
/// assert_eq!(above, Err(Refusal::BadCnf(16)));
/// # Ok::<(), Refusal>(())
/// ```
pub fn read_cnf(file: &[u8], lits: &mut [Lit<Global>], ends: &mut [u64]) -> Result<Cnf, Refusal> {
    let answer = ffi::read_cnf(file, crate::names::codes_mut(lits), ends);
    Refusal::check(answer.refusal, answer.place)?;
    Ok(Cnf { variables: answer.variables, lits: answer.lits, clauses: answer.clauses })
}
