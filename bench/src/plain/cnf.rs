//! A plain reader and a plain writer of DIMACS CNF, in the same strict form. The reader makes one pass and stops at the first fault with the
//! start of the wrong line.
use std::io::Write;

use hintzobar::{Global, Lit};

/// What was read. The vectors are kept from one file to the next, so that no memory is asked for while the time is taken.
#[derive(Clone, PartialEq, Eq, Debug, Default)]
pub struct Cnf {
    pub variables: u32,
    pub codes: Vec<u32>,
    pub ends: Vec<u64>,
}

#[inline(never)]
pub fn read(file: &[u8], cnf: &mut Cnf) -> Result<(), usize> {
    cnf.codes.clear();
    cnf.ends.clear();
    let header = comments(file);
    let (variables, count, mut at) = header_line(file, header).ok_or(header)?;
    cnf.variables = variables;
    while at < file.len() {
        at = line(file, at, variables, &mut cnf.codes).ok_or(at)?;
        cnf.ends.push(cnf.codes.len() as u64);
    }
    if count != cnf.ends.len() as u64 {
        return Err(header);
    }
    Ok(())
}

/// The place after the `c` lines.
fn comments(file: &[u8]) -> usize {
    let mut at = 0;
    while file.get(at) == Some(&b'c') {
        match file[at..].iter().position(|&byte| byte == b'\n') {
            Some(length) => at += length + 1,
            None => return file.len(),
        }
    }
    at
}

/// The numbers of variables and of clauses, and the place after the line.
fn header_line(file: &[u8], start: usize) -> Option<(u32, u64, usize)> {
    if !file[start..].starts_with(b"p cnf ") {
        return None;
    }
    let (variables, at) = count(file, start + 6, b' ')?;
    let (clauses, at) = count(file, at, b'\n')?;
    (variables <= 4096).then_some((variables as u32, clauses, at))
}

/// A number of the header and the byte that closes it. One beyond all counts stays at the greatest.
fn count(file: &[u8], start: usize, close: u8) -> Option<(u64, usize)> {
    let mut at = start;
    let mut value = 0u64;
    while let Some(digit @ b'0'..=b'9') = file.get(at) {
        value = value.saturating_mul(10).saturating_add(u64::from(digit - b'0'));
        at += 1;
    }
    let padded = at > start + 1 && file[start] == b'0';
    (at > start && !padded && file.get(at) == Some(&close)).then_some((value, at + 1))
}

/// The place after the line.
#[inline]
fn line(file: &[u8], start: usize, variables: u32, codes: &mut Vec<u32>) -> Option<usize> {
    let mut at = start;
    loop {
        let mut first = *file.get(at)?;
        at += 1;
        if first == b'0' {
            return (file.get(at) == Some(&b'\n')).then_some(at + 1);
        }
        let negative = first == b'-';
        if negative {
            first = *file.get(at)?;
            at += 1;
        }
        if !(b'1'..=b'9').contains(&first) {
            return None;
        }
        let mut magnitude = u32::from(first - b'0');
        loop {
            if magnitude > variables {
                return None;
            }
            let byte = *file.get(at)?;
            at += 1;
            match byte {
                b' ' => break,
                b'0'..=b'9' => magnitude = 10 * magnitude + u32::from(byte - b'0'),
                _ => return None,
            }
        }
        codes.push(2 * (magnitude - 1) + u32::from(negative));
    }
}

/// The clauses that end there among the literals, to the end of `file`. Nothing is judged beforehand; an end out of place panics.
#[inline(never)]
pub fn write(lits: &[Lit<Global>], ends: &[u64], file: &mut Vec<u8>) {
    let largest = lits.iter().map(|lit| lit.code() / 2 + 1).max().unwrap_or(0);
    writeln!(file, "p cnf {largest} {}", ends.len()).unwrap();
    let mut start = 0;
    for &end in ends {
        for lit in &lits[start..end as usize] {
            number(lit.code(), file);
        }
        file.extend_from_slice(b"0\n");
        start = end as usize;
    }
}

/// The number and its blank.
#[inline]
fn number(code: u32, file: &mut Vec<u8>) {
    let mut digits = [b' '; 6];
    let mut at = 5;
    let mut rest = code / 2 + 1;
    while rest > 0 {
        at -= 1;
        digits[at] = b'0' + (rest % 10) as u8;
        rest /= 10;
    }
    if code % 2 == 1 {
        at -= 1;
        digits[at] = b'-';
    }
    file.extend_from_slice(&digits[at..]);
}
