//! DRAT: the bytes of a step, and the reader.
use std::ops::Range;

use crate::call::Format;

/// An add or a delete with its literal codes.
#[derive(Clone, PartialEq, Eq, Debug)]
pub struct Clause {
    pub delete: bool,
    pub lits: Vec<u32>,
}

pub fn encode(format: Format, steps: &[Clause]) -> Vec<u8> {
    let mut out = vec![];
    for step in steps {
        match format {
            Format::Text => text(&mut out, step),
            Format::Binary => binary(&mut out, step),
        }
    }
    out
}

fn text(out: &mut Vec<u8>, step: &Clause) {
    if step.delete {
        out.extend(b"d ");
    }
    for code in &step.lits {
        let sign = if code % 2 == 1 { "-" } else { "" };
        out.extend(format!("{}{} ", sign, code / 2 + 1).bytes());
    }
    out.extend(b"0\n");
}

fn binary(out: &mut Vec<u8>, step: &Clause) {
    out.push(if step.delete { b'd' } else { b'a' });
    for code in &step.lits {
        let mut rest = code + 2;
        while rest >= 128 {
            out.push(128 + (rest % 128) as u8);
            rest /= 128;
        }
        out.push(rest as u8);
    }
    out.push(0);
}

// ---- the reader

/// The first step alone, and from where to where it stands. Else the place of the first token, 0 without any.
pub fn first_step(format: Format, bytes: &[u8]) -> Result<(Clause, Range<usize>), usize> {
    match format {
        Format::Text => {
            let tokens = tokens(bytes);
            let start = tokens.first().map_or(0, |token| token.0);
            let (step, used) = text_step(&tokens).ok_or(start)?;
            Ok((step, start..tokens[used - 1].0 + 1))
        }
        Format::Binary => binary_step(bytes).map(|(step, length)| (step, 0..length)).ok_or(0),
    }
}

/// The tokens of a text, each with its place: what blanks and line feeds leave.
fn tokens(bytes: &[u8]) -> Vec<(usize, &[u8])> {
    let mut at = 0;
    let mut tokens = vec![];
    for word in bytes.split(|byte| b" \n".contains(byte)) {
        if !word.is_empty() {
            tokens.push((at, word));
        }
        at += word.len() + 1;
    }
    tokens
}

/// One step from the front of the tokens, and how many it takes: a `d` or none, numbers, `0`.
fn text_step(tokens: &[(usize, &[u8])]) -> Option<(Clause, usize)> {
    let delete = tokens.first()?.1 == b"d";
    let mut lits = vec![];
    for (i, &(_, word)) in tokens.iter().enumerate().skip(delete as usize) {
        if word == b"0" {
            return Some((Clause { delete, lits }, i + 1));
        }
        lits.push(text_number(word)?);
    }
    None
}

/// An optional minus, a digit 1 to 9, more digits, magnitude at most 4,096.
fn text_number(word: &[u8]) -> Option<u32> {
    let (negative, digits) = match word.strip_prefix(b"-") {
        Some(digits) => (1, digits),
        None => (0, word),
    };
    let canonical = !digits.is_empty() && digits[0] != b'0' && digits.iter().all(u8::is_ascii_digit);
    if !canonical || digits.len() > 4 {
        return None;
    }
    let magnitude: u32 = std::str::from_utf8(digits).ok()?.parse().ok()?;
    (magnitude <= 4096).then_some(2 * (magnitude - 1) + negative)
}

/// `a` or `d`, codes, then byte 0; a code is literal code + 2, from 2 to 8,193, in shortest LEB128.
fn binary_step(bytes: &[u8]) -> Option<(Clause, usize)> {
    let delete = match bytes.first()? {
        b'a' => false,
        b'd' => true,
        _ => return None,
    };
    let mut lits = vec![];
    let mut at = 1;
    loop {
        let (value, length) = leb128(&bytes[at..])?;
        at += length;
        match value {
            0 => return Some((Clause { delete, lits }, at)),
            2..=8193 => lits.push(value as u32 - 2),
            _ => return None,
        }
    }
}

fn leb128(bytes: &[u8]) -> Option<(u64, usize)> {
    let length = 1 + bytes.iter().position(|&byte| byte < 128)?;
    if length > 8 || (length > 1 && bytes[length - 1] == 0) {
        return None;
    }
    let value = bytes[..length].iter().rev().fold(0, |value, &byte| 128 * value + u64::from(byte % 128));
    Some((value, length))
}

/// All steps, or the place of the first token of the first that is not whole.
pub fn read(format: Format, bytes: &[u8]) -> Result<Vec<Clause>, usize> {
    match format {
        Format::Text => read_text(bytes),
        Format::Binary => read_binary(bytes),
    }
}

fn read_text(bytes: &[u8]) -> Result<Vec<Clause>, usize> {
    let tokens = tokens(bytes);
    let mut rest = &tokens[..];
    let mut steps = vec![];
    while let Some(first) = rest.first() {
        let (step, used) = text_step(rest).ok_or(first.0)?;
        steps.push(step);
        rest = &rest[used..];
    }
    Ok(steps)
}

fn read_binary(bytes: &[u8]) -> Result<Vec<Clause>, usize> {
    let mut steps = vec![];
    let mut at = 0;
    while at < bytes.len() {
        let (step, length) = binary_step(&bytes[at..]).ok_or(at)?;
        steps.push(step);
        at += length;
    }
    Ok(steps)
}

/// What Read answers and fills.
#[derive(Clone, PartialEq, Eq, Debug, Default)]
pub struct Filled {
    /// 13, 2, or 0.
    pub refusal: u32,
    /// With 13, the place of the first token of the first step not whole.
    pub place: usize,
    pub codes: Vec<u32>,
    pub ends: Vec<u64>,
    pub kinds: Vec<u8>,
}

/// 13, then 2; the three numbers are the lengths of the slices for codes, ends and kinds.
pub fn read_call(format: Format, bytes: &[u8], rooms: [usize; 3]) -> Filled {
    let steps = match read(format, bytes) {
        Ok(steps) => steps,
        Err(place) => return Filled { refusal: 13, place, ..Filled::default() },
    };
    let mut filled = Filled::default();
    for step in &steps {
        filled.codes.extend(&step.lits);
        filled.ends.push(filled.codes.len() as u64);
        filled.kinds.push(step.delete as u8);
    }
    if rooms[0] < filled.codes.len() || rooms[1] < steps.len() || rooms[2] < steps.len() {
        return Filled { refusal: 2, ..Filled::default() };
    }
    filled
}

/// The bytes of a whole proof given by its three lists: 3, then 2.
pub fn write_call(format: Format, lists: &Filled, room: usize) -> Result<Vec<u8>, u32> {
    let (codes, ends, kinds) = (&lists.codes, &lists.ends, &lists.kinds);
    let starts: Vec<u64> = [0].iter().chain(ends).copied().collect();
    let listed = ends.len() == kinds.len()
        && codes.iter().all(|&code| code < 8192)
        && kinds.iter().all(|&kind| kind < 2)
        && starts.windows(2).all(|pair| pair[0] <= pair[1])
        && starts.last() == Some(&(codes.len() as u64));
    if !listed {
        return Err(3);
    }
    let steps: Vec<Clause> = (0..ends.len())
        .map(|i| Clause { delete: kinds[i] == 1, lits: codes[starts[i] as usize..ends[i] as usize].to_vec() })
        .collect();
    let bytes = encode(format, &steps);
    if room < bytes.len() {
        return Err(2);
    }
    Ok(bytes)
}
