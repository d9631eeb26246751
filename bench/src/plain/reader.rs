//! A plain reader of DRAT in one pass. It stops at the first fault with the place of the first token of the step that is not whole.
use hintzobar::Format;

/// What was read. The vectors are kept from one proof to the next, so that no memory is asked for while the time is taken.
#[derive(Clone, PartialEq, Eq, Debug, Default)]
pub struct Proof {
    pub codes: Vec<u32>,
    pub ends: Vec<u64>,
    pub kinds: Vec<u8>,
}

#[inline(never)]
pub fn read(format: Format, bytes: &[u8], proof: &mut Proof) -> Result<(), usize> {
    proof.codes.clear();
    proof.ends.clear();
    proof.kinds.clear();
    let mut at = past(format, bytes, 0);
    while at < bytes.len() {
        let step = match format {
            Format::Text => text_step(bytes, at, &mut proof.codes),
            Format::Binary => binary_step(bytes, at, &mut proof.codes),
        };
        let (kind, next) = step.ok_or(at)?;
        proof.ends.push(proof.codes.len() as u64);
        proof.kinds.push(kind);
        at = past(format, bytes, next);
    }
    Ok(())
}

/// The place after blanks and line feeds, which may stand before a step; in binary none may.
#[inline]
fn past(format: Format, bytes: &[u8], at: usize) -> usize {
    match format {
        Format::Text => past_separators(bytes, at),
        Format::Binary => at,
    }
}

#[inline]
fn past_separators(bytes: &[u8], mut at: usize) -> usize {
    while at < bytes.len() && is_separator(bytes[at]) {
        at += 1;
    }
    at
}

#[inline]
fn is_separator(byte: u8) -> bool {
    byte == b' ' || byte == b'\n'
}

/// The place after separators, of which there must be one.
#[inline]
fn gap(bytes: &[u8], at: usize) -> Option<usize> {
    is_separator(*bytes.get(at)?).then(|| past_separators(bytes, at + 1))
}

/// The step's kind and the place after it.
#[inline]
fn text_step(bytes: &[u8], start: usize, codes: &mut Vec<u32>) -> Option<(u8, usize)> {
    let (kind, mut at) = match bytes[start] {
        b'd' => (1, gap(bytes, start + 1)?),
        _ => (0, start),
    };
    loop {
        let mut first = *bytes.get(at)?;
        at += 1;
        if first == b'0' {
            return bytes.get(at).map_or(true, |&byte| is_separator(byte)).then_some((kind, at));
        }
        let negative = first == b'-';
        if negative {
            first = *bytes.get(at)?;
            at += 1;
        }
        if !(b'1'..=b'9').contains(&first) {
            return None;
        }
        let (magnitude, next) = digits(bytes, at, u32::from(first - b'0'))?;
        codes.push(2 * (magnitude - 1) + u32::from(negative));
        at = next;
    }
}

/// The digits after the first one, and the separators after them.
#[inline]
fn digits(bytes: &[u8], mut at: usize, first: u32) -> Option<(u32, usize)> {
    let mut magnitude = first;
    loop {
        let byte = *bytes.get(at)?;
        at += 1;
        match byte {
            b' ' | b'\n' => return Some((magnitude, past_separators(bytes, at))),
            b'0'..=b'9' => magnitude = 10 * magnitude + u32::from(byte - b'0'),
            _ => return None,
        }
        if magnitude > 4096 {
            return None;
        }
    }
}

#[inline]
fn binary_step(bytes: &[u8], start: usize, codes: &mut Vec<u32>) -> Option<(u8, usize)> {
    let kind = match bytes[start] {
        b'a' => 0,
        b'd' => 1,
        _ => return None,
    };
    let mut at = start + 1;
    loop {
        let mut code = u32::from(*bytes.get(at)?);
        at += 1;
        if code == 0 {
            return Some((kind, at));
        }
        if code >= 128 {
            // A third byte, or an idle second one, makes no code of 2 to 8,193 in shortest form.
            let high = u32::from(*bytes.get(at)?);
            at += 1;
            if high == 0 || high >= 128 {
                return None;
            }
            code += 128 * high - 128;
        }
        if !(2..=8193).contains(&code) {
            return None;
        }
        codes.push(code - 2);
    }
}
