//! DIMACS CNF: the bytes of a file, and the reader (document 02, order 4).
use super::MOST_CAPACITY;

/// The header's number of variables, and the literal codes of each clause.
pub type Cnf = (u32, Vec<Vec<u32>>);

fn magnitude(code: u32) -> u32 {
    code / 2 + 1
}

/// A header with the largest magnitude, 0 if there is none, and the number of clauses; then a line for each clause.
pub fn write(clauses: &[Vec<u32>]) -> Vec<u8> {
    let largest = clauses.iter().flatten().map(|&code| magnitude(code)).max().unwrap_or(0);
    let mut text = format!("p cnf {} {}\n", largest, clauses.len());
    for clause in clauses {
        for &code in clause {
            let sign = if code % 2 == 1 { "-" } else { "" };
            text.push_str(&format!("{}{} ", sign, magnitude(code)));
        }
        text.push_str("0\n");
    }
    text.into_bytes()
}

// ---- the reader

/// The file, or where its first wrong line starts: lines are judged in order, the number of clauses after all of them.
pub fn read(file: &[u8]) -> Result<Cnf, usize> {
    let mut lines = lines(file).into_iter().skip_while(|(_, line)| line.starts_with(b"c"));
    let (header_at, line) = lines.next().ok_or(file.len())?;
    let (variables, count) = header(line).ok_or(header_at)?;
    let clauses: Vec<Vec<u32>> = lines.map(|(at, line)| clause(line, variables).ok_or(at)).collect::<Result<_, usize>>()?;
    // both in digits, without a zero in front
    if count != clauses.len().to_string() {
        return Err(header_at);
    }
    Ok((variables, clauses))
}

/// Each line with its line feed and where it starts; the last one may lack the line feed.
fn lines(file: &[u8]) -> Vec<(usize, &[u8])> {
    let mut at = 0;
    let mut all = vec![];
    for line in file.split_inclusive(|&byte| byte == b'\n') {
        all.push((at, line));
        at += line.len();
    }
    all
}

/// The words of a line that its line feed closes; between two blanks there is an empty word.
fn words(line: &[u8]) -> Option<Vec<&str>> {
    let line = line.strip_suffix(b"\n")?;
    Some(std::str::from_utf8(line).ok()?.split(' ').collect())
}

/// `p cnf V C`: V, which is at most 4,096, and C's digits.
fn header(line: &[u8]) -> Option<(u32, &str)> {
    match words(line)?[..] {
        ["p", "cnf", v, c] if is_count(v) && is_count(c) => {
            let variables = v.parse().ok().filter(|&v| v <= MOST_CAPACITY)?;
            Some((variables, c))
        }
        _ => None,
    }
}

/// Digits, with no zero in front of others.
fn is_count(word: &str) -> bool {
    word == "0" || (!word.is_empty() && !word.starts_with('0') && word.bytes().all(|byte| byte.is_ascii_digit()))
}

/// Numbers, and then 0.
fn clause(line: &[u8], variables: u32) -> Option<Vec<u32>> {
    let words = words(line)?;
    let (last, numbers) = words.split_last()?;
    if *last != "0" {
        return None;
    }
    numbers.iter().map(|word| number(word, variables)).collect()
}

/// The literal's code: an optional minus, and a magnitude of 1 to V.
fn number(word: &str, variables: u32) -> Option<u32> {
    let (negative, digits) = match word.strip_prefix('-') {
        Some(digits) => (1, digits),
        None => (0, word),
    };
    if !is_count(digits) {
        return None;
    }
    let magnitude: u32 = digits.parse().ok().filter(|magnitude| (1..=variables).contains(magnitude))?;
    Some(2 * (magnitude - 1) + negative)
}

// ---- the calls

/// What Read CNF answers and fills.
#[derive(Clone, PartialEq, Eq, Debug, Default)]
pub struct Filled {
    /// 17, 2, or 0.
    pub refusal: u32,
    /// With 17, where the first wrong line starts.
    pub place: usize,
    pub variables: u32,
    pub codes: Vec<u32>,
    pub ends: Vec<u64>,
}

/// The codes of all clauses in a row, and where each clause ends in it.
pub fn listed(clauses: &[Vec<u32>]) -> (Vec<u32>, Vec<u64>) {
    let ends = (1..=clauses.len()).map(|n| clauses[..n].iter().map(Vec::len).sum::<usize>() as u64);
    (clauses.concat(), ends.collect())
}

/// 17, then 2; the two numbers are the lengths of the slices for codes and ends.
pub fn read_call(file: &[u8], rooms: [usize; 2]) -> Filled {
    let (variables, clauses) = match read(file) {
        Ok(cnf) => cnf,
        Err(place) => return Filled { refusal: 17, place, ..Filled::default() },
    };
    let (codes, ends) = listed(&clauses);
    if rooms[0] < codes.len() || rooms[1] < ends.len() {
        return Filled { refusal: 2, ..Filled::default() };
    }
    Filled { variables, codes, ends, ..Filled::default() }
}

/// The clauses that end there among the codes; none where the ends fall, pass the last literal or leave it out.
fn cut(codes: &[u32], ends: &[u64]) -> Option<Vec<Vec<u32>>> {
    let mut start = 0;
    let mut clauses = vec![];
    for &end in ends {
        let end = usize::try_from(end).ok()?;
        clauses.push(codes.get(start..end)?.to_vec());
        start = end;
    }
    (start == codes.len()).then_some(clauses)
}

/// The bytes of the file: 3, then 2.
pub fn write_call(codes: &[u32], ends: &[u64], room: usize) -> Result<Vec<u8>, u32> {
    let in_range = codes.iter().all(|&code| magnitude(code) <= MOST_CAPACITY);
    let bytes = cut(codes, ends).filter(|_| in_range).map(|clauses| write(&clauses)).ok_or(3u32)?;
    if room < bytes.len() {
        return Err(2);
    }
    Ok(bytes)
}
