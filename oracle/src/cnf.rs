//! CNF files and clause lists, whole and damaged: the library beside the plain reading.
use crate::random::Rng;
use crate::reading::dimacs::{self, Filled};
use crate::run::Verdict;

// ---- clauses and files

fn clauses(rng: &mut Rng) -> Vec<Vec<u32>> {
    let top = rng.of(&[2, 6, 20, 200, 2000, 8192]);
    let most = rng.of(&[1, 3, 6, 12]);
    (0..rng.index(most + 1)).map(|_| (0..rng.index(7)).map(|_| rng.below(top) as u32).collect()).collect()
}

/// Bytes that mean something in a file, or any.
fn byte(rng: &mut Rng) -> u8 {
    if rng.one_in(8) {
        return rng.next() as u8;
    }
    rng.of(b"0123456789    --\n\n\n\r\tcp+%.nf\x00")
}

fn comment(rng: &mut Rng) -> Vec<u8> {
    let text: Vec<u8> = (0..rng.index(9)).map(|_| byte(rng)).filter(|&byte| byte != b'\n').collect();
    [b"c", &text[..], b"\n"].concat()
}

/// A number of the header: as it is, near it, at a bound, beyond all words, or no number.
fn count(rng: &mut Rng, number: usize) -> String {
    match rng.below(12) {
        0 => (number + 1).to_string(),
        1 => number.saturating_sub(1).to_string(),
        2 => format!("0{number}"),
        3 => format!("{}{number}", "0".repeat(rng.index(40))),
        4 => (u128::from(rng.of(&[1u64 << 8, 1 << 16, 1 << 32, u64::MAX])) + 1 + number as u128).to_string(),
        5 => format!("{}{number}", "1234567890".repeat(1 + rng.index(4))),
        6 => rng.of(&["0", "00", "1", "4095", "4096", "4097", "9999", "10000", "40960"]).to_string(),
        7 => rng.of(&["", "-1", "+1", "1.0", "x", "-0", "1 ", " 1", "1\r"]).to_string(),
        _ => number.to_string(),
    }
}

/// The lines of a file, each with its line feed.
fn lines(rng: &mut Rng) -> Vec<Vec<u8>> {
    let clauses = clauses(rng);
    let written = dimacs::write(&clauses);
    let mut lines: Vec<Vec<u8>> = written.split_inclusive(|&byte| byte == b'\n').map(<[u8]>::to_vec).collect();
    let largest = clauses.iter().flatten().max().map_or(0, |code| code / 2 + 1);
    let (mut v, mut c) = (largest.to_string(), clauses.len().to_string());
    match rng.below(8) {
        0 => v = count(rng, largest as usize),
        1 => c = count(rng, clauses.len()),
        2 => v = (u64::from(largest) + rng.below(u64::from(4097 - largest))).to_string(),
        _ => (),
    }
    lines[0] = format!("p cnf {v} {c}\n").into_bytes();
    let comments: Vec<Vec<u8>> = (0..rng.of(&[0, 0, 1, 3])).map(|_| comment(rng)).collect();
    [comments, lines].concat()
}

/// Lines change places, come twice, go, or a comment comes anywhere.
fn damage_lines(rng: &mut Rng, lines: &mut Vec<Vec<u8>>) {
    let (a, b) = (rng.index(lines.len()), rng.index(lines.len()));
    match rng.below(6) {
        0 | 1 => lines.swap(a, b),
        2 => lines.insert(b, lines[a].clone()),
        3 => drop(lines.remove(a)),
        4 => lines.insert(a, comment(rng)),
        _ => lines.insert(a, b"\n".to_vec()),
    }
}

/// A byte goes, comes or changes, two lines become one, the end goes, or every line ends otherwise.
fn damage_bytes(rng: &mut Rng, file: &mut Vec<u8>) {
    let at = rng.index(file.len() + 1);
    match rng.below(8) {
        0 | 1 => file.insert(at, byte(rng)),
        2 => file.truncate(at),
        3 => drop(file.pop()),
        _ if at == file.len() => file.push(byte(rng)),
        4 | 5 => file[at] = byte(rng),
        6 => drop(file.remove(at)),
        _ => {
            let feeds: Vec<usize> = (0..file.len()).filter(|&i| file[i] == b'\n').collect();
            if !feeds.is_empty() {
                file[rng.of(&feeds)] = rng.of(b" \r");
            }
        }
    }
}

fn file(rng: &mut Rng) -> Vec<u8> {
    let mut lines = lines(rng);
    if rng.one_in(6) {
        damage_lines(rng, &mut lines);
    }
    let mut file = lines.concat();
    if rng.one_in(3) {
        (0..1 + rng.index(2)).for_each(|_| damage_bytes(rng, &mut file));
    }
    file
}

// ---- reading

/// Slices for what the file needs, a little more, or now and then too little.
fn rooms(rng: &mut Rng, full: &Filled) -> [usize; 2] {
    [full.codes.len(), full.ends.len()].map(|room| match rng.below(12) {
        0 => room.saturating_sub(1),
        1 => rng.index(room + 1),
        2..=5 => room + rng.index(3),
        _ => room,
    })
}

/// A file, and the lengths of the slices to read it into.
pub fn draw_file(rng: &mut Rng) -> (Vec<u8>, [usize; 2]) {
    let file = file(rng);
    let rooms = rooms(rng, &dimacs::read_call(&file, [usize::MAX; 2]));
    (file, rooms)
}

/// Files, half of them damaged: how many were read, were refused, had too little room.
pub fn reads(rng: &mut Rng, times: u64) -> Verdict<[u64; 3]> {
    let mut by = [0; 3];
    for _ in 0..times {
        let (file, rooms) = draw_file(rng);
        read_one(&file, rooms, &mut by)?;
    }
    Ok(by)
}

fn read_one(file: &[u8], rooms: [usize; 2], by: &mut [u64; 3]) -> Verdict<()> {
    let want = dimacs::read_call(file, rooms);
    by[[0, 17, 2].iter().position(|&n| n == want.refusal).unwrap()] += 1;
    read_of(file, rooms, &want)
}

/// What stands before and after the bytes that are tried, those bytes, and how many of them at most.
const SMALL: [(&str, &str, &[u8], usize); 4] = [
    ("", "p cnf 0 0\n", b"cp \n", 7),
    ("p cnf ", "\n1 0\n", b"014 -\n", 6),
    ("c\np cnf 2 1\n", "", b"0123- \n", 6),
    ("p cnf 12 2\n1 -2 0\n", "\n", b"012c- \n", 6),
];

/// Every file of these forms.
pub fn small() -> Verdict<[u64; 3]> {
    let mut by = [0; 3];
    for (before, after, bytes, most) in SMALL {
        for length in 0..=most {
            for n in 0..bytes.len().pow(length as u32) {
                let tried = (0..length as u32).map(|place| bytes[n / bytes.len().pow(place) % bytes.len()]);
                let file: Vec<u8> = before.bytes().chain(tried).chain(after.bytes()).collect();
                read_one(&file, [file.len(); 2], &mut by)?;
            }
        }
    }
    Ok(by)
}

// ---- writing

/// A code or an end changes, comes or goes.
fn damage_lists(rng: &mut Rng, codes: &mut Vec<u32>, ends: &mut Vec<u64>) {
    let count = codes.len() as u64;
    let wild = rng.of(&[0, 1, count, count + 1, count + (1 << 32), 8190, 8191, 8192, 8193, u64::MAX]);
    match rng.below(9) {
        0 => codes.push(wild as u32),
        1 => ends.push(wild),
        2 => drop(codes.pop()),
        3 => drop(ends.pop()),
        4 => ends.clear(),
        5 if !codes.is_empty() => {
            let at = rng.index(codes.len());
            codes[at] = rng.of(&[8190, 8191, 8192, 8193, 1 << 31, u32::MAX]);
        }
        6 if !ends.is_empty() => {
            let at = rng.index(ends.len());
            ends[at] = wild;
        }
        7 if ends.len() > 1 => {
            let at = rng.index(ends.len() - 1);
            ends.swap(at, at + 1);
        }
        _ => ends.iter_mut().take(1).for_each(|end| *end = end.wrapping_sub(1)),
    }
}

/// Clauses as two lists, some of them damaged, and the room to write them in.
pub fn draw_lists(rng: &mut Rng) -> (Vec<u32>, Vec<u64>, usize) {
    let (mut codes, mut ends) = dimacs::listed(&clauses(rng));
    if rng.one_in(3) {
        damage_lists(rng, &mut codes, &mut ends);
    }
    let length = dimacs::write_call(&codes, &ends, usize::MAX).map_or(12, |bytes| bytes.len());
    let room = match rng.below(12) {
        0 => length - 1,
        1 => rng.index(length + 1),
        2..=6 => length,
        _ => length + rng.index(3) * rng.index(40),
    };
    (codes, ends, room)
}

/// Clauses, some of whose lists were damaged: how many were written, were no clauses, had too little room. What is written is read as the clauses.
pub fn writes(rng: &mut Rng, times: u64) -> Verdict<[u64; 3]> {
    let mut by = [0; 3];
    for _ in 0..times {
        let (codes, ends, room) = draw_lists(rng);
        let want = dimacs::write_call(&codes, &ends, room);
        by[[0, 3, 2].iter().position(|&n| n == want.as_ref().err().copied().unwrap_or(0)).unwrap()] += 1;
        write_of(&codes, &ends, room, &want)?;
        if let Ok(bytes) = want {
            let back = dimacs::read_call(&bytes, [codes.len(), ends.len()]);
            if (&back.codes, &back.ends) != (&codes, &ends) {
                return Err(format!("{codes:?} {ends:?} written and read: {back:?}"));
            }
            read_of(&bytes, [codes.len(), ends.len()], &back)?;
        }
    }
    Ok(by)
}

// ---- the library's part

#[cfg(feature = "library")]
pub fn read_of(file: &[u8], rooms: [usize; 2], want: &Filled) -> Verdict<()> {
    let got = crate::library::read_cnf(file, rooms)?;
    if &got != want {
        let text = String::from_utf8_lossy(file);
        return Err(format!("CNF {text:?} read into {rooms:?}\n plainly: {want:?}\n the library: {got:?}"));
    }
    Ok(())
}

#[cfg(feature = "library")]
pub fn write_of(codes: &[u32], ends: &[u64], room: usize, want: &Result<Vec<u8>, u32>) -> Verdict<()> {
    let got = crate::library::write_cnf(codes, ends, room)?;
    if &got != want {
        return Err(format!("CNF of {codes:?} {ends:?} written in {room}\n plainly: {want:?}\n the library: {got:?}"));
    }
    Ok(())
}

#[cfg(not(feature = "library"))]
pub fn read_of(_file: &[u8], _rooms: [usize; 2], _want: &Filled) -> Verdict<()> {
    Ok(())
}

#[cfg(not(feature = "library"))]
pub fn write_of(_codes: &[u32], _ends: &[u64], _room: usize, _want: &Result<Vec<u8>, u32>) -> Verdict<()> {
    Ok(())
}
