//! DIMACS CNF: files that are read and written, files that are refused at the right line, and slices that stay as they were.
use hintzobar::{read_cnf, write_cnf, Cnf, Global, Lit, Refusal};

type Clauses = Vec<Vec<i64>>;

/// The header's number of variables, all literals in a row, and where each clause ends in it.
type Read = (u32, Vec<Lit<Global>>, Vec<u64>);

/// What lent memory holds before a call.
const LIT: u32 = 0xa5a5;
const END: u64 = 0x5a5a;
const BYTE: u8 = 7;

fn lits(numbers: &[i64]) -> Vec<Lit<Global>> {
    numbers.iter().map(|&number| Lit::from_dimacs(number).unwrap()).collect()
}

/// Reads with slices of these lengths. What is past the filled part, and after a refusal everything, is as it was.
fn read_in(file: &[u8], codes: usize, ends: usize) -> Result<Read, Refusal> {
    let (mut lits, mut to) = (vec![Lit::from_code(LIT); codes], vec![END; ends]);
    let answer = read_cnf(file, &mut lits, &mut to);
    let (filled, clauses) = answer.map_or((0, 0), |cnf| (cnf.lits, cnf.clauses));
    assert!(lits[filled..].iter().all(|lit| lit.code() == LIT) && to[clauses..].iter().all(|&end| end == END));
    lits.truncate(filled);
    to.truncate(clauses);
    answer.map(|cnf| (cnf.variables, lits, to))
}

/// With as much room as any file needs.
fn read(file: &[u8]) -> Result<Read, Refusal> {
    read_in(file, file.len() / 2, file.len() / 2)
}

/// The header's number of variables and the clauses.
fn clauses(file: &[u8]) -> (u32, Clauses) {
    let (variables, lits, ends) = read(file).unwrap();
    let starts = std::iter::once(0).chain(ends.iter().map(|&end| end as usize));
    let clause = |(a, &b): (usize, &u64)| lits[a..b as usize].iter().map(|lit| lit.dimacs()).collect();
    (variables, starts.zip(&ends).map(clause).collect())
}

fn refused_at(file: &[u8], place: usize) {
    let shown = String::from_utf8_lossy(file).into_owned();
    // the same with room for anything, with some, and with none: 17 comes before 2
    for room in [file.len(), 1, 0] {
        assert_eq!(read_in(file, room, room), Err(Refusal::BadCnf(place)), "{:?}", shown);
    }
}

/// Writes into so many bytes. What is past the file, and after a refusal everything, is as it was.
fn write_in(lits: &[Lit<Global>], ends: &[u64], room: usize) -> Result<Vec<u8>, Refusal> {
    let mut out = vec![BYTE; room];
    let answer = write_cnf(lits, ends, &mut out);
    let length = answer.unwrap_or(0);
    assert!(out[length..].iter().all(|&byte| byte == BYTE));
    out.truncate(length);
    answer.map(|_| out)
}

/// With as much room as the documents say is enough.
fn write(lits: &[Lit<Global>], ends: &[u64]) -> Result<Vec<u8>, Refusal> {
    write_in(lits, ends, 6 * lits.len() + 2 * ends.len() + 32)
}

// ---- files that are read

#[test]
fn right_files() {
    let none: Clauses = vec![];
    let right: [(&[u8], u32, Clauses); 15] = [
        (b"p cnf 0 0\n", 0, none.clone()),
        (b"p cnf 4096 0\n", 4096, none.clone()),
        (b"p cnf 0 1\n0\n", 0, vec![vec![]]),
        (b"p cnf 0 3\n0\n0\n0\n", 0, vec![vec![]; 3]),
        (b"p cnf 1 1\n1 0\n", 1, vec![vec![1]]),
        (b"p cnf 1 1\n-1 1 -1 0\n", 1, vec![vec![-1, 1, -1]]),
        (b"p cnf 5 2\n1 -3 0\n0\n", 5, vec![vec![1, -3], vec![]]),
        (b"p cnf 4096 1\n4096 -4096 4095 0\n", 4096, vec![vec![4096, -4096, 4095]]),
        (b"p cnf 10 10\n0\n0\n0\n0\n0\n0\n0\n0\n0\n0\n", 10, vec![vec![]; 10]),
        (b"c\np cnf 0 0\n", 0, none.clone()),
        (b"cnf 1\np cnf 0 0\n", 0, none.clone()),
        (b"c p cnf 9 9\nc\nc \x00\xff\r\t%\np cnf 2 1\n2 0\n", 2, vec![vec![2]]),
        (b"ccc\nc\r\nc 1 0\np cnf 2 1\n-2 0\n", 2, vec![vec![-2]]),
        (b"comment\ncomment\np cnf 3 1\n3 0\n", 3, vec![vec![3]]),
        (b"c \np cnf 12 1\n10 -11 12 0\n", 12, vec![vec![10, -11, 12]]),
    ];
    for (file, variables, want) in right {
        assert_eq!(clauses(file), (variables, want));
    }
}

#[test]
fn room_for_reading() {
    let file = b"c\np cnf 7 3\n1 -7 0\n0\n3 0\n";
    let whole = (7, lits(&[1, -7, 3]), vec![2, 2, 3]);
    for (codes, ends) in [(3, 3), (4, 3), (3, 4), (12, 12)] {
        assert_eq!(read_in(file, codes, ends), Ok(whole.clone()));
    }
    for (codes, ends) in [(2, 3), (3, 2), (2, 2), (0, 3), (3, 0), (0, 0), (2, 12), (12, 2)] {
        assert_eq!(read_in(file, codes, ends), Err(Refusal::Short));
    }
    assert_eq!(read_in(b"p cnf 0 0\n", 0, 0), Ok((0, vec![], vec![])));
    assert_eq!(read_in(b"p cnf 0 1\n0\n", 0, 0), Err(Refusal::Short));
    assert_eq!(read_in(b"p cnf 0 1\n0\n", 0, 1), Ok((0, vec![], vec![0])));
    let mut ends = [END; 1];
    let cnf = read_cnf(b"p cnf 3 1\n0\n", &mut [], &mut ends);
    assert_eq!((cnf, ends), (Ok(Cnf { variables: 3, lits: 0, clauses: 1 }), [0]));
}

// ---- files that are refused

#[test]
fn files_without_header() {
    refused_at(b"", 0);
    refused_at(b"\n", 0);
    refused_at(b"1 0\n", 0);
    refused_at(b"0\n", 0);
    refused_at(b"%\n", 0);
    refused_at(b" c\np cnf 0 0\n", 0);
    refused_at(b"c\n1 0\n", 2);
    refused_at(b"c\n\np cnf 0 0\n", 2);
    // only `c` lines: the file's end, the last line closed or not
    refused_at(b"c\n", 2);
    refused_at(b"c", 1);
    refused_at(b"c p cnf 0 0\n", 12);
    refused_at(b"c p cnf 0 0", 11);
    refused_at(b"c one\nc two\n", 12);
    refused_at(b"c one\nc two", 11);
    refused_at(b"c one\nc", 7);
    refused_at(b"cnf 1 1\n", 8);
}

const BAD_HEADERS: [&[u8]; 48] = [
    b"p",
    b"p\n",
    b"p cnf\n",
    b"p cnf \n",
    b"p cnf 1\n",
    b"p cnf 1 \n",
    b"p cnf  1\n",
    b"p cnf 1 1",
    b"p cnf 0 0",
    b"p  cnf 0 0\n",
    b"p cnf  0 0\n",
    b"p cnf 0  0\n",
    b"p cnf 0 0 \n",
    b"p cnf 3 2 \n1 0\n2 0\n",
    b" p cnf 0 0\n",
    b"\tp cnf 0 0\n",
    b"p\tcnf 0 0\n",
    b"p cnf\t0 0\n",
    b"p cnf 0\t0\n",
    b"p cnf 0 0\t\n",
    b"p cnf 0 0\r\n",
    b"p cnf 1 1\r\n1 0\r\n",
    b"p cnf 0 0\r",
    b"P cnf 0 0\n",
    b"p CNF 0 0\n",
    b"p dnf 0 0\n",
    b"pcnf 0 0\n",
    b"p cnf0 0\n",
    b"p cnf 5000 1\n1 0\n",
    b"p cnf 4097 0\n",
    b"p cnf 99999999999999999999999999999999999999999 0\n",
    b"p cnf 18446744073709551617 1\n1 0\n",
    b"p cnf 4294967297 1\n1 0\n",
    b"p cnf 01 1\n1 0\n",
    b"p cnf 1 01\n1 0\n",
    b"p cnf 00 0\n",
    b"p cnf 0 00\n",
    b"p cnf 1 000000000000000000001\n1 0\n",
    b"p cnf 0001 1\n1 0\n",
    b"p cnf -1 1\n1 0\n",
    b"p cnf 1 -1\n1 0\n",
    b"p cnf +1 1\n1 0\n",
    b"p cnf 1 +1\n1 0\n",
    b"p cnf 1. 1\n1 0\n",
    b"p cnf 1 1 1\n1 0\n",
    b"p cnf 1 1 0\n1 0\n",
    b"p cnf 1 1\x001 0\n",
    b"p cnf 1 1c\n1 0\n",
];

#[test]
fn bad_headers() {
    for file in BAD_HEADERS {
        refused_at(file, 0);
        let commented = [b"c first\nc second\n", file].concat();
        refused_at(&commented, 17);
    }
    // a wrong header comes before a wrong line
    refused_at(b"p cnf 4097 1\n\n", 0);
}

/// Each is no clause's line over three variables.
const BAD_LINES: [&[u8]; 48] = [
    b"\n",
    b"2\n",
    b"2 \n",
    b"2 0",
    b"0",
    b"2",
    b"2 ",
    b"-",
    b"-\n",
    b"2 -",
    b"2 0\r\n",
    b"0\r\n",
    b"2 0 \n",
    b" 2 0\n",
    b" 0\n",
    b"2  0\n",
    b"2  3 0\n",
    b"2\t0\n",
    b"2\t3 0\n",
    b"2 3 0\t\n",
    b"2 0 3 0\n",
    b"0 0\n",
    b"2 0 c\n",
    b"2\n0\n",
    b"2 3\n1 0\n",
    b"-0\n",
    b"-0 0\n",
    b"+1 0\n",
    b"--1 0\n",
    b"- 1 0\n",
    b"01 0\n",
    b"1 00\n",
    b"00\n",
    b"1 02 0\n",
    b"-01 0\n",
    b"1 -00 0\n",
    b"1.0 0\n",
    b"4 0\n",
    b"-4 0\n",
    b"1 2 3 4 0\n",
    b"4096 0\n",
    b"4097 0\n",
    b"4294967297 0\n",
    b"18446744073709551617 0\n",
    b"99999999999999999999999999999999999999991 0\n",
    b"c comment\n",
    b"p cnf 3 2\n",
    b"%\n0\n",
];

#[test]
fn bad_lines() {
    for line in BAD_LINES {
        let file = [b"p cnf 3 2\n1 -2 0\n", line].concat();
        refused_at(&file, 17);
        // also where another line follows, where the header counts otherwise, and after more lines
        if line.ends_with(b"\n") {
            refused_at(&[b"p cnf 3 3\n1 -2 0\n", line, b"3 0\n"].concat(), 17);
        }
        refused_at(&[b"c\np cnf 3 7\n", line].concat(), 12);
        refused_at(&[b"p cnf 3 2\n1 -2 0\n3 0\n", line].concat(), 21);
    }
    // a number above V, and a wrong line after it that does not count
    refused_at(b"p cnf 0 1\n1 0\n", 10);
    refused_at(b"p cnf 4095 2\n4095 0\n4096 0\n", 20);
    refused_at(b"p cnf 2 1\n1 -3 0\nx\n", 10);
}

#[test]
fn wrong_counts() {
    refused_at(b"p cnf 1 0\n1 0\n", 0);
    refused_at(b"p cnf 1 2\n1 0\n", 0);
    refused_at(b"p cnf 1 1\n", 0);
    refused_at(b"p cnf 1 1\n1 0\n0\n", 0);
    refused_at(b"c\nc\np cnf 1 11\n1 0\n", 4);
    // numbers that come to the right count in a machine's words
    for digits in ["18446744073709551617", "4294967297", "340282366920938463463374607431768211457", "65537", "257"] {
        let file = format!("p cnf 1 {}\n1 0\n", digits);
        refused_at(file.as_bytes(), 0);
    }
    // the count of 40 digits is wrong, but a wrong line is answered first
    let digits = "1234567890".repeat(4);
    refused_at(format!("c\np cnf 1 {}\n1 0\n", digits).as_bytes(), 2);
    refused_at(format!("c\np cnf 1 {}\n1 0\n2 0\n", digits).as_bytes(), 55);
    refused_at(format!("c\np cnf 1 {}\n1 0\n1 0", digits).as_bytes(), 55);
    refused_at(b"p cnf 1 5\n1 0\n\n", 14);
    // a wrong count comes before too little room
    assert_eq!(read_in(b"p cnf 1 2\n1 0\n", 0, 0), Err(Refusal::BadCnf(0)));
}

/// Every file that a right one is cut to: the place is that of the line that the cut falls into.
#[test]
fn cut_files() {
    let file = b"c one\nc\np cnf 12 3\n1 -12 0\n0\n-7 8 9 0\n";
    let starts: Vec<usize> = (0..file.len()).filter(|&i| i == 0 || file[i - 1] == b'\n').collect();
    for length in 0..file.len() {
        let start = *starts.iter().rev().find(|&&start| start <= length).unwrap();
        let place = match length {
            // `c` lines alone, or one of them cut: the file's end
            0..=8 => length,
            // whole lines, too few of them: the header
            19 | 27 | 29 => 8,
            _ => start,
        };
        refused_at(&file[..length], place);
    }
    assert_eq!(clauses(file), (12, vec![vec![1, -12], vec![], vec![-7, 8, 9]]));
}

#[test]
fn the_refusal_says_where() {
    let refusal = read(b"c\np cnf 1 1\n2 0\n").unwrap_err();
    assert_eq!((refusal, refusal.number()), (Refusal::BadCnf(12), 17));
    let text = "refusal 17: the file is no DIMACS CNF of the strict form, the first wrong line is at byte 12";
    assert_eq!(refusal.to_string(), text);
}

// ---- the writer

#[test]
fn written_files() {
    let written: [(&[i64], &[u64], &[u8]); 8] = [
        (&[], &[], b"p cnf 0 0\n"),
        (&[], &[0], b"p cnf 0 1\n0\n"),
        (&[], &[0, 0], b"p cnf 0 2\n0\n0\n"),
        (&[1], &[1], b"p cnf 1 1\n1 0\n"),
        (&[3, -1], &[0, 2, 2], b"p cnf 3 3\n0\n3 -1 0\n0\n"),
        (&[-4096], &[1], b"p cnf 4096 1\n-4096 0\n"),
        (&[9, 10, 99, -100, 999, -1000], &[1, 6], b"p cnf 1000 2\n9 0\n10 99 -100 999 -1000 0\n"),
        (&[1; 10], &[1, 2, 3, 4, 5, 6, 7, 8, 9, 10], b"p cnf 1 10\n1 0\n1 0\n1 0\n1 0\n1 0\n1 0\n1 0\n1 0\n1 0\n1 0\n"),
    ];
    for (numbers, ends, want) in written {
        let lits = lits(numbers);
        assert_eq!(write(&lits, ends).unwrap(), want);
        for room in [want.len(), want.len() + 1, want.len() + 100] {
            assert_eq!(write_in(&lits, ends, room).unwrap(), want);
        }
        for room in [0, 1, 6, 9, want.len() - 2, want.len() - 1] {
            assert_eq!(write_in(&lits, ends, room), Err(Refusal::Short));
        }
        let (_, again, to) = read(want).unwrap();
        assert_eq!((again, &to[..]), (lits, ends));
    }
}

#[test]
fn clauses_that_are_not_written() {
    let three = lits(&[1, -2, 3]);
    let bad: [&[u64]; 13] = [
        &[],
        &[0],
        &[2],
        &[1, 2],
        &[4],
        &[3, 4],
        &[2, 1, 3],
        &[3, 2],
        &[3, 2, 3],
        &[3, 0],
        &[u64::MAX],
        &[u64::MAX, 3],
        &[1, (1 << 32) + 3],
    ];
    for ends in bad {
        for room in [0, 8, 100] {
            assert_eq!(write_in(&three, ends, room), Err(Refusal::OutOfRange));
        }
    }
    assert_eq!(write(&[], &[1]), Err(Refusal::OutOfRange));
    for code in [8192, 8193, 8194, 1 << 31, u32::MAX - 1, u32::MAX] {
        for at in 0..3 {
            let mut lits = three.clone();
            lits[at] = Lit::from_code(code);
            assert_eq!(write(&lits, &[1, 3]), Err(Refusal::OutOfRange));
            assert_eq!(write_in(&lits, &[1, 3], 0), Err(Refusal::OutOfRange));
        }
    }
    assert_eq!(write(&[Lit::positive(Global(4096))], &[1]), Err(Refusal::OutOfRange));
    assert_eq!(write(&[Lit::negative(Global(4095))], &[1]).unwrap(), b"p cnf 4096 1\n-4096 0\n");
}

/// The widest literals, in as many bytes as the documents say is enough; a clause may have more than 8,192 of them.
#[test]
fn long_files() {
    let lits = vec![Lit::negative(Global(4095)); 30_000];
    for ends in [vec![30_000], (1..=30_000).collect::<Vec<u64>>(), [vec![0; 70_000], vec![30_000]].concat()] {
        let file = write(&lits, &ends).unwrap();
        let (variables, again, to) = read(&file).unwrap();
        assert_eq!((variables, &again, &to), (4096, &lits, &ends));
        assert_eq!(write_in(&lits, &ends, file.len() - 1), Err(Refusal::Short));
    }
}

/// A thread of 128 KB is enough for both calls, however long the file is.
#[test]
fn a_small_thread() {
    let calls = || {
        let lits: Vec<_> = (0..60_000).map(|i| Lit::from_code(i * 7 % 8192)).collect();
        let ends: Vec<u64> = (1..=20_000).map(|clause| 3 * clause).collect();
        let file = write(&lits, &ends).unwrap();
        assert_eq!(read(&file), Ok((4096, lits, ends)));
        assert_eq!(read(&file[..file.len() - 1]), Err(Refusal::BadCnf(line_before_end(&file))));
    };
    std::thread::Builder::new().stack_size(128 * 1024).spawn(calls).unwrap().join().unwrap();
}

// ---- round trips

struct Random(u64);

impl Random {
    fn below(&mut self, bound: u64) -> u64 {
        self.0 ^= self.0 << 13;
        self.0 ^= self.0 >> 7;
        self.0 ^= self.0 << 17;
        (self.0 >> 11) % bound
    }
}

/// Clauses as they stand in a file, by formatting each number; V may be any that covers them.
fn plain(variables: u32, clauses: &Clauses) -> String {
    let line = |clause: &Vec<i64>| clause.iter().map(|number| format!("{} ", number)).collect::<String>() + "0\n";
    format!("p cnf {} {}\n", variables, clauses.len()) + &clauses.iter().map(line).collect::<String>()
}

#[test]
fn round_trips() {
    let mut random = Random(4);
    for _ in 0..20_000 {
        let top = [1, 3, 12, 120, 1200, 4096][random.below(6) as usize];
        let all: Clauses = (0..random.below(12))
            .map(|_| {
                let length = random.below(8);
                (0..length).map(|_| (1 + random.below(top) as i64) * if random.below(2) == 0 { 1 } else { -1 }).collect()
            })
            .collect();
        let numbers = all.concat();
        let mut ends = vec![];
        for clause in &all {
            ends.push(ends.last().unwrap_or(&0) + clause.len() as u64);
        }
        let largest = numbers.iter().map(|number| number.unsigned_abs() as u32).max().unwrap_or(0);
        let file = write(&lits(&numbers), &ends).unwrap();
        assert_eq!(String::from_utf8_lossy(&file), plain(largest, &all));
        assert_eq!(clauses(&file), (largest, all.clone()));
        let wider = largest + random.below(u64::from(4097 - largest)) as u32;
        assert_eq!(clauses(plain(wider, &all).as_bytes()), (wider, all));
    }
}

// ---- files of real programs (cnf/README.md)

macro_rules! real {
    ($($name:literal),*) => {
        [$(($name, include_bytes!(concat!("cnf/", $name, ".cnf")) as &[u8])),*]
    };
}

/// Where the line that starts with these bytes starts.
fn line_of(file: &[u8], start: &[u8]) -> usize {
    (0..file.len()).find(|&i| (i == 0 || file[i - 1] == b'\n') && file[i..].starts_with(start)).unwrap()
}

/// Files in the strict form are read, and written back byte for byte from the header on. Where the header's V is larger than the largest
/// number, as in CaDiCaL's file of one empty clause, the header has the largest number instead, and all the rest is the same.
#[test]
fn real_files() {
    let files = real![
        "pigeonhole-4",
        "parity-12",
        "random-30",
        "random-30-minisat",
        "random-30-cadical",
        "random-30-picosat",
        "adder-4-picomus",
        "adder-4-cadical",
        "weights-minisatp"
    ];
    for (name, file) in files {
        let header = line_of(file, b"p cnf ");
        let (variables, lits, ends) = read(file).unwrap();
        let largest = lits.iter().map(|lit| lit.dimacs().unsigned_abs() as u32).max().unwrap_or(0);
        assert_eq!(largest < variables, name == "adder-4-cadical");
        let old = format!("p cnf {} {}\n", variables, ends.len());
        let new = format!("p cnf {} {}\n", largest, ends.len());
        assert!(file[header..].starts_with(old.as_bytes()));
        let want = [new.as_bytes(), &file[header + old.len()..]].concat();
        assert_eq!(write(&lits, &ends).unwrap(), want, "{}", name);
        assert_eq!(read(&want).unwrap(), (largest, lits, ends));
    }
}

/// The same files as programs elsewhere would leave them.
#[test]
fn real_files_with_other_line_ends() {
    for (_, file) in real!["pigeonhole-4", "random-30", "weights-minisatp"] {
        let header = line_of(file, b"p cnf ");
        let dos: Vec<u8> = file.iter().flat_map(|&byte| if byte == b'\n' { vec![b'\r', byte] } else { vec![byte] }).collect();
        refused_at(&dos, line_of(&dos, b"p cnf "));
        let old: Vec<u8> = file.iter().map(|&byte| if byte == b'\n' { b'\r' } else { byte }).collect();
        // without any line feed a file that starts with `c` is one unclosed line
        refused_at(&old, if header == 0 { 0 } else { old.len() });
        refused_at(&file[..file.len() - 1], line_before_end(file));
    }
}

fn line_before_end(file: &[u8]) -> usize {
    file[..file.len() - 1].iter().rposition(|&byte| byte == b'\n').unwrap() + 1
}

#[test]
fn real_files_that_are_refused() {
    // z3 tells the names of variables in `c` lines after the clauses
    let [(_, file)] = real!["factors-z3"];
    let place = line_of(file, b"c ");
    refused_at(file, place);
    assert_eq!(clauses(&file[..place]).1.len(), 46);

    // ABC ends its file with an empty line
    let [(_, file)] = real!["adder-abc"];
    refused_at(file, file.len() - 1);
    assert_eq!(clauses(&file[..file.len() - 1]).1.len(), 6);

    // more variables than there are names
    let [(_, file)] = real!["wide-cadical"];
    refused_at(file, 0);
    let narrow = [b"p cnf 4096 3\n", &file[13..]].concat();
    refused_at(&narrow, 13);
}

/// The form of SATLIB's uf20 files: two blanks in the header and one at its end, a blank before the first clause, `%` and more after the last.
/// Each is refused, and when it is mended the next one.
#[test]
fn the_form_of_uf20() {
    let [(_, file)] = real!["uf20-form"];
    let mended = |file: &[u8], old: &[u8], new: &[u8]| {
        let at = line_of(file, old);
        [&file[..at], new, &file[at + old.len()..]].concat()
    };
    let header = line_of(file, b"p cnf ");
    refused_at(file, header);
    let file = mended(file, b"p cnf 20  91 \n", b"p cnf 20 91 \n");
    refused_at(&file, header);
    let file = mended(&file, b"p cnf 20 91 \n", b"p cnf 20 91\n");
    refused_at(&file, header + 12);
    let file = mended(&file, b" ", b"");
    refused_at(&file, line_of(&file, b"%\n"));
    let file = mended(&file, b"%\n0\n\n", b"");
    assert_eq!(clauses(&file).1.len(), 91);
}

/// Clauses as older files have them: over several lines, several on one, numbers in columns, and the last one without its 0.
#[test]
fn other_layouts() {
    refused_at(b"c\np cnf 4 2\n1 2\n-3 0\n4 0\n", 12);
    refused_at(b"c\np cnf 4 2\n1 2 0 -3 4 0\n", 12);
    refused_at(b"c\np cnf 4 2\n1 -2 0\n-3  4 0\n", 19);
    refused_at(b"c\np cnf 4 2\n1 -2 0\n-3 4\n", 19);
    refused_at(b"p cnf 42 133 \n -1     -7    0\n", 0);
    refused_at(b"p cnf 42 133\n -1     -7    0\n", 13);
    refused_at(b"p cnf 3 2\n1 -3 0\nc between\n2 0\n", 17);
    refused_at(b"p cnf 3 2\n1 -3 0\n2 -30\n", 17);
    refused_at(b"p wcnf 3 1 10\n10 1 0\n", 0);
    refused_at(b"p inccnf\n1 0\n", 0);
    refused_at(b"p cnf 3 1\nx1 2 3 0\n", 10);
}
