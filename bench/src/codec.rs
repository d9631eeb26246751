//! The writer and the reader of DRAT, apart from the calls over a table: proofs of 1 MB.
use std::{cell::RefCell, io, rc::Rc, time::Duration};

use hintzobar::{Format, Global, Lit, Refusal};
use varisat_unchanged::drive::measure::{self, Target};

use crate::{
    plain::reader::{self, Proof},
    random::Random,
    report::{ratio, time, Report},
    timing::{race, span},
};

const BUDGET: Duration = Duration::from_millis(900);
const MEGABYTE: usize = 1 << 20;

/// The formats with their names and what the writer's goal is in each.
pub const FORMATS: [(Format, &str, f64); 2] = [(Format::Text, "text", 0.8), (Format::Binary, "binary", 0.5)];

/// Clauses one after another, as both sides take them.
pub struct Clauses {
    format: Format,
    pub lits: Vec<Lit<Global>>,
    rust_lits: Vec<measure::Lit>,
    /// Start and end of each clause among the literals, and whether it is deleted.
    parts: Vec<(usize, usize, bool)>,
    /// The same as the reader fills it.
    ends: Vec<u64>,
    kinds: Vec<u8>,
    /// How many bytes they take.
    length: usize,
}

impl Clauses {
    pub fn none(format: Format) -> Clauses {
        Clauses { format, lits: vec![], rust_lits: vec![], parts: vec![], ends: vec![], kinds: vec![], length: 0 }
    }

    /// Whether there is 1 MB of them.
    pub fn full(&self) -> bool {
        self.length >= MEGABYTE
    }

    pub fn push(&mut self, lits: &[Lit<Global>], delete: bool) {
        let start = self.lits.len();
        self.lits.extend(lits);
        self.parts.push((start, self.lits.len(), delete));
        self.ends.push(self.lits.len() as u64);
        self.kinds.push(delete.into());
        let mut room = vec![0; self.format.room_for(lits.len())];
        self.length += hintzobar::write_clause(self.format, delete, lits, 0, lits.len(), &mut room, 0).unwrap();
    }

    /// When there are no more to come.
    pub fn finish(mut self) -> Clauses {
        self.rust_lits = measure::lits(self.lits.iter().map(|lit| lit.code()));
        self
    }

    pub fn bytes(&self) -> Vec<u8> {
        let mut bytes = vec![0; self.length];
        assert_eq!(library_whole(self, &mut bytes), self.length);
        bytes
    }
}

/// Clauses of this many literals under random names until they fill 1 MB; every third is a delete.
fn clauses(format: Format, length: usize, names: u32) -> Clauses {
    let mut random = Random::new(length as u64);
    let mut all = Clauses::none(format);
    while !all.full() {
        let lits: Vec<_> = (0..length).map(|_| Lit::from_code(random.below(2 * names))).collect();
        let delete = random.below(3) == 0;
        all.push(&lits, delete);
    }
    all.finish()
}

/// A sink that keeps the bytes.
#[derive(Clone, Default)]
pub struct Kept(pub Rc<RefCell<Vec<u8>>>);

impl io::Write for Kept {
    fn write(&mut self, bytes: &[u8]) -> io::Result<usize> {
        self.0.borrow_mut().extend_from_slice(bytes);
        Ok(bytes.len())
    }

    fn flush(&mut self) -> io::Result<()> {
        Ok(())
    }
}

// ---- the writers

/// A whole proof in one call.
#[inline(never)]
pub fn library_whole(all: &Clauses, out: &mut [u8]) -> usize {
    hintzobar::write_proof(all.format, &all.lits, &all.ends, &all.kinds, out).unwrap()
}

/// A call for each clause.
#[inline(never)]
fn library_clauses(all: &Clauses, out: &mut [u8]) -> usize {
    let mut at = 0;
    for &(a, b, delete) in &all.parts {
        at = hintzobar::write_clause(all.format, delete, &all.lits, a, b, out, at).unwrap();
    }
    at
}

pub fn rust_whole(all: &Clauses, target: &mut Target) {
    measure::proof(rust_format(all.format), target, &all.rust_lits, &all.parts);
}

#[inline(never)]
fn rust_clauses(all: &Clauses, target: &mut Target) {
    let write = match all.format {
        Format::Text => measure::text,
        Format::Binary => measure::binary,
    };
    for &(a, b, delete) in &all.parts {
        write(target, delete, &all.rust_lits[a..b]);
    }
    io::Write::flush(target).unwrap();
}

fn rust_format(format: Format) -> measure::Format {
    match format {
        Format::Text => measure::Format::Text,
        Format::Binary => measure::Format::Binary,
    }
}

pub type Library = fn(&Clauses, &mut [u8]) -> usize;
pub type Rust = fn(&Clauses, &mut Target);

/// Nanoseconds of the library, the Rust's writer to its own target, and to a `Vec` in one loop. All write the same bytes.
pub fn time_writers(all: &Clauses, library: Library, rust: Rust) -> [f64; 3] {
    let mut out = vec![0; all.format.room_for(all.lits.len()) + 8 * all.parts.len()];
    let kept = Kept::default();
    let mut target: Target = io::BufWriter::new(Box::new(kept.clone()));
    let mut vec = vec![];
    let to_vec = |vec: &mut Vec<u8>| measure::proof_to_vec(rust_format(all.format), vec, &all.rust_lits, &all.parts);

    let length = library(all, &mut out);
    rust(all, &mut target);
    to_vec(&mut vec);
    assert!(out[..length] == kept.0.borrow()[..] && out[..length] == vec[..]);

    race(
        BUDGET,
        [
            Box::new(|| span(|| library(all, &mut out))),
            Box::new(|| {
                kept.0.borrow_mut().clear();
                span(|| rust(all, &mut target))
            }),
            Box::new(|| {
                vec.clear();
                span(|| to_vec(&mut vec))
            }),
        ],
    )
}

fn writer_table(report: &Report, title: &str, library: Library, rust: Rust, goals: bool) {
    let columns = ["format", "literals", "names", "library, ns a literal", "Rust", "ratio", "goal", "Rust to a `Vec`", "ratio"];
    report.table(title, &columns);
    for (format, name, most) in FORMATS {
        for length in [3, 30, 1000] {
            for names in [4096, 60] {
                let all = clauses(format, length, names);
                let [library, rust, vec] = time_writers(&all, library, rust).map(|ns| ns / all.lits.len() as f64);
                let goal = if goals { report.goal(&format!("writer, {name}"), library / rust, most) } else { "none".into() };
                report.row(&[
                    name.into(),
                    length.to_string(),
                    names.to_string(),
                    format!("{library:.2}"),
                    format!("{rust:.2}"),
                    ratio(library, rust),
                    goal,
                    format!("{vec:.2}"),
                    ratio(library, vec),
                ]);
            }
        }
    }
}

pub fn writers(report: &Report) {
    writer_table(report, "Writer, a proof of 1 MB in one call", library_whole, rust_whole, true);
    writer_table(report, "Writer, a proof of 1 MB, one call for each clause", library_clauses, rust_clauses, false);
}

// ---- the two readers

/// Memory that the library fills.
struct Lent {
    lits: Vec<Lit<Global>>,
    ends: Vec<u64>,
    kinds: Vec<u8>,
}

impl Lent {
    fn read(&mut self, format: Format, bytes: &[u8]) -> Result<(usize, usize), Refusal> {
        let reading = hintzobar::read(format, bytes, &mut self.lits, &mut self.ends, &mut self.kinds)?;
        Ok((reading.lits, reading.steps))
    }
}

fn lent(bytes: &[u8]) -> Lent {
    Lent { lits: vec![Lit::from_code(0); bytes.len()], ends: vec![0; bytes.len()], kinds: vec![0; bytes.len()] }
}

/// Both readers give the same words, or refuse at the same place.
fn same_reading(format: Format, bytes: &[u8], lent: &mut Lent, proof: &mut Proof) {
    let library = lent.read(format, bytes);
    match reader::read(format, bytes, proof) {
        Ok(()) => {
            let (lits, steps) = library.unwrap();
            assert!(lent.lits[..lits].iter().map(|lit| lit.code()).eq(proof.codes.iter().copied()));
            assert!(lent.ends[..steps] == proof.ends[..] && lent.kinds[..steps] == proof.kinds[..]);
        }
        Err(place) => assert!(matches!(library, Err(Refusal::BrokenProof(at)) if at.byte == place)),
    }
}

pub fn time_readers(format: Format, bytes: &[u8]) -> [f64; 2] {
    let mut lent = lent(bytes);
    let mut proof = Proof::default();
    same_reading(format, bytes, &mut lent, &mut proof);
    race(BUDGET, [Box::new(|| span(|| lent.read(format, bytes))), Box::new(|| span(|| reader::read(format, bytes, &mut proof)))])
}

/// Bytes with one of them spoilt: in text a letter, in binary a code 1.
fn spoilt(format: Format, bytes: &[u8], at: usize) -> Vec<u8> {
    let mut bytes = bytes.to_vec();
    match format {
        Format::Text => bytes[at] = b'x',
        Format::Binary => bytes[at..at + 3].copy_from_slice(&[1, 1, 1]),
    }
    bytes
}

pub fn readers(report: &Report) {
    report.table("Reader, 1 MB", &["format", "literals", "names", "input", "library", "plain reader", "ratio", "goal"]);
    for (format, name, _) in FORMATS {
        for length in [3, 30, 1000] {
            for names in [4096, 60] {
                let bytes = clauses(format, length, names).bytes();
                let case = [name.to_string(), length.to_string(), names.to_string()];
                read_rows(report, format, &case, &bytes, length == 30 && names == 4096);
            }
        }
    }
}

/// The text with one to `most` blanks and line feeds, at random, for each separator.
pub fn broken(text: &[u8], most: u32) -> Vec<u8> {
    let mut random = Random::new(6);
    let mut broken = vec![];
    for &byte in text {
        match byte {
            b' ' | b'\n' => broken.extend((0..1 + random.below(most)).map(|_| b" \n"[random.below(2) as usize])),
            _ => broken.push(byte),
        }
    }
    broken
}

/// Text broken at random separators: one for each, up to two, up to three. Where three stand before a `d` the proof is scanned, and no goal is set.
pub fn broken_rows(report: &Report, case: &[String], text: &[u8]) {
    for (input, most) in [("one", 1), ("one or two", 2), ("one to three", 3)] {
        let [library, plain] = time_readers(Format::Text, &broken(text, most));
        let goal = match most {
            3 => String::from("none"),
            _ => report.goal("reader, broken lines", library / plain, 1.2),
        };
        let mut cells = case.to_vec();
        cells.extend([input.to_string(), time(library), time(plain), ratio(library, plain), goal]);
        report.row(&cells);
    }
}

pub fn broken_lines(report: &Report) {
    let columns = ["literals", "names", "between tokens", "library", "plain reader", "ratio", "goal"];
    report.table("Reader, text of 1 MB with its lines broken at random separators", &columns);
    for length in [3, 30, 1000] {
        for names in [4096, 60] {
            let text = clauses(Format::Text, length, names).bytes();
            broken_rows(report, &[length.to_string(), names.to_string()], &text);
        }
    }
}

/// The whole proof, and if asked for the refused ones.
fn read_rows(report: &Report, format: Format, case: &[String; 3], bytes: &[u8], refused: bool) {
    let middle = bytes.len() / 2;
    let inputs = [
        ("whole", bytes.to_vec()),
        ("cut at the end", bytes[..bytes.len() - 1].to_vec()),
        ("cut in the middle", bytes[..middle].to_vec()),
        ("a bad byte in the middle", spoilt(format, bytes, middle)),
        ("a bad byte at 1 %", spoilt(format, bytes, bytes.len() / 100)),
    ];
    for (input, bytes) in inputs.iter().take(if refused { 5 } else { 1 }) {
        let [library, plain] = time_readers(format, bytes);
        let goal = match *input {
            "whole" => report.goal(&format!("reader, {}", case[0]), library / plain, 1.0),
            _ => String::from("none"),
        };
        let mut cells = case.to_vec();
        cells.extend([input.to_string(), time(library), time(plain), ratio(library, plain), goal]);
        report.row(&cells);
    }
}
