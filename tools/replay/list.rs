//! A list: bytes, and rows of numbers that name parts of them. All numbers have 8 bytes and are little-endian.
use crate::forge::le64;
use std::collections::{BTreeMap, HashMap};
use std::path::Path;

/// No list is longer, so that a program can load it into one array of this length.
const ROOM: usize = 65_536;

/// The two numbers before the bytes: how many rows there are, and where the first one stands.
const HEAD: usize = 16;

/// What every place that a question may write holds before it.
pub const BEFORE: u64 = 7;

/// What a row asks.
#[derive(Clone, Copy)]
pub enum Kind {
    Crc = 1,
    Hash,
    Trailer,
    Verify,
    Record,
    Open,
    Lookup,
    Value,
    Begin,
    Add,
    Numbered,
    Held,
    Size,
    Write,
    Span,
    Fill,
    Find,
}

#[derive(Default)]
pub struct List {
    bytes: Vec<u8>,
    places: HashMap<Vec<u8>, u64>,
    rows: Vec<(Kind, Vec<u64>)>,
    answers: BTreeMap<u64, usize>,
}

impl List {
    /// Place and length of these bytes, which stand in the list once.
    pub fn part(&mut self, bytes: &[u8]) -> [u64; 2] {
        let end = (HEAD + self.bytes.len()) as u64;
        let place = *self.places.entry(bytes.to_vec()).or_insert(end);
        if place == end {
            self.bytes.extend(bytes);
        }
        [place, bytes.len() as u64]
    }

    /// The place of these numbers.
    pub fn numbers(&mut self, numbers: &[u64]) -> u64 {
        self.part(&le64(numbers))[0]
    }

    /// Adds a row with the answers that it expects.
    pub fn row(&mut self, kind: Kind, numbers: &[u64], answers: &[u64]) {
        self.rows.push((kind, numbers.to_vec()));
        answers.iter().for_each(|&answer| *self.answers.entry(answer).or_default() += 1);
    }

    /// Whether a row expects this answer.
    pub fn has(&self, answer: u64) -> bool {
        self.answers.contains_key(&answer)
    }

    pub fn rows(&self) -> usize {
        self.rows.len()
    }

    /// Each row says where the next one stands.
    fn encoded(&self) -> Vec<u8> {
        let mut next = HEAD + self.bytes.len();
        let mut all = le64(&[self.rows.len() as u64, next as u64]);
        all.extend(&self.bytes);
        for (kind, numbers) in &self.rows {
            next += 8 * (2 + numbers.len());
            all.extend(le64(&[*kind as u64, next as u64]));
            all.extend(le64(numbers));
        }
        assert!(all.len() <= ROOM, "{} bytes", all.len());
        all
    }

    pub fn write(&self, to: &Path, name: &str) {
        let all = self.encoded();
        let each: Vec<String> = self.answers.iter().map(|(n, c)| format!("{n} x {c}")).collect();
        println!("{name}: {} bytes, {} rows, answers {}", all.len(), self.rows.len(), each.join(", "));
        std::fs::write(to.join(name), all).expect("a folder to write to");
    }
}
