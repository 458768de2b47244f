//! A case: one question with all its inputs, in a form that can be printed, read and made smaller.
use std::fmt;

#[derive(Clone)]
pub struct Case {
    pub kind: &'static str,
    pub numbers: Vec<u64>,
    pub bytes: Vec<Vec<u8>>,
}

/// An answer: the refusal's number or 0, a word to count it by, the numbers given, and the bytes given.
#[derive(Clone, Debug, PartialEq, Default)]
pub struct Answer {
    pub number: u64,
    pub note: &'static str,
    pub words: Vec<u64>,
    pub bytes: Vec<u8>,
}

impl Answer {
    pub fn refused(number: u64) -> Self {
        Answer { number, ..Answer::default() }
    }

    pub fn words(words: Vec<u64>) -> Self {
        Answer { words, ..Answer::default() }
    }

    pub fn one(word: u64) -> Self {
        Answer::words(vec![word])
    }
}

impl fmt::Display for Answer {
    fn fmt(&self, f: &mut fmt::Formatter) -> fmt::Result {
        match self.number {
            crate::numbers::NO_NUMBER => write!(f, "no number (panic or unknown error)")?,
            number => write!(f, "number {number}")?,
        }
        write!(f, ", words {:?}, bytes {}", self.words, hex(&self.bytes))
    }
}

pub fn hex(bytes: &[u8]) -> String {
    match bytes {
        [] => "-".to_string(),
        _ => bytes.iter().map(|byte| format!("{byte:02x}")).collect(),
    }
}

fn unhex(text: &str) -> Option<Vec<u8>> {
    if text == "-" {
        return Some(Vec::new());
    }
    let places = (0..text.len()).step_by(2);
    places.map(|at| u8::from_str_radix(text.get(at..at + 2)?, 16).ok()).collect()
}

/// Kind, numbers with commas, and each part of bytes in hexadecimal; a hyphen where there is nothing.
impl fmt::Display for Case {
    fn fmt(&self, f: &mut fmt::Formatter) -> fmt::Result {
        let numbers: Vec<String> = self.numbers.iter().map(u64::to_string).collect();
        let numbers = if numbers.is_empty() { "-".to_string() } else { numbers.join(",") };
        write!(f, "{} {numbers}", self.kind)?;
        self.bytes.iter().try_for_each(|part| write!(f, " {}", hex(part)))
    }
}

impl Case {
    pub fn new(kind: &'static str, numbers: &[u64], bytes: &[&[u8]]) -> Self {
        Case { kind, numbers: numbers.to_vec(), bytes: bytes.iter().map(|part| part.to_vec()).collect() }
    }

    /// The kind is the layer's own text, so that it lives as long as the program.
    pub fn parse(text: &str, kinds: &[&'static str]) -> Option<Case> {
        let mut words = text.split_whitespace();
        let name = words.next()?;
        let kind = kinds.iter().copied().find(|kind| *kind == name)?;
        let numbers = match words.next()? {
            "-" => Vec::new(),
            list => list.split(',').map(|n| n.parse().ok()).collect::<Option<_>>()?,
        };
        let bytes = words.map(unhex).collect::<Option<_>>()?;
        Some(Case { kind, numbers, bytes })
    }
}
