//! Question 24, and question 25 by exact arithmetic: the reads of lookups and spans on any bytes.
use crate::blocks::seal;
use oracle::compact::{Located, Record};

/// The record of sixteen numbers that lookups get, as the thirteen of the Rust, if the others are 0.
fn thirteen(record: &[u64; 16]) -> Option<Record> {
    (record[13..] == [0; 3]).then(|| record[..13].try_into().expect("thirteen"))
}

/// What the plain header gives. Questions 1 and 2 are not asked, so the copy is sealed first.
fn plain_record(section: &[u8]) -> Option<Record> {
    let mut sealed = section.to_vec();
    *sealed.len().checked_sub(5).and_then(|at| sealed.get_mut(at))? = 0;
    seal(&mut sealed);
    oracle::compact::header(&sealed).ok()
}

/// What the packed header gives by questions 3, 4 and 7.
fn packed_record(section: &[u8]) -> Option<Record> {
    let number = |at: usize, width: usize| uint(&section[at..at + width]);
    if section.len() < 69 || !section.starts_with(b"KIBANPH3") {
        return None;
    }
    let (n, b, flags) = (number(16, 4), number(20, 4), number(52, 4));
    let widths = [32, 36, 40, 44, 48].map(|at| number(at, 4));
    let choices: [&[u64]; 5] = [&[4, 8], &[1, 2, 4], &[1, 2, 4], &[1, 2, 4, 8], &[2, 4]];
    let widths_fit = widths.iter().zip(choices).all(|(width, choices)| choices.contains(width));
    let arena = 64 + 3 * b + n * widths[0];
    let fits = (1..1 << 23).contains(&n)
        && b == n.div_ceil(2)
        && widths_fit
        && (flags == 1 || flags == 3)
        && number(24, 8) == 64 + 4 * b + n * (widths[0] + 2)
        && arena < section.len() as u64 - 5;
    let [address, key, count, sequence, value] = widths;
    fits.then(|| [number(8, 8), number(56, 8), n, b, arena, address, key, count, sequence, value, 1, 0, 1])
}

/// Question 24: the thirteen numbers, or the refusal.
pub fn admitted(section: &[u8], record: &[u64; 16]) -> Result<Record, u64> {
    let given = thirteen(record).ok_or(24u64)?;
    let own = if given[12] == 1 { packed_record(section) } else { plain_record(section) };
    if own == Some(given) { Ok(given) } else { Err(24) }
}

pub fn uint(bytes: &[u8]) -> u64 {
    bytes.iter().rev().fold(0, |number, &byte| number << 8 | u64::from(byte))
}

/// What ends in 25. The Rust panics at a read outside the section. A sum of 2^64 or more wraps there, and what follows
/// may be anything.
#[derive(Clone, Copy, Debug, PartialEq)]
pub enum Unread {
    Outside,
    Wraps,
}

/// The section under a record, read at exact places.
struct Reader<'a> {
    section: &'a [u8],
    least: u64,
    arena: u128,
    address: u128,
    key: u128,
    count: u128,
    sequence: u128,
    value: u128,
    checksum: u128,
}

impl<'a> Reader<'a> {
    fn new(section: &'a [u8], record: &Record) -> Self {
        let number = |place: usize| u128::from(record[place]);
        Reader {
            section,
            least: record[1],
            arena: number(4),
            address: number(5),
            key: number(6),
            count: number(7),
            sequence: number(8),
            value: number(9),
            checksum: 4 * number(10),
        }
    }

    fn part(&self, at: u128, length: u128) -> Result<&'a [u8], Unread> {
        let end = at + length;
        if end <= self.section.len() as u128 {
            return Ok(&self.section[at as usize..end as usize]);
        }
        Err(if end < 1 << 64 { Unread::Outside } else { Unread::Wraps })
    }

    fn number(&self, at: u128, width: u128) -> Result<u128, Unread> {
        self.part(at, width).map(|bytes| uint(bytes).into())
    }

    fn key_header(&self) -> u128 {
        self.address + 2 * self.key + self.count
    }

    fn version(&self) -> u128 {
        self.sequence + self.value + self.address + self.checksum
    }

    /// The sequence of the version at `at`.
    fn sequence(&self, at: u128) -> Result<u64, Unread> {
        let stored = self.number(at, self.sequence)?;
        u64::try_from(u128::from(self.least) + stored).map_err(|_| Unread::Wraps)
    }

    /// Tombstone, length and offset of the version at `at`.
    fn value(&self, at: u128) -> Result<(bool, u64, u64), Unread> {
        let value = self.number(at + self.sequence, self.value)? as u64;
        let offset = self.number(at + self.sequence + self.value, self.address)? as u64;
        let top = 1 << (8 * self.value - 1);
        Ok((value & top != 0, value & (top - 1), offset))
    }
}

/// Where the slot of a hash stands.
pub fn slot_of(section: &[u8], record: &Record, h: u64) -> Result<u128, Unread> {
    let reader = Reader::new(section, record);
    let (n, b, packed) = (record[2], u128::from(record[3]), record[12] == 1);
    let (wide, bucket) = (if packed { 3 } else { 4 }, u128::from(h % record[3]));
    let stored = reader.number(64 + bucket * wide, wide)? as u64;
    let direct = stored >> (8 * wide - 1) != 0;
    let pilot = if direct { stored & !(1 << (8 * wide - 1)) } else { stored };
    let at = if direct {
        u128::from(pilot)
    } else {
        oracle::point::position(h, pilot as u32, n as usize).expect("n is not 0") as u128
    };
    Ok(64 + b * wide + at * (reader.address + if packed { 0 } else { 2 }))
}

/// The lookup of an admitted record, in the order of the Rust's reads.
pub fn lookup(section: &[u8], record: &Record, key: &[u8], limit: u64) -> Result<Option<Located>, Unread> {
    let r = Reader::new(section, record);
    let h = oracle::point::hash(key, record[0]);
    let slot = slot_of(section, record, h)?;
    if record[12] == 0 && r.number(slot + r.address, 2)? != u128::from(oracle::point::fingerprint(h)) {
        return Ok(None);
    }
    let start = r.arena + r.number(slot, r.address)?;
    let anchor = r.arena + r.number(start, r.address)?;
    let shared = r.number(start + r.address, r.key)?;
    let suffix = r.number(start + r.address + r.key, r.key)?;
    let versions = r.number(start + r.address + 2 * r.key, r.count)?;
    let own = start + r.key_header();
    if key.len() as u128 != shared + suffix
        || key[..shared as usize] != *r.part(anchor, shared)?
        || key[shared as usize..] != *r.part(own, suffix)?
    {
        return Ok(None);
    }
    version(&r, own + suffix, versions, limit)
}

fn version(r: &Reader, first: u128, versions: u128, limit: u64) -> Result<Option<Located>, Unread> {
    for i in 0..versions {
        let at = first + i * r.version();
        let sequence = r.sequence(at)?;
        if sequence <= limit {
            let (tombstone, length, offset) = r.value(at)?;
            let checksum = r.number(at + r.version() - r.checksum, r.checksum)? as u32;
            let kind = if tombstone { 2 } else { 1 };
            return Ok(Some(Located { kind, sequence, offset, length, checksum }));
        }
    }
    Ok(None)
}

/// The pairs of a span. The Rust slices the data at `sliced`, and takes a key without versions for
/// one with versions where no limit is given.
#[derive(Default)]
pub struct Span {
    pub pairs: Vec<u64>,
    pub sliced: Vec<(u64, u64)>,
    pub without_versions: bool,
}

/// The span of an admitted record.
pub fn span(section: &[u8], record: &Record, first: u64, count: u64, limit: u64) -> Result<Span, Unread> {
    let r = Reader::new(section, record);
    let mut span = Span::default();
    let mut offset = r.number(u128::from(record[11]) + 24 + u128::from(first) * r.address, r.address)?;
    for _ in 0..count {
        let start = r.arena + offset;
        let suffix = r.number(start + r.address + r.key, r.key)?;
        let versions = r.number(start + r.address + 2 * r.key, r.count)?;
        let own = start + r.key_header() + suffix;
        // The Rust keeps the next address in 32 bits.
        offset = (own + versions * r.version() - r.arena) % (1 << 32);
        span.without_versions |= versions == 0;
        if let Some((tombstone, length, at)) = newest(&r, own, versions, limit)? {
            span.sliced.push((at, length));
            span.pairs.extend(if tombstone { vec![] } else { vec![at, length] });
        }
    }
    Ok(span)
}

/// Tombstone, length and offset of the first version within the limit.
fn newest(r: &Reader, first: u128, versions: u128, limit: u64) -> Result<Option<(bool, u64, u64)>, Unread> {
    for i in 0..versions {
        let at = first + i * r.version();
        if r.sequence(at)? <= limit {
            return r.value(at).map(Some);
        }
    }
    Ok(None)
}
