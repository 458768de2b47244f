//! Spans, per key: 20-byte keys with one version each, and with three.
use crate::blocks::Entry;
use crate::measure::{Row, repeated, row, thousands};
use crate::ours::{self, Record};
use crate::rng::Rng;
use crate::stores::{KEY, LONG_VALUE, PREFIX, SIZES, Store, VALUE, sorted_keys};
use oracle::compact::Index;
use std::hint::black_box;
use std::rc::Rc;

/// Sequences of the newest version are below it, half of them within `MIDDLE`.
const SEQUENCES: u64 = 0x10000;
const MIDDLE: u64 = 0x7fff;
/// No sequence is above it, and the Rust takes its general path.
const GENERAL: u64 = u64::MAX - 1;

/// So many versions of each key, equally far apart.
fn entries(rng: &mut Rng, keys: usize, versions: u64) -> Vec<Entry> {
    let step = SEQUENCES / versions;
    let mut all = Vec::new();
    for key in sorted_keys(rng, keys, KEY) {
        let least = rng.next() % step;
        let sequences = (0..versions).rev().map(|version| least + version * step);
        let entry = |sequence| Entry { kind: 1, key: key.clone(), value: rng.bytes(VALUE), sequence };
        all.extend(sequences.map(entry));
    }
    all
}

/// An opened store, and the first keys of the spans that are asked one after another.
struct Asked {
    index: Rc<Index>,
    keys: usize,
    firsts: Vec<usize>,
    count: usize,
}

impl Asked {
    /// As many spans as take all keys once, from random keys on.
    fn new(rng: &mut Rng, index: &Rc<Index>, keys: usize, count: usize) -> Self {
        let firsts = (0..keys / count).map(|_| rng.between(0, keys - count)).collect();
        Asked { index: index.clone(), keys, firsts, count }
    }

    fn row(&self, what: &str, limit: u64, most: impl Into<Option<f64>>) -> Row {
        let (count, units) = (self.count, self.firsts.len() * self.count);
        let span = if count == self.keys { "all".to_string() } else { count.to_string() };
        let name = format!("span of {span}, {} keys, {what}, per key", thousands(self.keys));
        let mut record: Record = [0; 16];
        record[..13].copy_from_slice(&self.index.record());
        let (section, firsts, mut pairs) = (self.index.bytes().to_vec(), self.firsts.clone(), vec![0; 2 * count]);
        let ours = repeated(move || {
            black_box(&firsts).iter().fold(0, |sum: u64, &first| {
                let (asked, mut found) = ([first as u64, count as u64, black_box(limit)], 0);
                // The vector is hidden, as the index is on the other side; a hidden slice would go through memory.
                let section: &Vec<u8> = black_box(&section);
                assert_eq!(ours::span(section, &record, asked, &mut pairs, &mut found), 0);
                let given = &black_box(&pairs)[..2 * found as usize];
                sum.wrapping_add(weighed(found, given.last_chunk().map(|&[offset, length]| (offset, length))))
            })
        });
        let (index, firsts, mut pairs) = (self.index.clone(), self.firsts.clone(), Vec::with_capacity(count));
        let rust = repeated(move || {
            black_box(&firsts).iter().fold(0, |sum: u64, &first| {
                pairs.clear();
                black_box(&index).span_plain(first, count, black_box(limit), &mut pairs);
                sum.wrapping_add(weighed(pairs.len() as u64, black_box(&pairs).last().copied()))
            })
        });
        row(name, units, most.into(), ours, rust)
    }
}

/// What of an answer goes into the sum that both sides must give: how many pairs there are, and the last.
fn weighed(found: u64, last: Option<(u64, u64)>) -> u64 {
    found ^ last.map_or(0, |(offset, length)| offset << 8 ^ length << 40)
}

/// Under the greatest limit the Rust takes a path of its own, which looks at each key's first version alone.
pub fn rows(rng: &mut Rng) -> Vec<Row> {
    let mut rows = Vec::new();
    for keys in SIZES {
        let index = Rc::new(Store::of(entries(rng, keys, 1), PREFIX).plain());
        for count in [1, 32, keys] {
            let asked = Asked::new(rng, &index, keys, count);
            rows.push(asked.row("no limit, general path", GENERAL, 1.0));
            rows.push(asked.row("no limit, first versions alone", u64::MAX, 1.5));
            rows.push(asked.row("half of them within the limit", MIDDLE, 1.0));
        }
        let index = Rc::new(Store::of(entries(rng, keys, 3), PREFIX).plain());
        for count in [1, 32, keys] {
            let asked = Asked::new(rng, &index, keys, count);
            rows.push(asked.row("second of three versions, or third", MIDDLE, 1.0));
        }
        let mut entries = entries(rng, keys, 1);
        entries[0].value.resize(LONG_VALUE, 0);
        let index = Rc::new(Store::of(entries, PREFIX).plain());
        for (count, most) in [(1, None), (32, Some(1.0)), (keys, Some(1.0))] {
            let asked = Asked::new(rng, &index, keys, count);
            rows.push(asked.row("a long value, no limit, general path", GENERAL, most));
        }
    }
    rows
}
