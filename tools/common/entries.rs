//! Random entries in order: keys rise, sequences fall within a key, tombstones are empty.
use crate::blocks::Entry;
use crate::rng::Rng;

/// Bytes from a small alphabet, so that keys share beginnings.
fn letters(rng: &mut Rng, most: usize) -> Vec<u8> {
    let length = rng.between(0, most);
    (0..length).map(|_| rng.pick(b"ab\0\xff")).collect()
}

fn tail(rng: &mut Rng, most: usize) -> Vec<u8> {
    let length = rng.between(0, most);
    rng.bytes(length)
}

fn key(rng: &mut Rng, style: usize, stem: &[u8], last: &[u8]) -> Vec<u8> {
    match style {
        0 => letters(rng, 7),
        1 => rng.next().to_be_bytes().to_vec(),
        2 => [stem, &tail(rng, 4)].concat(),
        3 => tail(rng, 20),
        4 => [last, &rng.bytes(1)].concat(),
        _ => [stem, &letters(rng, 12), stem].concat(),
    }
}

/// At most `count` different keys, sorted.
pub fn keys(rng: &mut Rng, count: usize) -> Vec<Vec<u8>> {
    // Each key of style 4 is longer than the last, so many of them would grow without need.
    let style = if count > 300 { rng.pick(&[1, 2, 3]) } else { rng.below(6) };
    let most = rng.pick(&[3, 12, 40, 300]);
    let stem = tail(rng, most);
    let mut keys: Vec<Vec<u8>> = Vec::new();
    for _ in 0..count {
        let last = keys.last().cloned().unwrap_or_default();
        keys.push(key(rng, style, &stem, &last));
    }
    keys.sort();
    keys.dedup();
    keys
}

fn value(rng: &mut Rng, most: usize) -> Vec<u8> {
    let length = if rng.one_in(3) { 0 } else { rng.between(0, most) };
    rng.bytes(length)
}

/// Strictly falling sequences in a range whose width in bits is chosen once per store.
fn sequences(rng: &mut Rng, count: usize, base: u64, bits: usize) -> Vec<u64> {
    let mut all: Vec<u64> = (0..count).map(|_| base.saturating_add(rng.next() >> (64 - bits))).collect();
    all.sort_by(|a, b| b.cmp(a));
    all.dedup();
    all
}

/// The entries of about `count` keys.
pub fn entries(rng: &mut Rng, count: usize) -> Vec<Entry> {
    let (base, bits) = (rng.wide(), rng.pick(&[3, 8, 9, 16, 17, 32, 33, 64]));
    // Long values and many versions, for the wider numbers, come seldom and in small stores.
    let rare = count <= 5 && rng.one_in(100);
    let usual = (rng.pick(&[1, 1, 2, 4]), rng.pick(&[0, 5, 40]));
    let (most_versions, most_value) = if rare { rng.pick(&[(300, 5), (2, 33_000)]) } else { usual };
    let mut entries = Vec::new();
    for key in keys(rng, count) {
        let versions = rng.between(1, most_versions);
        for sequence in sequences(rng, versions, base, bits) {
            let tombstone = rng.one_in(4);
            entries.push(Entry {
                kind: if tombstone { 2 } else { 1 },
                key: key.clone(),
                value: if tombstone { Vec::new() } else { value(rng, most_value) },
                sequence,
            });
        }
    }
    entries
}

/// The entries in consecutive parts, none empty, one per block.
pub fn cut<'a>(rng: &mut Rng, entries: &'a [Entry]) -> Vec<&'a [Entry]> {
    let most = rng.pick(&[1, 3, 10, 60, entries.len().max(1)]);
    let (mut rest, mut parts) = (entries, Vec::new());
    while !rest.is_empty() {
        let (part, others) = rest.split_at(rng.between(1, most.min(rest.len())));
        parts.push(part);
        rest = others;
    }
    parts
}
