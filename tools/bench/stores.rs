//! Opening and lookup on stores of 20-byte keys with one version each and 32-byte values; lookup of 16-byte keys too,
//! whose hash has no last odd bytes, also of more different ones than a processor learns by heart, and in sections with a scan part or
//! with other widths than most have.
use crate::blocks::{Entry, block};
use crate::measure::{Row, Work, repeated, row, thousands};
use crate::ours::{self, Record};
use crate::rng::Rng;
use oracle::compact::{Index, open, open_packed, open_packed_shared, open_shared};
use oracle_stable::point::Builder;
use std::hint::black_box;
use std::rc::Rc;
use std::sync::Arc;

/// A store whose parts stay in the nearest caches, and one whose parts do not.
pub const SIZES: [usize; 2] = [1_000, 100_000];
pub const KEY: usize = 20;
const WHOLE_KEY: usize = 16;
pub const VALUE: usize = 32;
pub const PREFIX: usize = 4;
const MANY: usize = 65_536;
/// A value so long that the lengths of values take four bytes, widths for which the Rust's spans have no loop of their own.
pub const LONG_VALUE: usize = 33_000;
/// The greatest ratio that a lookup is to reach.
const LOOKUP: Option<f64> = Some(1.05);
const PER_BLOCK: usize = 50;
/// No sequence is above it.
const LIMIT: u64 = 0xffff;

/// Keys of one length, in order.
pub fn sorted_keys(rng: &mut Rng, count: usize, length: usize) -> Vec<Vec<u8>> {
    let mut keys: Vec<Vec<u8>> = (0..count).map(|_| rng.bytes(length)).collect();
    keys.sort();
    keys
}

pub struct Store {
    entries: Vec<Entry>,
    offsets: Vec<u64>,
    section: Vec<u8>,
    data: Vec<u8>,
    list: Vec<u64>,
}

impl Store {
    fn new(rng: &mut Rng, count: usize, key: usize) -> Rc<Self> {
        Self::with(rng, count, key, 0, VALUE)
    }

    /// With a scan part, unless the prefix is 0, and with a first value of another length.
    fn with(rng: &mut Rng, count: usize, key: usize, prefix: usize, first: usize) -> Rc<Self> {
        let keys = sorted_keys(rng, count, key);
        let mut entry = |key| Entry { kind: 1, key, value: rng.bytes(VALUE), sequence: rng.next() & LIMIT };
        let mut entries: Vec<Entry> = keys.into_iter().map(&mut entry).collect();
        entries[0].value.resize(first, 0);
        Store::of(entries, prefix)
    }

    /// The blocks and the section of these entries.
    pub fn of(entries: Vec<Entry>, prefix: usize) -> Rc<Self> {
        let (mut offsets, mut data, mut list) = (Vec::new(), Vec::new(), Vec::new());
        for part in entries.chunks(PER_BLOCK) {
            let (base, block) = (data.len() as u64, block(part, 16));
            offsets.extend(block.places.iter().map(|&place| base + place as u64));
            list.extend([base, block.raw.len() as u64]);
            data.extend(block.raw);
        }
        let section = rust_build(&entries, &offsets, prefix);
        Rc::new(Store { entries, offsets, section, data, list })
    }

    fn pairs(&self) -> Vec<(u64, u64)> {
        self.list.chunks_exact(2).map(|pair| (pair[0], pair[1])).collect()
    }

    pub fn plain(&self) -> Index {
        let index = open(&self.section, &self.data, &self.pairs()).expect("accepted");
        assert!(index.record()[10] == 1 && index.record()[12] == 0 && index.bytes() == self.section);
        index
    }

    /// The packed index, whose bytes are shorter than the section by the fingerprints and a byte per pilot.
    fn packed(&self) -> Index {
        let index = open_packed(&self.section, &self.data, &self.pairs()).expect("accepted").expect("packed");
        let keys = self.entries.len();
        assert_eq!(index.bytes().len(), self.section.len() - 2 * keys - keys.div_ceil(2));
        assert_eq!(index.record()[12], 1);
        index
    }
}

fn rust_build(entries: &[Entry], offsets: &[u64], prefix: usize) -> Vec<u8> {
    let mut builder = Builder::new(prefix);
    let mut last: Option<&[u8]> = None;
    for (e, &offset) in entries.iter().zip(offsets) {
        builder.add(e.kind, &e.key, &e.value, e.sequence, last != Some(&e.key), offset).expect("taken");
        last = Some(&e.key);
    }
    builder.finish().expect("a section")
}

fn per_unit(name: String, units: usize, ours: Work, rust: Work) -> Row {
    row(name, units, Some(1.25), ours, rust)
}

#[cfg(has = "kiban_open")]
pub fn opening(rng: &mut Rng) -> Vec<Row> {
    SIZES.map(|keys| opening_row(&Store::new(rng, keys, KEY))).into()
}

#[cfg(has = "kiban_open")]
fn opening_row(store: &Rc<Store>) -> Row {
    let (s, keys) = (store.clone(), store.entries.len());
    let ours = repeated(move || {
        let (mut scratch, mut record) = ([0u8; 64], [0; 16]);
        let number = ours::open(black_box(&s.section), &s.data, &s.list, &mut scratch, &mut record);
        assert_eq!(number, 0);
        record[0]
    });
    let (section, data): (Arc<[u8]>, Arc<[u8]>) = (store.section[..].into(), store.data[..].into());
    let pairs = store.pairs();
    let rust =
        repeated(move || open_shared(black_box(section.clone()), data.clone(), &pairs).expect("accepted").record()[0]);
    per_unit(format!("opening, plain, {} keys, per record", thousands(keys)), keys, ours, rust)
}

#[cfg(has = "kiban_open_packed")]
pub fn opening_packed(rng: &mut Rng) -> Vec<Row> {
    SIZES.map(|keys| packed_row(&Store::new(rng, keys, KEY))).into()
}

#[cfg(has = "kiban_open_packed")]
fn our_packed(store: &Store, output: &mut [u8]) -> (Record, usize) {
    let (mut scratch, mut record, mut length) = ([0u8; 64], [0; 16], 0);
    let section = black_box(&store.section);
    let number = ours::open_packed(section, &store.data, &store.list, &mut scratch, output, &mut record, &mut length);
    assert_eq!(number, 0);
    (record, length as usize)
}

#[cfg(has = "kiban_open_packed")]
fn packed_row(store: &Rc<Store>) -> Row {
    let (s, keys) = (store.clone(), store.entries.len());
    let mut output = vec![0; store.packed().bytes().len()];
    let ours = repeated(move || {
        let (record, length) = our_packed(&s, &mut output);
        let last = black_box(&output)[length - 1];
        record[4] ^ length as u64 ^ u64::from(last)
    });
    let (s, section, pairs): (_, Arc<[u8]>, _) = (store.clone(), store.section[..].into(), store.pairs());
    let rust = repeated(move || {
        let opened = open_packed_shared(black_box(section.clone()), &s.data, &pairs);
        let index = opened.expect("accepted").expect("packed");
        let bytes = black_box(index.bytes());
        index.record()[4] ^ bytes.len() as u64 ^ u64::from(bytes[bytes.len() - 1])
    });
    per_unit(format!("opening, packed, {} keys, per record", thousands(keys)), keys, ours, rust)
}

/// The bytes and the record that our lookups get: the Rust's, which are our own packed ones too.
#[cfg(has = "kiban_lookup")]
fn lent(store: &Store, index: &Index) -> (Vec<u8>, Record) {
    let mut record = [0; 16];
    record[..13].copy_from_slice(&index.record());
    #[cfg(has = "kiban_open_packed")]
    if record[12] == 1 {
        let mut output = vec![0; store.section.len()];
        let (own, length) = our_packed(store, &mut output);
        assert!(own == record && output[..length] == *index.bytes(), "both sides have the same packed bytes");
    }
    (index.bytes().to_vec(), record)
}

/// What of an answer goes into the sum that both sides must give.
fn weighed(sequence: u64, offset: u64, length: u64, checksum: u64) -> u64 {
    sequence ^ offset << 8 ^ length << 40 ^ checksum << 24
}

/// Both sides ask the keys, which stand one behind the other, in the same order.
#[cfg(has = "kiban_lookup")]
fn lookup_row(
    name: String,
    (section, record): (Vec<u8>, Record),
    index: Index,
    keys: Vec<u8>,
    key: usize,
    held: bool,
) -> Row {
    let units = keys.len() / key;
    let asked = keys.clone();
    let ours = repeated(move || {
        let mut answer = [0; 6];
        black_box(&asked).chunks_exact(key).fold(0, |sum: u64, key| {
            // The vector is hidden, as the index is on the other side; a hidden slice would go through memory.
            let section: &Vec<u8> = black_box(&section);
            let number = ours::lookup(section, &record, key, black_box(LIMIT), &mut answer);
            assert!(number == 0 && answer[0] == u64::from(held));
            sum.wrapping_add(weighed(answer[2], answer[3], answer[4], answer[5]))
        })
    });
    let rust = repeated(move || {
        black_box(&keys).chunks_exact(key).fold(0, |sum: u64, key| {
            let found = black_box(&index).locate_plain(key, black_box(LIMIT));
            assert!(found.is_some() == held);
            sum.wrapping_add(found.map_or(0, |v| weighed(v.sequence, v.offset, v.length, v.checksum.into())))
        })
    });
    row(name, units, LOOKUP, ours, rust)
}

/// As many keys as are held, each once, in random order.
fn shuffled(store: &Store, rng: &mut Rng) -> Vec<u8> {
    let mut keys: Vec<&[u8]> = store.entries.iter().map(|entry| &entry.key[..]).collect();
    (1..keys.len()).rev().for_each(|at| keys.swap(at, rng.between(0, at)));
    keys.concat()
}

/// A name for a form of a store, and the index of that form.
type Form = (&'static str, fn(&Store) -> Index);
/// A name for some keys, the keys, and whether they are held.
type Asked = (String, Vec<u8>, bool);

const PLAIN: Form = ("plain", Store::plain);
const PACKED: Form = ("packed", Store::packed);
const SCANNED: Form = ("plain with a scan part", Store::plain);
const WIDE: Form = ("plain with a long value", Store::plain);

/// The held keys, and as many absent ones.
fn held_and_absent(store: &Store, rng: &mut Rng) -> [Asked; 2] {
    let bytes = store.entries.len() * store.entries[0].key.len();
    [("hit".into(), shuffled(store, rng), true), ("absent".into(), rng.bytes(bytes), false)]
}

#[cfg(has = "kiban_lookup")]
fn lookup_rows(store: &Store, forms: &[Form], all: &[Asked]) -> Vec<Row> {
    let (count, key) = (thousands(store.entries.len()), store.entries[0].key.len());
    let mut rows = Vec::new();
    for (form, index) in forms {
        for (asked, keys, held) in all {
            let name = format!("lookup, {form}, {count} keys of {key} bytes, {asked}");
            let index = index(store);
            rows.push(lookup_row(name, lent(store, &index), index, keys.clone(), key, *held));
        }
    }
    rows
}

#[cfg(has = "kiban_lookup")]
pub fn lookups(rng: &mut Rng) -> Vec<Row> {
    let mut rows = Vec::new();
    for (count, key) in [(SIZES[0], KEY), (SIZES[1], KEY), (SIZES[0], WHOLE_KEY)] {
        let store = Store::new(rng, count, key);
        rows.extend(lookup_rows(&store, &[PLAIN, PACKED], &held_and_absent(&store, rng)));
    }
    let store = Store::new(rng, SIZES[0], WHOLE_KEY);
    let many = (format!("{} absent", thousands(MANY)), rng.bytes(MANY * WHOLE_KEY), false);
    rows.extend(lookup_rows(&store, &[PLAIN, PACKED], &[many]));
    for (form, prefix, first) in [(SCANNED, PREFIX, VALUE), (WIDE, 0, LONG_VALUE)] {
        let store = Store::with(rng, SIZES[0], WHOLE_KEY, prefix, first);
        rows.extend(lookup_rows(&store, &[form], &held_and_absent(&store, rng)));
    }
    rows
}
