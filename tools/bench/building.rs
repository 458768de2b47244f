//! Adding and writing, together and each alone, per key: 20-byte keys with one version each.
use crate::measure::{Row, Work, prepared, repeated, row, thousands};
use crate::ours::{self, Offered, Record, Scratch};
use crate::rng::Rng;
use crate::stores::{KEY, VALUE, sorted_keys};
use oracle_stable::point::Builder;
use std::hint::black_box;
use std::rc::Rc;

const SIZES: [usize; 3] = [1_000, 10_000, 100_000];
/// Values of other lengths, and how many keys have them.
const VALUES: [usize; 2] = [8, 1024];
const VALUED: usize = 10_000;

struct Entry {
    key: Vec<u8>,
    value: Vec<u8>,
    sequence: u64,
    offset: u64,
}

fn entries(rng: &mut Rng, count: usize, value: usize) -> Rc<Vec<Entry>> {
    let keys = sorted_keys(rng, count, KEY);
    let place = |at| (at * (21 + KEY + value) + 21 + KEY) as u64;
    let entry = |(at, key)| Entry { key, value: rng.bytes(value), sequence: rng.next() & 0xffff, offset: place(at) };
    Rc::new(keys.into_iter().enumerate().map(entry).collect())
}

/// What we are lent, cleared at no time.
struct Lent {
    area: Vec<u8>,
    scratch: Scratch,
    output: Vec<u8>,
}

impl Lent {
    fn new(keys: usize) -> Self {
        let scratch = Scratch { words: vec![0; keys], halves: vec![0; 6 * keys + 8] };
        Lent { area: vec![0; keys * (8 + KEY + 25)], scratch, output: vec![0; 64 + 100 * keys] }
    }

    fn adds(&mut self, entries: &[Entry]) -> Record {
        let mut record = [0; 16];
        for Entry { key, value, sequence, offset } in entries {
            let offered = Offered { tombstone: false, key, value, sequence: *sequence, new: true, offset: *offset };
            assert_eq!(ours::add(&mut self.area, &mut record, offered), 0);
        }
        record
    }

    fn write(&mut self, record: &Record) -> u64 {
        let (mut size, mut length) = (0, 0);
        assert_eq!(ours::size(record, 0, &mut size), 0);
        let output = &mut self.output[..size as usize];
        assert_eq!(ours::write(&self.area, record, 0, &mut self.scratch, output, &mut length), 0);
        sealed(output)
    }
}

fn rust_adds(entries: &[Entry]) -> Builder {
    let mut builder = Builder::new(0);
    entries.iter().for_each(|e| builder.add_plain(&e.key, &e.value, e.sequence, e.offset));
    builder
}

fn rust_write(builder: Builder) -> u64 {
    sealed(&builder.finish().expect("a section"))
}

/// The CRC-32 of a section, which stands at its end, and its length.
fn sealed(section: &[u8]) -> u64 {
    let (_, crc) = black_box(section).split_last_chunk().expect("a trailer");
    u64::from(u32::from_le_bytes(*crc)) ^ (section.len() as u64) << 32
}

/// The used bytes and the last value's CRC-32, which stands at their end.
fn added(used: u64, crc: u32) -> u64 {
    used << 32 ^ u64::from(crc)
}

fn our_adds(lent: &mut Lent, entries: &[Entry]) -> u64 {
    let used = lent.adds(black_box(entries))[3];
    let (_, crc) = black_box(&lent.area[..used as usize]).split_last_chunk().expect("a version");
    added(used, u32::from_le_bytes(*crc))
}

fn rusts_adds(entries: &[Entry]) -> u64 {
    let builder = rust_adds(black_box(entries));
    let (arena, _, checksums) = black_box(builder.area());
    added((arena.len() + 4 * checksums.len()) as u64, checksums[checksums.len() - 1])
}

fn adding(entries: &Rc<Vec<Entry>>, what: &str) -> Row {
    let keys = entries.len();
    let (mut lent, e) = (Lent::new(keys), entries.clone());
    let ours = repeated(move || our_adds(&mut lent, &e));
    let e = entries.clone();
    let rust = repeated(move || rusts_adds(&e));
    per_key("adding", keys, what, None, ours, rust)
}

fn writing(entries: &Rc<Vec<Entry>>) -> Row {
    let keys = entries.len();
    let mut lent = Lent::new(keys);
    let record = lent.adds(entries);
    let ours = repeated(move || lent.write(black_box(&record)));
    let e = entries.clone();
    let rust = prepared(move || rust_adds(&e), rust_write);
    per_key("writing", keys, "", None, ours, rust)
}

fn both(entries: &Rc<Vec<Entry>>) -> Row {
    let keys = entries.len();
    let (mut lent, e) = (Lent::new(keys), entries.clone());
    let ours = repeated(move || {
        let record = lent.adds(black_box(&e));
        lent.write(&record)
    });
    let e = entries.clone();
    let rust = repeated(move || rust_write(rust_adds(black_box(&e))));
    per_key("adding and writing", keys, "", Some(1.25), ours, rust)
}

fn per_key(work: &str, keys: usize, what: &str, limit: Option<f64>, ours: Work, rust: Work) -> Row {
    row(format!("{work}, {} keys{what}, per key", thousands(keys)), keys, limit, ours, rust)
}

pub fn rows(rng: &mut Rng) -> Vec<Row> {
    let sized = SIZES.map(|keys| entries(rng, keys, VALUE));
    let together = sized.iter().map(both);
    let alone = sized.iter().map(|e| adding(e, "")).chain(sized.iter().map(writing));
    let mut rows: Vec<Row> = together.chain(alone).collect();
    rows.extend(VALUES.map(|value| adding(&entries(rng, VALUED, value), &format!(", values of {value} bytes"))));
    rows
}
