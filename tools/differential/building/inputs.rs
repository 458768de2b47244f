//! Lists of entries for the builder, and records and areas that no add gave.
use super::*;
use crate::chosen::{crowds, pairs, serving};
use crate::entries::entries;
use crate::forge::le64;
use crate::stores::blocks;

/// What a mark may be: 0 is no, every other number yes.
const YES: [u64; 4] = [1, 2, 1 << 32, u64::MAX];

const PREFIXES: [u64; 4] = [0, 1, 24, 25];

fn put(key: &[u8], value: &[u8], sequence: u64) -> Entry {
    Entry { kind: 1, key: key.to_vec(), value: value.to_vec(), sequence }
}

fn add(run: &mut Run, area: &[u8], record: &Record, case: Case) -> Option<(Vec<u8>, Record)> {
    let taken = expected::add(area, record, &offered(&case)).ok();
    run.compare(ask, case);
    taken
}

fn add_case(area: &[u8], record: &Record, entry: &Entry, new: bool, offset: u64) -> Case {
    let yes = |mark: bool| if mark { YES[entry.key.len() % 4] } else { 0 };
    let numbers = [yes(entry.kind == 2), entry.sequence, yes(new), offset];
    Case::new("add", &[&record[..], &numbers].concat(), &[area, &entry.key, &entry.value])
}

fn size(run: &mut Run, record: &Record, prefix: u64) {
    run.compare(ask, Case::new("size", &[&record[..], &[prefix]].concat(), &[]));
}

fn write(run: &mut Run, area: &[u8], record: &Record, numbers: [u64; 4]) {
    run.compare(ask, Case::new("write", &[&record[..], &numbers].concat(), &[area]));
}

/// The scratches and the output that writing needs, as far as the record tells.
fn needed(record: &Record, prefix: u64) -> [u64; 4] {
    let n = record[0].min(1 << 20);
    [prefix, n, 6 * n + 8, expected::size(record, prefix).unwrap_or(0).min(1 << 28)]
}

/// A builder that is filled on both sides: the area lent, its record, and the Rust's builder beside.
struct Filled {
    area: Vec<u8>,
    record: Record,
    rust: Builder,
}

impl Filled {
    fn new(room: usize) -> Self {
        Filled { area: vec![0x5a; room], record: [0; 16], rust: Builder::new(0) }
    }

    /// What the Rust's builder holds, in our form.
    fn held(rust: Builder) -> Self {
        Filled { area: expected::area(&rust), record: expected::record(&rust), rust }
    }

    /// Offers an entry; if it is taken, the Rust's builder takes it too.
    fn add(&mut self, run: &mut Run, entry: &Entry, new: bool, offset: u64) {
        let case = add_case(&self.area, &self.record, entry, new, offset);
        if let Some((area, record)) = add(run, &self.area, &self.record, case) {
            self.rust.add(entry.kind, &entry.key, &entry.value, entry.sequence, new, offset).expect("taken");
            (self.area, self.record) = (area, record);
        }
    }

    /// The record and area that document 01 gives are the Rust's.
    fn check(&self) {
        assert_eq!(self.record, expected::record(&self.rust), "the Rust's record");
        assert_eq!(self.area[..self.record[3] as usize], expected::area(&self.rust), "the Rust's area");
    }

    /// Size and writing with each prefix, with just what is needed.
    fn write(&self, run: &mut Run) {
        self.check();
        for prefix in PREFIXES {
            size(run, &self.record, prefix);
            write(run, &self.area, &self.record, needed(&self.record, prefix));
        }
    }

    /// Scratches and output one short, exact and longer.
    fn write_short(&self, run: &mut Run, prefix: u64) {
        let [prefix, words, halves, room] = needed(&self.record, prefix);
        let near = |number: u64| [number.saturating_sub(1), number, number + 1];
        for words in near(words) {
            for halves in near(halves) {
                for room in near(room) {
                    write(run, &self.area, &self.record, [prefix, words, halves, room]);
                }
            }
        }
    }
}

/// One version for each key, in this order, from the Rust's builder.
fn of_keys<K: AsRef<[u8]>>(keys: impl IntoIterator<Item = K>) -> Filled {
    let mut rust = Builder::new(0);
    for (i, key) in keys.into_iter().enumerate() {
        rust.add(1 + (i % 3 / 2) as u8, key.as_ref(), b"", i as u64 % 300, true, i as u64).expect("taken");
    }
    Filled::held(rust)
}

pub fn fixed(run: &mut Run) {
    rooms(run);
    limits(run);
    widths(run);
    short(run);
    small_forged(run);
    faults(run);
    many(run);
    failing(run);
    wholes(run);
}

/// Each room around what each entry of the worked store needs; an offset that falls; a tombstone with a value.
fn rooms(run: &mut Run) {
    let tombstone = |value: &[u8]| Entry { kind: 2, ..put(b"ab", value, 3) };
    for room in 0..170 {
        let mut filled = Filled::new(room);
        filled.write(run);
        filled.add(run, &put(b"ab", b"xyz", 7), room % 7 != 0, 23);
        filled.add(run, &tombstone(b""), false, 47);
        filled.add(run, &put(b"ac", b"", 5), true, 69);
        filled.write(run);
        filled.add(run, &put(b"ad", b"", 5), true, 68);
        filled.add(run, &tombstone(b"value"), false, 69);
        filled.add(run, &put(b"", b"", u64::MAX), true, 70);
        filled.write(run);
        filled.write_short(run, 0);
    }
}

/// 30 at its limits, and 33 and 37 by forged records.
fn limits(run: &mut Run) {
    let area = vec![0x5a; 2 << 20];
    for (key, value) in [(1 << 20, 0), ((1 << 20) + 1, 0), (0, 1 << 24), (0, (1 << 24) + 1)] {
        let entry = put(&vec![7; key], &vec![8; value], 1);
        run.compare(ask, add_case(&area, &[0; 16], &entry, true, 0));
        run.compare(ask, add_case(&area, &[0; 16], &entry, false, 0));
    }
    let filled = of_keys(["k"]);
    let area = [&filled.area[..], &[0; 60]].concat();
    let mut both = |area: &[u8], record: &Record| {
        for new in [false, true] {
            run.compare(ask, add_case(area, record, &put(b"k", b"", 1), new, u64::MAX));
        }
    };
    for versions in [(1u32 << 30) - 1, 1 << 30, (1 << 30) + 1, u32::MAX] {
        let mut many = area.clone();
        many[4..8].copy_from_slice(&versions.to_le_bytes());
        both(&many, &filled.record);
    }
    for keys in [(1 << 20) - 1, 1 << 20, (1 << 20) + 1] {
        let mut record = filled.record;
        record[0] = keys;
        both(&area, &record);
    }
}

/// Both sides of each width: keys, versions, values, sequences less the least, offsets.
fn widths(run: &mut Run) {
    let edges = [255, 256, 65_535, 65_536];
    let far = [255, 256, 65_535, 65_536, (1 << 32) - 1, 1 << 32, (1 << 63) - 1];
    for length in edges.into_iter().chain([1 << 20]) {
        of_keys([vec![7; length], vec![7; length - 1]]).write(run);
    }
    for versions in edges {
        list(run, (0..versions as u64).rev().map(|sequence| (put(b"k", b"v", sequence), 100)));
    }
    for length in [32_767, 32_768, 65_535, 65_536, 1 << 24] {
        list(run, [(put(b"k", &vec![8; length], 1), 100), (put(b"k", b"", 0), 100)]);
    }
    for (more, least) in far.into_iter().flat_map(|more| [0, 1 << 40, u64::MAX - more].map(|least| (more, least))) {
        list(run, [(put(b"k", b"", least + more), 0), (put(b"k", b"", least), 0)]);
        list(run, [(put(b"k", b"", least), 0), (put(b"k", b"", least + more), 0)]);
    }
    for offset in far.into_iter().chain([u64::MAX]) {
        list(run, [(put(b"k", b"", 1), 0), (put(b"k", b"", 0), offset)]);
    }
}

/// Entries of one key, each with its offset.
fn list(run: &mut Run, entries: impl IntoIterator<Item = (Entry, u64)>) {
    let mut rust = Builder::new(0);
    for (i, (e, offset)) in entries.into_iter().enumerate() {
        rust.add(e.kind, &e.key, &e.value, e.sequence, i == 0, offset).expect("taken");
    }
    Filled::held(rust).write(run);
}

/// 38 and 39.
fn short(run: &mut Run) {
    for count in [1, 2, 3, 4, 41] {
        let filled = of_keys((0..count).map(|i: u8| [i]));
        PREFIXES.iter().for_each(|&prefix| filled.write_short(run, prefix));
    }
}

/// Numbers about these and at the edges of 32, 33, 34 and 37.
fn others(number: u64, most: u64) -> Vec<u64> {
    let powers = [20, 30, 32, 63].map(|bit: u32| 1 << bit);
    let edges = powers.into_iter().chain([number]).flat_map(|edge: u64| [edge.wrapping_sub(1), edge, edge + 1]);
    (0..=most).chain(edges).chain([u64::MAX - 1, u64::MAX]).collect()
}

/// A small store with every number of its record changed, every byte of its area, and every length of it.
fn small_forged(run: &mut Run) {
    let mut filled = Filled::new(140);
    for (entry, new) in [(put(b"ab", b"xyz", 7), true), (put(b"ab", b"", 3), false), (put(b"ac", b"", 5), true)] {
        filled.add(run, &entry, new, 69);
    }
    let Filled { area, record, .. } = filled;
    for place in 0..16 {
        for number in others(record[place], 150) {
            let mut forged = record;
            forged[place] = number;
            asked_all(run, &area, &forged);
        }
    }
    for at in 0..record[3] as usize {
        for byte in 0..=255 {
            let mut forged = area.clone();
            forged[at] = byte;
            asked_all(run, &forged, &record);
        }
    }
    (0..area.len()).for_each(|length| asked_all(run, &area[..length], &record));
}

fn asked_all(run: &mut Run, area: &[u8], record: &Record) {
    for new in [false, true] {
        run.compare(ask, add_case(area, record, &put(b"ad", b"v", 4), new, u64::MAX));
    }
    for prefix in [0, 1] {
        size(run, record, prefix);
        write(run, area, record, [prefix, 5, 38, 400]);
    }
}

/// Areas that read back to their record but for one fault: a value or a key too long, a key of no versions, a key too many.
fn faults(run: &mut Run) {
    for length in [1 << 24, (1 << 24) + 1] {
        let mut filled = of_keys(["a"]);
        filled.area[18..22].copy_from_slice(&u32::to_le_bytes(length));
        filled.record[7] = length.into();
        write(run, &filled.area, &filled.record, needed(&filled.record, 0));
    }
    for more in [0, 1] {
        let mut filled = of_keys([vec![7; 1 << 20]]);
        filled.area.splice(8..8, vec![7; more]);
        filled.area[..4].copy_from_slice(&((1 << 20) + more as u32).to_le_bytes());
        [2, 3, 6].iter().for_each(|&place: &usize| filled.record[place] += more as u64);
        write(run, &filled.area, &filled.record, needed(&filled.record, 0));
    }
    let mut filled = of_keys(["a", "b"]);
    filled.area.drain(9..34);
    filled.area[4] = 0;
    filled.record[..6].copy_from_slice(&[2, 1, 2, 43, 1, 1]);
    write(run, &filled.area, &filled.record, needed(&filled.record, 0));
    let filled = of_keys((0..=1 << 20).map(u32::to_be_bytes));
    let [_, words, halves, room] = needed(&filled.record, 0);
    write(run, &filled.area, &filled.record, [0, words + 1, halves + 6, room]);
}

/// About 1,024 keys and 2,048, where anchors begin; more than 20 buckets of equal sizes; as many keys as 33 lets pass.
fn many(run: &mut Run) {
    let rng = &mut Rng::part(1, "many built", 0);
    for count in [41, 1023, 1024, 1025, 2049] {
        let mut filled = Filled::new(count as usize * 41);
        for i in 0..count {
            let key = [&b"stem"[..], &u32::to_be_bytes(i * 7)].concat();
            filled.add(run, &put(&key, b"", i.into()), true, i.into());
        }
        filled.write(run);
        of_keys((0..count).map(|_| rng.bytes(9))).write(run);
    }
    let most = of_keys((0..1 << 20).map(u32::to_be_bytes));
    let area = [&most.area[..], &[0; 60]].concat();
    run.compare(ask, add_case(&area, &most.record, &put(b"k", b"", 1), true, 1 << 20));
    run.compare(ask, add_case(&area, &most.record, &put(b"k", b"", 1), false, 1 << 20));
    write(run, &most.area, &most.record, needed(&most.record, 3));
}

/// Lists whose first seeds fail, and lists of which all do.
fn failing(run: &mut Run) {
    let rng = &mut Rng::part(1, "failing built", 0);
    for k in 2..=9 {
        let more: Vec<Vec<u8>> = (0..60).map(|_| rng.bytes(5)).collect();
        for list in [pairs(rng, k), [more, pairs(rng, k)].concat()] {
            assert_eq!(serving(&list), k, "the seed that serves");
            let filled = of_keys(&list);
            filled.write(run);
            filled.write_short(run, 0);
        }
    }
    for (k, size) in [(2, 24), (9, 300)] {
        of_keys(&crowds(rng, k, size)).write(run);
    }
    of_keys(["ab", "ab"]).write(run);
}

/// Stores with more than 20 buckets, whose sections differ by the sort, and with keys of failing seeds.
fn wholes(run: &mut Run) {
    let rng = &mut Rng::part(1, "wholes", 0);
    let bytes = |count: u8| (0..count).map(|byte| vec![byte]).collect::<Vec<_>>();
    let mut lists = vec![bytes(1), bytes(41), bytes(255)];
    lists.extend([1023, 1024, 1025, 2049].map(|count| (0..count).map(|i: u32| i.to_be_bytes().to_vec()).collect()));
    lists.extend((2..9).map(|k| pairs(rng, k)));
    for mut list in lists {
        list.sort();
        whole_of(run, rng, &list.iter().map(|key| put(key, &key[1..], 3)).collect::<Vec<_>>());
    }
}

fn whole_of(run: &mut Run, rng: &mut Rng, entries: &[Entry]) {
    let blocks = blocks(rng, entries);
    for prefix in PREFIXES {
        run.compare(ask, Case::new("whole", &[prefix], &[&blocks.data, &le64(&blocks.list)]));
    }
}

/// A record or area that no add gave.
fn forged(run: &mut Run, filled: &Filled, entry: &Entry, rng: &mut Rng) {
    let (mut area, mut record) = (filled.area.clone(), filled.record);
    let place = rng.below(16);
    match rng.below(5) {
        0 => record[place] = rng.wide(),
        1 => record[place] = record[place].wrapping_add(rng.pick(&[1, u64::MAX, 1 << 30, 1 << 32])),
        2 => record[place] = rng.pick(&[0, 1 << 20, (1 << 20) - 1, 1 << 30, (1 << 30) + 1]),
        3 => area.truncate(rng.between(0, record[3] as usize)),
        _ => {
            let at = rng.below(record[3].max(1) as usize);
            if let Some(byte) = area.get_mut(at) {
                *byte = rng.pick(&[0, 1, 2, 3, byte.wrapping_add(1), 255]);
            }
        }
    }
    run.compare(ask, add_case(&area, &record, entry, rng.one_in(2), u64::MAX));
    let (n, prefix) = (record[0].min(5000), rng.between(0, 24) as u64);
    size(run, &record, prefix);
    let room = expected::size(&filled.record, prefix).unwrap_or(0) + 200;
    write(run, &area, &record, [prefix, n, 6 * n + 8, room]);
}

/// The entries with keys repeated or out of order, and tombstones with values.
fn wild(entries: &mut Vec<Entry>, rng: &mut Rng) {
    let [a, b, c, d] = [(); 4].map(|()| rng.below(entries.len()));
    entries.swap(a, b);
    entries.insert(a, entries[c].clone());
    entries[d].kind = 2;
    let length = rng.between(0, 9);
    entries[d].value = rng.bytes(length);
    if rng.one_in(6) {
        let k = rng.between(1, 9) as u64;
        entries.extend(pairs(rng, k).iter().map(|key| put(key, b"", 1)));
    }
}

/// Entries in order, or wild ones with some marked wrongly and some offsets falling.
pub fn round(run: &mut Run, rng: &mut Rng) {
    let count = if rng.one_in(80) { 1100 } else { rng.pick(&[1, 2, 3, 8, 30, 60]) };
    let (mut entries, is_wild) = (entries(rng, count), rng.one_in(3));
    if is_wild {
        wild(&mut entries, rng);
    } else {
        whole_of(run, rng, &entries);
    }
    let room: usize = entries.iter().map(|entry| 33 + entry.key.len()).sum();
    let less = if rng.one_in(3) { rng.below(40) } else { 0 };
    let mut filled = Filled::new(room.saturating_sub(less) + rng.below(3));
    let mut offset = rng.wide() >> rng.pick(&[0, 32, 40]);
    for (i, entry) in entries.iter().enumerate() {
        let new = i == 0 || entries[i - 1].key != entry.key;
        let wrong = is_wild && rng.one_in(5);
        filled.add(run, entry, new != wrong, offset);
        offset = if wrong { offset / 2 } else { offset.saturating_add(rng.wide() >> 40) };
        if rng.one_in(8) && entries.len() < 100 {
            forged(run, &filled, entry, rng);
        }
    }
    filled.write(run);
    filled.write_short(run, rng.pick(&PREFIXES));
    (0..4).for_each(|_| forged(run, &filled, &entries[0], rng));
}
