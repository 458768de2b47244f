//! Lists of adds with the sections that the Rust with a stable sort writes from them.
use crate::blocks::{Entry, Offered};
use crate::building_expected::{self as expected, Record};
use crate::chosen::{pairs, serving};
use crate::entries::entries;
use crate::list::{BEFORE, Kind, List};
use crate::rng::Rng;
use oracle::crc32::crc32;
use oracle_stable::point::Builder;

/// The area's length in the program, and the most that its output has.
const ROOM: usize = 65_536;

const MOST_KEYS: u64 = 1025;

/// A list, and the builder that its rows share: its area and record as the rows so far leave them.
struct Lists {
    list: List,
    area: Vec<u8>,
    record: Record,
}

impl Lists {
    fn new() -> Self {
        Lists { list: List::default(), area: vec![0; ROOM], record: [0; 16] }
    }

    /// A row that states the builder.
    fn begin(&mut self, record: &Record, area: &[u8]) {
        let (place, [start, length]) = (self.list.numbers(record), self.list.part(area));
        self.list.row(Kind::Begin, &[place, start, length], &[0]);
        self.record = *record;
        self.area[..area.len()].copy_from_slice(area);
    }

    fn empty(&mut self) {
        self.begin(&[0; 16], &[]);
    }

    /// What the Rust's builder holds.
    fn state(&mut self, rust: &Builder) {
        self.begin(&expected::record(rust), &expected::area(rust));
    }

    /// An add with so much of the area lent.
    fn add(&mut self, e: &Entry, new: bool, offset: u64, room: usize) {
        let tombstone = e.kind == 2;
        let offered = Offered { tombstone, key: &e.key, value: &e.value, sequence: e.sequence, new, offset };
        let number = match expected::add(&self.area[..room], &self.record, &offered) {
            Ok((area, record)) => {
                self.area[..room].copy_from_slice(&area);
                self.record = record;
                0
            }
            Err(number) => number,
        };
        let (key, value) = (self.list.part(&e.key), self.list.part(&e.value));
        let marks = [e.sequence, new.into(), offset, number];
        let row = [&[room as u64, tombstone.into()][..], &key, &value, &marks].concat();
        self.list.row(Kind::Add, &row, &[number]);
    }

    /// The keys of the numbers below `count`, all of them new, with empty values.
    fn numbered(&mut self, count: u32) {
        for n in 0..count {
            let (key, sequence) = (&n.to_be_bytes()[..], n.into());
            let offered = Offered { tombstone: false, key, value: b"", sequence, new: true, offset: sequence };
            (self.area, self.record) = expected::add(&self.area, &self.record, &offered).expect("taken");
        }
        self.list.row(Kind::Numbered, &[count.into()], &[0]);
    }

    /// The record and the used area.
    fn held(&mut self) {
        let place = self.list.numbers(&self.record);
        let used = self.area.len().min(self.record[3] as usize);
        self.list.row(Kind::Held, &[place, crc32(&self.area[..used]).into()], &[0]);
    }

    fn size(&mut self, prefix: u64) {
        let (number, size) =
            expected::size(&self.record, prefix).map_or_else(|number| (number, BEFORE), |size| (0, size));
        self.list.row(Kind::Size, &[prefix, number, size], &[number]);
    }

    fn write_lent(&mut self, [prefix, words, halves, room]: [u64; 4]) {
        assert!(words <= MOST_KEYS + 1 && halves <= 6 * MOST_KEYS + 9 && room <= ROOM as u64, "more than is lent");
        let mut output = vec![0; room as usize];
        let (number, length) = match expected::write(&self.area, &self.record, prefix, [words, halves], room) {
            Ok(section) => {
                output[..section.len()].copy_from_slice(&section);
                (0, section.len() as u64)
            }
            Err(number) => (number, BEFORE),
        };
        let row = [prefix, words, halves, room, number, length, crc32(&output).into()];
        self.list.row(Kind::Write, &row, &[number]);
    }

    /// What writing needs.
    fn needed(&self, prefix: u64) -> [u64; 4] {
        let n = self.record[0].min(MOST_KEYS);
        let size = expected::size(&self.record, prefix).unwrap_or(0).min(ROOM as u64);
        [prefix, n, 6 * n + 8, size]
    }

    /// State, size and section with each prefix.
    fn written(&mut self, prefixes: &[u64]) {
        self.held();
        for &prefix in prefixes {
            self.size(prefix);
            self.write_lent(self.needed(prefix));
        }
    }
}

fn put(key: &[u8], value: &[u8], sequence: u64) -> Entry {
    Entry { kind: 1, key: key.to_vec(), value: value.to_vec(), sequence }
}

/// Document 01's worked store: each entry with its mark and offset.
fn worked() -> [(Entry, bool, u64); 3] {
    let tombstone = Entry { kind: 2, ..put(b"ab", b"", 3) };
    [(put(b"ab", b"xyz", 7), true, 23), (tombstone, false, 47), (put(b"ac", b"", 5), true, 69)]
}

/// The worked store, then random lists, in order, and with keys repeated, marked wrongly and tombstones with values.
pub fn builds(rng: &mut Rng) -> List {
    let mut lists = Lists::new();
    lists.empty();
    worked().iter().for_each(|(entry, new, offset)| lists.add(entry, *new, *offset, ROOM));
    lists.written(&[0, 1, 2, 24, 25]);
    for i in 0..20 {
        let count = rng.between(1, 6);
        let mut all = entries(rng, count);
        all.truncate(12);
        if i % 3 == 0 {
            let (a, b) = (rng.below(all.len()), rng.below(all.len()));
            all.swap(a, b);
            all.push(Entry { kind: 2, value: b"value".to_vec(), ..all[a].clone() });
        }
        lists.empty();
        let mut offset = rng.wide() >> 30;
        for (i, entry) in all.iter().enumerate() {
            let new = i == 0 || all[i - 1].key != entry.key;
            lists.add(entry, new, offset, ROOM);
            offset += rng.next() % 40;
        }
        let prefix = rng.between(1, 24) as u64;
        lists.written(&[0, prefix]);
    }
    lists.list
}

/// Each refusal but 30, whose keys and values are too long for a list.
pub fn refused(rng: &mut Rng) -> List {
    let mut lists = Lists::new();
    lists.empty();
    lists.written(&[0, 1, 25]);
    lists.add(&put(b"ab", b"", 1), false, 0, ROOM);
    for (entry, new, offset) in worked() {
        let end = lists.record[3] as usize + 25 + if new { 8 + entry.key.len() } else { 0 };
        lists.add(&entry, new, offset, end - 1);
        lists.held();
        lists.add(&entry, new, offset, end);
    }
    lists.add(&put(b"ad", b"", 1), true, 68, ROOM);
    short(&mut lists);
    forged(&mut lists);
    seeds(&mut lists, rng);
    let missing: Vec<u64> = (31..=40).filter(|&number| !lists.list.has(number)).collect();
    assert!(missing.is_empty(), "no row is refused by {missing:?}");
    lists.list
}

/// 38 and 39.
fn short(lists: &mut Lists) {
    let needed = lists.needed(1);
    for place in 1..4 {
        let mut less = needed;
        less[place] -= 1;
        lists.write_lent(less);
    }
    lists.write_lent(needed.map(|number| number + 1));
}

/// The builder with each number of its record changed, and with each second byte of its area.
fn forged(lists: &mut Lists) {
    let (record, used) = (lists.record, lists.area[..lists.record[3] as usize].to_vec());
    for place in 0..16 {
        let mut other = record;
        other[place] += if place % 2 == 0 { 1 } else { 1 << 30 };
        lists.begin(&other, &used);
        lists.size(0);
        lists.write_lent([0, 2, 20, 300]);
        lists.add(&put(b"ad", b"", 4), place % 3 == 0, u64::MAX, ROOM);
    }
    lists.begin(&[&[1 << 20], &record[1..]].concat().try_into().expect("sixteen"), &used);
    lists.add(&put(b"ad", b"", 4), true, u64::MAX, ROOM);
    for at in (0..used.len()).step_by(2) {
        let mut other = used.clone();
        other[at] ^= 1 << (at % 8);
        lists.begin(&record, &other);
        lists.write_lent([0, 2, 20, 300]);
    }
}

/// Lists of which the first seeds fail, and one of which all do.
fn seeds(lists: &mut Lists, rng: &mut Rng) {
    for k in 2..=9 {
        let keys = pairs(rng, k);
        assert_eq!(serving(&keys), k, "the seed that serves");
        let mut rust = Builder::new(0);
        keys.iter().for_each(|key| rust.add(1, key, b"", k, true, k).expect("taken"));
        lists.state(&rust);
        lists.write_lent(lists.needed(0));
    }
}

/// Both sides of the widths: keys, versions, values, sequences less the least, offsets.
pub fn widths(_: &mut Rng) -> List {
    let mut lists = Lists::new();
    let far = [255, 256, 65_535, 65_536, (1 << 32) - 1, 1 << 32];
    let mut one = |entries: &mut dyn Iterator<Item = (Entry, u64)>| {
        let mut rust = Builder::new(0);
        for (i, (e, offset)) in entries.enumerate() {
            rust.add(e.kind, &e.key, &e.value, e.sequence, i == 0, offset).expect("taken");
        }
        lists.state(&rust);
        lists.written(&[0, 1]);
    };
    for length in [255, 256] {
        one(&mut [(put(&vec![7; length], b"", 1), 0)].into_iter());
        one(&mut (0..length as u64).rev().map(|sequence| (put(b"k", b"", sequence), 0)));
    }
    for length in [32_767, 32_768] {
        one(&mut [(put(b"k", &vec![8; length], 1), 0)].into_iter());
    }
    for more in far {
        one(&mut [(put(b"k", b"", 9 + more), 0), (put(b"k", b"", 9), 0)].into_iter());
        one(&mut [(put(b"k", b"", 1), 0), (put(b"k", b"", 0), more)].into_iter());
    }
    lists.list
}

/// Many keys: buckets of equal sizes, and a second anchor.
pub fn many(_: &mut Rng) -> List {
    let mut lists = Lists::new();
    for count in [2, 41, 255, 1024, MOST_KEYS as u32] {
        lists.empty();
        lists.numbered(count);
        lists.written(&[0, 3, 4]);
    }
    lists.list
}
