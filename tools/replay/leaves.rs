//! CRC-32, hash, trailer, block verify, block walk.
use crate::blocks::{Block, Entry, block, seal};
use crate::damage::damage;
use crate::list::{BEFORE, Kind, List};
use crate::numbers::number;
use crate::rng::Rng;
use oracle::block::Record;
use oracle::{block as rust, point};

/// The longest room for a key in the walks.
const MOST_ROOM: usize = 64;

fn add_crc(list: &mut List, data: &[u8]) {
    let [place, length] = list.part(data);
    list.row(Kind::Crc, &[place, length, oracle::crc32::crc32(data).into()], &[0]);
}

pub fn crc(rng: &mut Rng) -> List {
    let mut list = List::default();
    add_crc(&mut list, b"123456789");
    let mut length = 0;
    while list.rows() < 200 {
        add_crc(&mut list, &rng.bytes(length));
        length = if length < 70 { length + 1 } else { rng.between(0, 600) };
    }
    list
}

fn add_hash(list: &mut List, key: &[u8], seed: u64, pilot: u32, n: usize) {
    let h = point::hash(key, seed);
    let buckets = n.div_ceil(2);
    let answers = [
        h,
        point::fingerprint(h).into(),
        point::bucket(h, buckets).expect("a bucket") as u64,
        point::position(h, pilot, n).expect("a position") as u64,
        point::slot(h, pilot, n).expect("a slot") as u64,
    ];
    let asked = [seed, buckets as u64, pilot.into(), n as u64];
    let row = [&list.part(key)[..], &asked, &answers].concat();
    list.row(Kind::Hash, &row, &[0]);
}

pub fn hash(rng: &mut Rng) -> List {
    let mut list = List::default();
    while list.rows() < 200 {
        let length = if list.rows() < 42 { list.rows() } else { rng.between(0, 24) };
        let seed = [0, 1, u64::MAX, rng.next(), rng.next()][rng.below(5)];
        let direct = if rng.one_in(3) { 1 << 31 } else { 0 };
        let pilot = direct | (rng.next() as u32 & 0x7fff_ffff) >> rng.below(31);
        let n = 1 + (rng.next() >> (33 + rng.below(31))) as usize;
        add_hash(&mut list, &rng.bytes(length), seed, pilot, n);
    }
    list
}

fn add_verify(list: &mut List, raw: &[u8]) {
    let (answer, meta) = match rust::verify(raw) {
        Ok(meta) => (0, meta.map(|n| n as u64)),
        Err(error) => (number(&error), [BEFORE; 3]),
    };
    let row = [&list.part(raw)[..], &[answer], &meta].concat();
    list.row(Kind::Verify, &row, &[answer]);
}

/// A small valid block.
fn sample(rng: &mut Rng) -> Block {
    loop {
        let count = rng.between(1, 4);
        let entries = crate::entries::entries(rng, count);
        let block = block(&entries, rng.pick(&[1, 2, 16]));
        if block.raw.len() <= 150 {
            return block;
        }
    }
}

fn least() -> Vec<u8> {
    let entry = Entry { kind: 1, key: Vec::new(), value: Vec::new(), sequence: 5 };
    block(&[entry], 1).raw
}

pub fn verify(rng: &mut Rng) -> List {
    let mut list = List::default();
    let least = least();
    for at in 25..least.len() {
        let mut changed = least.clone();
        changed[at] ^= 1;
        add_verify(&mut list, &changed);
        seal(&mut changed);
        add_verify(&mut list, &changed);
        changed.truncate(at);
        seal(&mut changed);
        add_verify(&mut list, &changed);
    }
    while list.rows() < 150 {
        let Block { raw, starts, .. } = sample(rng);
        let damaged = [(); 2].map(|()| damage(&raw, &starts, rng));
        add_verify(&mut list, &raw);
        damaged.iter().for_each(|raw| add_verify(&mut list, raw));
    }
    list
}

/// Where a walk stands: the position in the block, the length of the last key, the key scratch.
struct Walked {
    position: u64,
    key: u64,
    scratch: Vec<u8>,
}

impl Walked {
    /// Behind a record: its numbers.
    fn meet(&mut self, record: &Record) -> [u64; 6] {
        self.scratch[..record.key.len()].copy_from_slice(&record.key);
        self.key = record.key.len() as u64;
        self.position = (record.place + record.length) as u64;
        let Record { kind, sequence, place, length, .. } = *record;
        [kind.into(), sequence, self.key, place as u64, length as u64, self.position]
    }
}

/// One step of a walk: a record, or the refusal that ends the walk.
fn add_step(list: &mut List, raw: &[u8], end: usize, walk: &mut Walked, met: Result<&Record, u64>) {
    let asked = [end as u64, walk.position, walk.key];
    let before = list.part(&walk.scratch);
    let (answer, fields) = met.map_or_else(|answer| (answer, [BEFORE; 6]), |record| (0, walk.meet(record)));
    let after = list.part(&walk.scratch);
    let row = [&list.part(raw)[..], &asked, &before, &after, &[answer, list.numbers(&fields)]].concat();
    list.row(Kind::Record, &row, &[answer]);
}

/// The block's verify, then the steps of its walk. Blocks that verify refuses are left out.
fn add_walk(list: &mut List, raw: &[u8], room: usize) {
    let Ok(meta) = rust::verify(raw) else { return };
    add_verify(list, raw);
    let (mut records, end) = rust::walk(raw, meta);
    let mut refused = end.err().map(|error| number(&error));
    if let Some(long) = records.iter().position(|record| record.key.len() > room) {
        records.truncate(long);
        refused = Some(15);
    }
    let mut walk = Walked { position: 0, key: 0, scratch: vec![0; room] };
    records.iter().for_each(|record| add_step(list, raw, meta[0], &mut walk, Ok(record)));
    if let Some(answer) = refused {
        add_step(list, raw, meta[0], &mut walk, Err(answer));
    }
}

pub fn walk(rng: &mut Rng) -> List {
    let mut list = List::default();
    add_walk(&mut list, &least(), 0);
    while list.rows() < 300 {
        let Block { raw, starts, .. } = sample(rng);
        let records = rust::walk(&raw, rust::verify(&raw).expect("a valid block")).0;
        let longest = records.iter().map(|r| r.key.len()).max().unwrap_or(0).min(MOST_ROOM);
        let room = rng.pick(&[MOST_ROOM, longest, longest.saturating_sub(1)]);
        let damaged = [(); 3].map(|()| damage(&raw, &starts, rng));
        add_walk(&mut list, &raw, room);
        damaged.iter().for_each(|raw| add_walk(&mut list, raw, MOST_ROOM));
    }
    list
}

fn add_trailer(list: &mut List, raw: &[u8]) {
    let answer = rust::trailer(raw).map_or_else(|error| number(&error), |()| 0);
    let [place, length] = list.part(raw);
    list.row(Kind::Trailer, &[place, length, answer], &[answer]);
}

pub fn trailer(rng: &mut Rng) -> List {
    let mut list = List::default();
    let mut length = 0;
    while list.rows() < 300 {
        let mut raw = rng.bytes(length);
        add_trailer(&mut list, &raw);
        if length >= 5 {
            raw[length - 5] = 0;
            add_trailer(&mut list, &raw);
        }
        seal(&mut raw);
        add_trailer(&mut list, &raw);
        length += 1;
    }
    list
}
