//! Random stores: entries, blocks and their list, and sections written with chosen widths.
use crate::blocks::{Entry, block, seal};
use crate::entries::cut;
use crate::rng::Rng;

/// Where a number or a part of bytes stands, and its length.
pub type Field = (usize, usize);

/// The blocks of entries: data, list, the offset of each value in the data, and the fields of the data.
pub struct Blocks {
    pub data: Vec<u8>,
    pub list: Vec<u64>,
    pub offsets: Vec<u64>,
    pub fields: Vec<Field>,
}

pub fn blocks(rng: &mut Rng, entries: &[Entry]) -> Blocks {
    let (mut data, mut list) = (Vec::new(), Vec::new());
    let (mut offsets, mut fields) = (Vec::new(), Vec::new());
    for part in cut(rng, entries) {
        let (base, block) = (data.len(), block(part, rng.pick(&[1, 2, 3, 16, 16, 1000])));
        offsets.extend(block.places.iter().map(|place| (base + place) as u64));
        for (start, place) in block.starts.iter().zip(&block.places) {
            let header = [(0, 1), (1, 4), (5, 4), (9, 4), (13, 8), (21, place - start - 21)];
            fields.extend(header.map(|(at, length)| (base + start + at, length)));
        }
        let end = base + block.raw.len();
        fields.extend([(end - 13, 4), (end - 9, 4), (end - 5, 1), (end - 4, 4)]);
        list.extend([base as u64, block.raw.len() as u64]);
        data.extend(block.raw);
    }
    Blocks { data, list, offsets, fields }
}

/// Seals each block that lies inside the data again.
pub fn seal_blocks(data: &mut [u8], list: &[u64]) {
    for pair in list.chunks_exact(2) {
        let end = pair[0].checked_add(pair[1]);
        if let Some(end) = end.filter(|&end| end <= data.len() as u64) {
            seal(&mut data[pair[0] as usize..end as usize]);
        }
    }
}

/// The widths of address, key, count, sequence and value, and what else a section may choose.
#[derive(Clone, Debug, PartialEq)]
pub struct Form {
    pub widths: [usize; 5],
    pub checksums: bool,
    pub prefix: usize,
    pub least: u64,
}

fn greatest(numbers: impl Iterator<Item = u64>) -> u64 {
    numbers.max().unwrap_or(0)
}

/// Consecutive entries of one key.
fn groups(entries: &[Entry]) -> Vec<&[Entry]> {
    entries.chunk_by(|a, b| a.key == b.key).collect()
}

impl Form {
    /// What the builder chooses.
    pub fn natural(entries: &[Entry], offsets: &[u64], prefix: usize) -> Self {
        let width = |max| oracle::point::width(max);
        let sequences = || entries.iter().map(|entry| entry.sequence);
        let least = sequences().min().unwrap_or(0);
        let longest = greatest(entries.iter().map(|entry| entry.value.len() as u64));
        let widths = [
            if greatest(offsets.iter().copied()) > u64::from(u32::MAX) { 8 } else { 4 },
            width(greatest(entries.iter().map(|entry| entry.key.len() as u64))),
            width(greatest(groups(entries).iter().map(|group| group.len() as u64))),
            width(greatest(sequences()) - least),
            if longest < 1 << 15 { 2 } else { 4 },
        ];
        Form { widths, checksums: true, prefix, least }
    }

    /// Another form that holds the same entries: wider numbers, a lower base, no checksums.
    pub fn varied(mut self, rng: &mut Rng) -> Self {
        let wider: [&[usize]; 5] = [&[4, 8], &[1, 2, 4], &[1, 2, 4], &[1, 2, 4, 8], &[2, 4]];
        for (width, choices) in self.widths.iter_mut().zip(wider) {
            *width = rng.pick(choices).max(*width);
        }
        if self.widths[3] == 8 {
            self.least -= rng.next() % (self.least + 1).max(1);
        }
        // A base that is lower by little also shows sums of 2^64 and more, where it wraps.
        if rng.one_in(4) {
            self.least = self.least.wrapping_sub(rng.between(1, 3) as u64);
        }
        self.checksums = !rng.one_in(4);
        self
    }
}

/// A section and its fields.
#[derive(Clone, Default)]
pub struct Section {
    pub bytes: Vec<u8>,
    pub fields: Vec<Field>,
}

impl Section {
    fn number(&mut self, number: u64, width: usize) {
        self.part(&number.to_le_bytes()[..width]);
    }

    fn part(&mut self, part: &[u8]) {
        self.fields.push((self.bytes.len(), part.len()));
        self.bytes.extend(part);
    }

    fn append(&mut self, other: Section) {
        let base = self.bytes.len();
        self.fields.extend(other.fields.iter().map(|&(at, length)| (base + at, length)));
        self.bytes.extend(other.bytes);
    }
}

/// The arena, and the address of each key.
fn arena(groups: &[&[Entry]], offsets: &[u64], form: &Form) -> (Section, Vec<u64>) {
    let [address, key, count, sequence, value] = form.widths;
    let (mut out, mut heads, mut anchor) = (Section::default(), Vec::new(), 0);
    let mut offsets = offsets.iter();
    for (i, group) in groups.iter().enumerate() {
        let (this, first) = (&group[0].key, &groups[i / 1024 * 1024][0].key);
        heads.push(out.bytes.len() as u64);
        let mut shared = this.iter().zip(first).take_while(|(a, b)| a == b).count();
        if i % 1024 == 0 {
            shared = 0;
            anchor = out.bytes.len() + address + 2 * key + count;
        }
        out.number(anchor as u64, address);
        out.number(shared as u64, key);
        out.number((this.len() - shared) as u64, key);
        out.number(group.len() as u64, count);
        out.part(&this[shared..]);
        for entry in *group {
            let tombstone = u64::from(entry.kind == 2) << (8 * value - 1);
            out.number(entry.sequence.wrapping_sub(form.least), sequence);
            out.number(entry.value.len() as u64 | tombstone, value);
            out.number(*offsets.next().expect("an offset per entry"), address);
            if form.checksums {
                out.number(oracle::crc32::crc32(&entry.value).into(), 4);
            }
        }
    }
    (out, heads)
}

fn scan(groups: &[&[Entry]], heads: &[u64], form: &Form) -> Section {
    let mut out = Section::default();
    let cut = |i: usize| &groups[i][0].key[..groups[i][0].key.len().min(form.prefix)];
    let prefixes = (0..groups.len()).filter(|&i| i == 0 || cut(i) != cut(i - 1)).count();
    out.part(b"KIBANSC1");
    out.number(form.prefix as u64, 4);
    out.number(32, 4);
    out.number(prefixes as u64, 8);
    heads.iter().for_each(|&head| out.number(head, form.widths[0]));
    let length = out.bytes.len() as u64;
    out.number(length, 8);
    out
}

/// The section of these entries, or nothing where the Rust finds no slots.
pub fn section(entries: &[Entry], offsets: &[u64], form: &Form) -> Option<Section> {
    let groups = groups(entries);
    let keys: Vec<&[u8]> = groups.iter().map(|group| group[0].key.as_slice()).collect();
    let (seed, pilots, slots) = oracle::point::construct(&keys).ok()?;
    let (arena, heads) = arena(&groups, offsets, form);
    let address = form.widths[0];
    let mut out = Section::default();
    out.part(b"KIBANPH3");
    out.number(seed, 8);
    out.number(slots.len() as u64, 4);
    out.number(pilots.len() as u64, 4);
    out.number((64 + 4 * pilots.len() + slots.len() * (address + 2)) as u64, 8);
    form.widths.iter().for_each(|&width| out.number(width as u64, 4));
    out.number(u64::from(form.checksums) + if form.prefix > 0 { 2 } else { 0 }, 4);
    out.number(form.least, 8);
    pilots.iter().for_each(|&pilot| out.number(pilot.into(), 4));
    for slot in slots {
        out.number(heads[slot], address);
        out.number(oracle::point::fingerprint(oracle::point::hash(keys[slot], seed)).into(), 2);
    }
    out.append(arena);
    if form.prefix > 0 {
        out.append(scan(&groups, &heads, form));
    }
    out.number(0, 1);
    out.number(0, 4);
    seal(&mut out.bytes);
    Some(out)
}

/// The records of the blocks that can be walked, with their values' places in the data.
pub fn records(data: &[u8], list: &[u64]) -> Vec<oracle::block::Record> {
    let mut all = Vec::new();
    for pair in list.chunks_exact(2) {
        let end = pair[0].checked_add(pair[1]).filter(|&end| end <= data.len() as u64);
        let Some(end) = end else { break };
        let raw = &data[pair[0] as usize..end as usize];
        if let Ok(meta) = oracle::block::verify(raw) {
            for record in oracle::block::walk(raw, meta).0 {
                all.push(oracle::block::Record { place: pair[0] as usize + record.place, ..record });
            }
        }
    }
    all
}
