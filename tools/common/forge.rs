//! Inputs of openings: stores as built, in other forms, and damaged.
use crate::blocks::{Entry, block, seal};
use crate::entries::entries;
use crate::rng::Rng;
use crate::stores::{Blocks, Field, Form, Section, blocks, seal_blocks, section};

#[derive(Clone)]
pub struct Input {
    pub section: Vec<u8>,
    pub data: Vec<u8>,
    pub list: Vec<u64>,
    pub longest_key: usize,
}

pub fn le64(numbers: &[u64]) -> Vec<u8> {
    numbers.iter().flat_map(|number| number.to_le_bytes()).collect()
}

/// The numbers that these bytes are, if they are whole ones.
pub fn numbers(bytes: &[u8]) -> Option<Vec<u64>> {
    let (chunks, []) = bytes.as_chunks::<8>() else { return None };
    Some(chunks.iter().map(|&chunk| u64::from_le_bytes(chunk)).collect())
}

fn longest_key(entries: &[Entry]) -> usize {
    entries.iter().map(|entry| entry.key.len()).max().unwrap_or(0)
}

/// The section that the Rust builds, with the stable sort or as published.
pub fn built(entries: &[Entry], offsets: &[u64], prefix: usize, stable: bool) -> Option<Vec<u8>> {
    macro_rules! build {
        ($point:path) => {{
            use $point as point;
            let mut builder = point::Builder::new(prefix);
            let mut last: Option<&[u8]> = None;
            for (e, &offset) in entries.iter().zip(offsets) {
                let new = last != Some(&e.key);
                builder.add(e.kind, &e.key, &e.value, e.sequence, new, offset).ok()?;
                last = Some(&e.key);
            }
            builder.finish().ok()
        }};
    }
    if stable { build!(oracle_stable::point) } else { build!(oracle::point) }
}

/// Document 01's worked store.
pub fn worked(prefix: usize) -> Input {
    let entry =
        |kind, key: &[u8], value: &[u8], sequence| Entry { kind, key: key.to_vec(), value: value.to_vec(), sequence };
    let entries = [entry(1, b"ab", b"xyz", 7), entry(2, b"ab", b"", 3), entry(1, b"ac", b"", 5)];
    let block = block(&entries, 16);
    let offsets: Vec<u64> = block.places.iter().map(|&place| place as u64).collect();
    let section = built(&entries, &offsets, prefix, true).expect("the worked section");
    let list = vec![0, block.raw.len() as u64];
    Input { section, data: block.raw, list, longest_key: 2 }
}

/// A store of one key, whose pilot names its slot.
pub fn single() -> Input {
    let entry = Entry { kind: 1, key: b"k".to_vec(), value: b"v".to_vec(), sequence: 9 };
    build(&mut Rng::part(1, "single", 0), vec![entry], None)
}

/// Entries with a form, or in the natural one.
pub fn build(rng: &mut Rng, entries: Vec<Entry>, form: Option<Form>) -> Input {
    let Blocks { data, list, offsets, .. } = blocks(rng, &entries);
    let form = form.unwrap_or_else(|| Form::natural(&entries, &offsets, 0));
    let section = section(&entries, &offsets, &form).expect("slots").bytes;
    Input { section, data, list, longest_key: longest_key(&entries) }
}

fn sealed(bytes: &[u8]) -> Vec<u8> {
    let mut bytes = bytes.to_vec();
    seal(&mut bytes);
    bytes
}

/// Copies of bytes with one byte changed or cut off, sealed again and not.
pub fn changed(bytes: &[u8]) -> Vec<Vec<u8>> {
    let mut all = Vec::new();
    for at in 0..bytes.len() {
        for mask in [1, 2, 4, 0x80, 0xff] {
            let mut copy = bytes.to_vec();
            copy[at] ^= mask;
            all.extend([sealed(&copy), copy]);
        }
        all.extend([bytes[..at].to_vec(), sealed(&bytes[..at])]);
    }
    all
}

/// A small store with one byte, one number of the list or one length changed.
pub fn neighbours(input: &Input) -> Vec<Input> {
    let sections = changed(&input.section).into_iter().map(|section| Input { section, ..input.clone() });
    let longer = [[&input.data[..], &[0]].concat(), input.data.repeat(2)];
    let data = changed(&input.data).into_iter().chain(longer).map(|data| Input { data, ..input.clone() });
    let end = input.data.len() as u64;
    let lists = [
        vec![],
        vec![0],
        vec![end],
        vec![0, 0],
        vec![1, end],
        vec![1, end - 1],
        vec![0, end - 1],
        vec![0, end + 1],
        vec![0, u64::MAX],
        vec![u64::MAX, 2],
        vec![0, end, end],
        vec![0, end, end, 0],
        vec![0, end, end, 1],
        vec![0, end, 0, end],
        vec![0, end, end, u64::MAX - end + 1],
    ];
    let lists = lists.into_iter().map(|list| Input { list, ..input.clone() });
    sections.chain(data).chain(lists).collect()
}

/// A store of one entry whose sequence sum wraps, and one whose anchor address does: a release build
/// of the Rust finds both keys.
pub fn wrapping() -> [(Input, Vec<u8>); 2] {
    let entry = |key: &[u8]| Entry { kind: 1, key: key.to_vec(), value: Vec::new(), sequence: 0 };
    let form = |address, least| Form { widths: [address, 1, 1, 1, 2], checksums: false, prefix: 0, least };
    let rng = &mut Rng::part(1, "wrapping", 0);
    let sequence = build(rng, vec![entry(b"")], Some(form(4, u64::MAX)));
    let mut address = build(rng, vec![entry(b"K")], Some(form(8, 0)));
    // The anchor leads back to the section's first byte, and all of the key is shared.
    let arena = 64 + 4 + 10;
    address.section[arena..arena + 8].copy_from_slice(&(arena as u64).wrapping_neg().to_le_bytes());
    address.section[arena + 8..arena + 10].copy_from_slice(&[1, 0]);
    seal(&mut address.section);
    [(sequence, Vec::new()), (address, b"K".to_vec())]
}

/// Stores of one to five keys, with and without scan part and checksums.
pub fn small() -> Vec<Input> {
    let mut all = vec![worked(0), worked(1), single()];
    for count in [3, 5] {
        let entry = |i: u8| Entry { kind: 1, key: vec![b'k', i], value: vec![i; i.into()], sequence: i.into() };
        let entries: Vec<Entry> = (0..count).map(entry).collect();
        for (checksums, prefix) in [(true, 0), (true, 2), (false, 0), (false, 2)] {
            let form = Form { widths: [4, 1, 1, 1, 2], checksums, prefix, least: 0 };
            all.push(build(&mut Rng::part(1, "small", 0), entries.clone(), Some(form)));
        }
    }
    all
}

/// The store with one of its pilots at the edges of questions 8 and 10, with bit 31 and without, sealed again.
pub fn pilots(input: &Input) -> Vec<Input> {
    let number = |at: usize| u32::from_le_bytes(input.section[at..at + 4].try_into().expect("four bytes"));
    let (n, b) = (number(16), number(20) as usize);
    let edges = [0, n - 1, n, (1 << 23) - 1, 1 << 23, (1 << 23) + 1, 1 << 24, 1 << 30, (1 << 31) - 1];
    let mut all = Vec::new();
    for at in (0..b).map(|bucket| 64 + 4 * bucket) {
        for pilot in edges.into_iter().flat_map(|edge| [edge, edge | 1 << 31]) {
            let mut section = input.section.clone();
            section[at..at + 4].copy_from_slice(&pilot.to_le_bytes());
            seal(&mut section);
            all.push(Input { section, ..input.clone() });
        }
    }
    all
}

/// The choices of a section without keys' records: n, address width, bytes in the arena, flags, and of
/// the scan part what is added to its length, its prefix length, stride and prefix count.
#[derive(Clone, Copy)]
struct Bare {
    n: u32,
    address: u32,
    arena: usize,
    flags: u32,
    longer: u64,
    prefix: u32,
    stride: u32,
    prefixes: u64,
}

impl Bare {
    fn input(self) -> Input {
        let (n, b, address) = (self.n as usize, self.n.div_ceil(2), self.address as usize);
        let start = 64 + 4 * b as usize + n * (address + 2);
        let mut section = b"KIBANPH3\x07\0\0\0\0\0\0\0".to_vec();
        section.extend([self.n, b].iter().flat_map(|number| number.to_le_bytes()));
        section.extend((start as u64).to_le_bytes());
        let widths = [self.address, 1, 1, 1, 2, self.flags];
        section.extend(widths.iter().flat_map(|number| number.to_le_bytes()));
        section.resize(start + self.arena, 0);
        if self.flags & 2 != 0 {
            section.extend(b"KIBANSC1");
            section.extend([self.prefix, self.stride].iter().flat_map(|number| number.to_le_bytes()));
            section.extend(self.prefixes.to_le_bytes());
            section.resize(section.len() + n * address, 0);
            section.extend(((24 + n * address) as u64).wrapping_add(self.longer).to_le_bytes());
        }
        section.extend([0; 5]);
        seal(&mut section);
        Input { section, data: Vec::new(), list: Vec::new(), longest_key: 0 }
    }
}

/// Sections at the edges of questions 3 to 7, all else as simple as can be.
pub fn bare() -> Vec<Input> {
    let mut all = Vec::new();
    let plain = Bare { n: 1, address: 4, arena: 1, flags: 1, longer: 0, prefix: 1, stride: 32, prefixes: 1 };
    for (n, address, arena) in [(1, 4, 0), (1, 4, 1), (1, 8, 0), (2, 8, 1), (3, 4, 0), (3, 4, 9), (0, 4, 9)] {
        for flags in 0..5 {
            all.push(Bare { n, address, arena, flags, ..plain });
        }
        let scan = Bare { n, address, arena, flags: 3, ..plain };
        for longer in [1, 8, u64::MAX, 1 << 32, 1 << 63] {
            all.push(Bare { longer, ..scan });
        }
        for prefix in [0, 24, 25, u32::MAX] {
            all.push(Bare { prefix, ..scan });
        }
        for stride in [0, 31, 33] {
            all.push(Bare { stride, ..scan });
        }
        for prefixes in [0, n.into(), u64::from(n) + 1, u64::MAX] {
            all.push(Bare { prefixes, ..scan });
        }
    }
    for n in [(1 << 23) - 1, 1 << 23] {
        all.push(Bare { n, ..plain });
    }
    all.into_iter().map(Bare::input).collect()
}

/// Another number for a field: near the old one, at an edge, random, or that of another field.
fn edit(bytes: &mut [u8], fields: &[Field], rng: &mut Rng) {
    let (at, length) = rng.pick(fields);
    let width = length.min(8);
    if width == 0 || at + length > bytes.len() {
        return;
    }
    let (other, other_length) = rng.pick(fields);
    let mut old = [0; 8];
    old[..width].copy_from_slice(&bytes[at..at + width]);
    let old = u64::from_le_bytes(old);
    let new = match rng.below(6) {
        0 => old.wrapping_add(1),
        1 => old.wrapping_sub(1),
        2 => old ^ 1 << rng.below(8 * width),
        3 => rng.pick(&[0, 1, 2, 4, 8, 32, 1 << 7, 1 << 15, 1 << 23, 1 << 31, u64::MAX, u64::MAX - 20]),
        4 if other_length == length && other + width <= bytes.len() => {
            bytes.copy_within(other..other + width, at);
            return;
        }
        _ => rng.wide(),
    };
    bytes[at..at + width].copy_from_slice(&new.to_le_bytes()[..width]);
}

/// Another prefix length or prefix count that question 6 may let pass.
fn edit_scan(section: &mut [u8], rng: &mut Rng) {
    let Some(at) = section.windows(8).rposition(|part| part == b"KIBANSC1") else { return };
    let place = at + rng.pick(&[8, 16]);
    if place < section.len() {
        section[place] = rng.between(1, 24) as u8;
    }
}

fn edit_list(list: &mut Vec<u64>, rng: &mut Rng) {
    let length = list.len();
    let at = rng.below(length.max(1));
    match rng.below(6) {
        0 => _ = list.pop(),
        1 => list.truncate(length.saturating_sub(2)),
        2 => list.push(rng.wide()),
        3 if length >= 4 => list.swap(at, (at + 2) % length),
        4 if length >= 2 => list.extend([list[length - 2].wrapping_add(list[length - 1]), 0]),
        _ if !list.is_empty() => {
            list[at] = match rng.below(3) {
                0 => list[at].wrapping_add(1),
                1 => list[at].wrapping_sub(1),
                _ => rng.wide(),
            };
        }
        _ => {}
    }
}

/// The entries with something changed that may break their order.
fn altered(entries: &[Entry], rng: &mut Rng) -> Vec<Entry> {
    let mut all = entries.to_vec();
    let at = rng.below(all.len());
    match rng.below(8) {
        0 if all.len() > 1 => _ = all.remove(at),
        1 => all.insert(at, all[at].clone()),
        2 if at > 0 => all.swap(at, at - 1),
        3 => all[at].sequence = all[at].sequence.wrapping_add(rng.pick(&[1, 2, u64::MAX])),
        4 if !all[at].key.is_empty() => *all[at].key.last_mut().expect("a byte") ^= 1,
        5 => all[at].kind = 3 - all[at].kind,
        6 => _ = all[at].value.pop(),
        _ => all[at].key.push(rng.pick(&[0, 1, 255])),
    }
    all
}

/// A store and the fields of its section and data.
struct Whole {
    entries: Vec<Entry>,
    blocks: Blocks,
    section: Section,
}

impl Whole {
    fn new(rng: &mut Rng, entries: Vec<Entry>, varied: bool) -> Option<Whole> {
        let blocks = blocks(rng, &entries);
        let prefix = rng.pick(&[0, 0, 1, 2, 5, 24]);
        let mut form = Form::natural(&entries, &blocks.offsets, prefix);
        if varied {
            form = form.varied(rng);
        }
        let section = section(&entries, &blocks.offsets, &form)?;
        if !varied {
            let rust = built(&entries, &blocks.offsets, prefix, false);
            assert_eq!(Some(&section.bytes), rust.as_ref(), "our sections are the Rust's");
        }
        Some(Whole { entries, blocks, section })
    }

    fn input(&self) -> Input {
        Input {
            section: self.section.bytes.clone(),
            data: self.blocks.data.clone(),
            list: self.blocks.list.clone(),
            longest_key: longest_key(&self.entries),
        }
    }

    fn damaged(&self, rng: &mut Rng) -> Input {
        let mut input = self.input();
        let seals = !rng.one_in(8);
        for _ in 0..rng.between(1, 2) {
            match rng.below(8) {
                0 if rng.one_in(4) => edit_scan(&mut input.section, rng),
                0..4 => edit(&mut input.section, &self.section.fields, rng),
                4 | 5 => edit(&mut input.data, &self.blocks.fields, rng),
                6 => edit_list(&mut input.list, rng),
                _ => self.mismatch(&mut input, rng),
            }
        }
        if seals {
            seal(&mut input.section);
            seal_blocks(&mut input.data, &self.blocks.list);
        }
        input
    }

    /// The section of other entries beside these blocks, or a section that is cut or longer.
    fn mismatch(&self, input: &mut Input, rng: &mut Rng) {
        if rng.one_in(2) {
            let other = altered(&self.entries, rng);
            let offsets: Vec<u64> = self.blocks.offsets.iter().copied().chain([0, 0]).collect();
            let form = Form::natural(&other, &offsets, 0);
            input.section = section(&other, &offsets, &form).map_or(Vec::new(), |s| s.bytes);
        } else {
            let at = rng.below(input.section.len().max(1));
            let length = rng.between(0, 9);
            let end = (at + rng.between(0, 9)).min(input.section.len());
            input.section.splice(at..end, rng.bytes(length));
        }
    }
}

/// A store as built, in another form, from altered entries, and damaged copies of them.
pub fn forge(rng: &mut Rng) -> Vec<Input> {
    let count = if rng.one_in(80) { 1500 } else { rng.pick(&[1, 1, 2, 3, 5, 9, 40]) };
    let entries = entries(rng, count);
    let changed = altered(&entries, rng);
    let wholes = [(entries.clone(), false), (entries, true), (changed, true)];
    let mut inputs = Vec::new();
    for (entries, varied) in wholes {
        let Some(whole) = Whole::new(rng, entries, varied) else { continue };
        inputs.push(whole.input());
        let copies = if count > 100 { 1 } else { 8 };
        inputs.extend((0..copies).map(|_| whole.damaged(rng)));
    }
    inputs
}
