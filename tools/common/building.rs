//! What document 01 expects of the builder. Questions 31 to 34 and 37 to 39 are added to the Rust.
use crate::blocks::Offered;
use crate::numbers::{NO_NUMBER, number};
use oracle_stable::point::{Builder, Totals};

/// Keys, versions, suffix bytes, used bytes, least and greatest sequence, longest key, longest value,
/// most versions, last offset, place of the last key, place of the anchor; the others 0.
pub type Record = [u64; 16];

const MOST: u64 = 1 << 30;

fn get(area: &[u8], at: usize) -> u64 {
    u32::from_le_bytes(area[at..at + 4].try_into().expect("four bytes")).into()
}

/// The key at this place of the used area, and its number of versions.
fn key_at(used: &[u8], place: u64) -> Option<(&[u8], u64)> {
    let start = usize::try_from(place).ok()?;
    let key = start.checked_add(8).filter(|&key| key <= used.len())?;
    let bytes = used.get(key..key + get(used, start) as usize)?;
    Some((bytes, get(used, start + 4)))
}

fn totals_fit(record: &Record) -> bool {
    [0, 1, 2, 3, 6, 7, 8].iter().all(|&place| record[place] <= MOST) && record[12..] == [0; 4]
}

/// `add`'s 37: the last key's version count and the anchor's bytes, if all lies where it should.
fn state<'a>(area: &'a [u8], record: &Record) -> Result<(u64, &'a [u8]), u64> {
    let used = area.get(..record[3] as usize).filter(|_| totals_fit(record)).ok_or(37u64)?;
    if record[0] == 0 {
        return Ok((0, &[]));
    }
    let (_, versions) = key_at(used, record[10]).filter(|(_, versions)| *versions <= MOST).ok_or(37u64)?;
    let (anchor, _) = key_at(used, record[11]).ok_or(37u64)?;
    Ok((versions, anchor))
}

/// The area and record after an add, or the refusal.
pub fn add(area: &[u8], record: &Record, offered: &Offered) -> Result<(Vec<u8>, Record), u64> {
    let Offered { tombstone, key, value, sequence, new, offset } = *offered;
    if key.len() > 1 << 20 || value.len() > 1 << 24 {
        return Err(30);
    }
    if record[0] == 0 && !new {
        return Err(31);
    }
    if offset < record[9] {
        return Err(32);
    }
    if record[0].saturating_add(new.into()) > 1 << 20 {
        return Err(33);
    }
    let (versions, anchor) = state(area, record)?;
    let (mut next, mut bytes) = (*record, Vec::new());
    let mut count = versions + 1;
    if new {
        let first = record[0] % 1024 == 0;
        let shared = if first { 0 } else { key.iter().zip(anchor).take_while(|(a, b)| a == b).count() };
        count = 1;
        next[0] += 1;
        next[2] += (key.len() - shared) as u64;
        next[6] = next[6].max(key.len() as u64);
        next[10] = record[3];
        next[11] = if first { record[3] } else { record[11] };
        bytes.extend((key.len() as u32).to_le_bytes());
        bytes.extend(1u32.to_le_bytes());
        bytes.extend(key);
    }
    bytes.extend(version(if tombstone { 2 } else { 1 }, value, sequence, offset));
    next[4] = if record[1] == 0 { sequence } else { record[4].min(sequence) };
    next[5] = record[5].max(sequence);
    next[1] += 1;
    next[7] = next[7].max(value.len() as u64);
    next[8] = next[8].max(count);
    next[9] = offset;
    next[3] += bytes.len() as u64;
    if next[3] > MOST.min(area.len() as u64) {
        return Err(34);
    }
    let mut area = area.to_vec();
    area[record[3] as usize..next[3] as usize].copy_from_slice(&bytes);
    let counted = next[10] as usize + 4;
    area[counted..counted + 4].copy_from_slice(&(count as u32).to_le_bytes());
    Ok((area, next))
}

/// Sequence, kind, length, offset, CRC-32.
fn version(kind: u8, value: &[u8], sequence: u64, offset: u64) -> Vec<u8> {
    let crc = oracle::crc32::crc32(value);
    let length = value.len() as u32;
    [&sequence.to_le_bytes()[..], &[kind], &length.to_le_bytes(), &offset.to_le_bytes(), &crc.to_le_bytes()].concat()
}

pub fn totals(record: &Record) -> Totals {
    Totals {
        keys: record[0] as usize,
        versions: record[1] as usize,
        suffix_bytes: record[2] as usize,
        least: record[4],
        greatest: record[5],
        longest_key: record[6] as u32,
        longest_value: record[7] as u32,
        most_versions: record[8] as u32,
        last_offset: record[9],
    }
}

/// The size by exact arithmetic.
fn length(record: &Record, prefix: u64) -> u64 {
    let [keys, versions, suffixes] = [0, 1, 2].map(|place: usize| record[place]);
    let width = |max: u64| oracle::point::width(max) as u64;
    let key_header = 2 * width(record[6]) + width(record[8]);
    let version = width(record[5] - record[4]) + if record[7] < 1 << 15 { 2 } else { 4 } + 4;
    let arena = |address: u64| keys * (address + key_header) + suffixes + versions * (address + version);
    let address = if arena(4) > u32::MAX.into() || record[9] > u32::MAX.into() { 8 } else { 4 };
    let scan = if prefix > 0 { 24 + keys * address + 8 } else { 0 };
    64 + keys.div_ceil(2) * 4 + keys * (address + 2) + arena(address) + scan + 5
}

/// The Rust says the same, where it can be asked: it counts keys in a vector.
pub fn size(record: &Record, prefix: u64) -> Result<u64, u64> {
    if !totals_fit(record) || record[5] < record[4] {
        return Err(37);
    }
    let length = length(record, prefix);
    if record[0] <= 1 << 26 {
        let rust = oracle_stable::point::section_len(&totals(record), prefix as usize);
        return if rust == Ok(length as usize) { Ok(length) } else { Err(NO_NUMBER) };
    }
    Ok(length)
}

/// The used area in the Rust's form: its bytes, where keys begin, and the checksums beside.
#[derive(Default)]
struct Read {
    record: Record,
    arena: Vec<u8>,
    heads: Vec<usize>,
    checksums: Vec<u32>,
}

/// Reads the area back, each entry by 30 to 34.
fn read(area: &[u8]) -> Option<Read> {
    let (mut out, mut at, mut first) = (Read::default(), 0, &[][..]);
    while at < area.len() {
        let (key, versions) = key_at(area, at as u64)?;
        let keys = out.heads.len();
        if keys % 1024 == 0 {
            first = key;
        }
        let shared = if keys % 1024 == 0 { 0 } else { key.iter().zip(first).take_while(|(a, b)| a == b).count() };
        let body = at + 8 + key.len();
        let end = usize::try_from(versions).ok()?.checked_mul(25)?.checked_add(body)?;
        if versions == 0 || key.len() > 1 << 20 || keys == 1 << 20 || end > area.len() {
            return None;
        }
        out.heads.push(out.arena.len());
        out.arena.extend(&area[at..body]);
        out.record[2] += (key.len() - shared) as u64;
        out.record[6] = out.record[6].max(key.len() as u64);
        out.record[8] = out.record[8].max(versions);
        area[body..end].chunks_exact(25).try_for_each(|version| out.version(version))?;
        at = end;
    }
    out.record[0] = out.heads.len() as u64;
    out.record[3] = at as u64;
    Some(out)
}

impl Read {
    fn version(&mut self, version: &[u8]) -> Option<()> {
        let number = |at: usize| u64::from_le_bytes(version[at..at + 8].try_into().expect("eight bytes"));
        let (sequence, length, offset) = (number(0), get(version, 9), number(13));
        let r = &mut self.record;
        if !matches!(version[8], 1 | 2) || length > 1 << 24 || offset < r[9] {
            return None;
        }
        r[4] = if r[1] == 0 { sequence } else { r[4].min(sequence) };
        r[5] = r[5].max(sequence);
        r[1] += 1;
        r[7] = r[7].max(length);
        r[9] = offset;
        self.arena.extend(&version[..21]);
        self.checksums.push(get(version, 21) as u32);
        Some(())
    }
}

/// The section that writing gives, or the refusal.
pub fn write(area: &[u8], record: &Record, prefix: u64, scratch: [u64; 2], output: u64) -> Result<Vec<u8>, u64> {
    if prefix > 24 {
        return Err(35);
    }
    if record[0] == 0 {
        return Err(36);
    }
    let length = size(record, prefix)?;
    let used = area.get(..record[3] as usize).ok_or(37u64)?;
    let held = read(used).filter(|held| held.record[..10] == record[..10]).ok_or(37u64)?;
    if scratch[0] < record[0] || scratch[1] < 6 * record[0] + 8 {
        return Err(38);
    }
    if output < length {
        return Err(39);
    }
    let Read { arena, heads, checksums, .. } = held;
    let builder = Builder::restored(arena, heads, checksums, &totals(record), prefix as usize);
    let section = builder.finish().map_err(|error| number(&error))?;
    if section.len() as u64 == length { Ok(section) } else { Err(NO_NUMBER) }
}

/// The Rust's builder in the form of our area.
pub fn area(builder: &Builder) -> Vec<u8> {
    let (arena, heads, checksums) = builder.area();
    let (mut out, mut checksums) = (Vec::new(), checksums.iter());
    for &head in heads {
        let body = head + 8 + get(arena, head) as usize;
        let versions = get(arena, head + 4) as usize;
        out.extend(&arena[head..body]);
        for version in arena[body..body + 21 * versions].chunks_exact(21) {
            out.extend(version);
            out.extend(checksums.next().expect("a checksum per version").to_le_bytes());
        }
    }
    out
}

/// The Rust's builder as our record.
pub fn record(builder: &Builder) -> Record {
    let (t, (arena, heads, _)) = (builder.totals(), builder.area());
    let used = arena.len() + 4 * t.versions;
    // Before a key stand its predecessors' versions, each with four bytes more than in the Rust.
    let place = |key: usize| {
        let before: u64 = heads[..key].iter().map(|&head| get(arena, head + 4)).sum();
        heads[key] as u64 + 4 * before
    };
    let last = t.keys.saturating_sub(1);
    let places = if t.keys == 0 { [0; 2] } else { [place(last), place(last / 1024 * 1024)] };
    let counts = [t.keys, t.versions, t.suffix_bytes, used].map(|n| n as u64);
    let most = [t.longest_key, t.longest_value, t.most_versions].map(u64::from);
    let parts = [&counts[..], &[t.least, t.greatest], &most, &[t.last_offset], &places, &[0; 4]];
    parts.concat().try_into().expect("sixteen numbers")
}
