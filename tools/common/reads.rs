//! Inputs of lookups that no opening gave: other records, and bytes whose reads end at the section's end.
use crate::blocks::Entry;
use crate::forge::{Input, build};
use crate::reading::{slot_of, uint};
use crate::rng::Rng;
use crate::stores::{Field, Form};

/// The numbers that a header holds, as a record of the plain or of the packed form, with nothing asked.
pub fn unasked(section: &[u8], packed: bool) -> Option<[u64; 16]> {
    let end = section.len().checked_sub(13).filter(|&end| end >= 51)?;
    let number = |at: usize, width: usize| uint(&section[at..at + width]);
    let (n, b, flags) = (number(16, 4), number(20, 4), number(52, 4));
    let [address, key, count, sequence, value] = [32, 36, 40, 44, 48].map(|at| number(at, 4));
    let scan = if packed || flags & 2 == 0 { 0 } else { (end as u64).wrapping_sub(number(end, 8)) };
    let arena = if packed { n.wrapping_mul(address).wrapping_add(64 + 3 * b) } else { number(24, 8) };
    let sizes = [n, b, arena, address, key, count, sequence, value];
    let parts = [&[number(8, 8), number(56, 8)], &sizes[..], &[flags & 1, scan, packed.into()], &[0; 3]];
    Some(parts.concat().try_into().expect("sixteen numbers"))
}

/// Records with one of the sixteen numbers changed.
pub fn other_records(record: &[u64; 16]) -> Vec<[u64; 16]> {
    let mut all = Vec::new();
    for (place, &old) in record.iter().enumerate() {
        let near = [1, 2, u64::MAX, 1 << 8, 1 << 16, 1 << 31, 1 << 32, 1 << 63].map(|more| old.wrapping_add(more));
        for new in near.into_iter().chain([0, 1, u64::MAX]).filter(|&new| new != old) {
            let mut other = *record;
            other[place] = new;
            all.push(other);
        }
    }
    all
}

/// Where the numbers of a small opened section stand: pilots, slots, key headers, versions, scan addresses.
fn places(section: &[u8], record: &[u64; 16]) -> Vec<Field> {
    let [n, b, arena, address, key, count, sequence, value, checksums] =
        [2, 3, 4, 5, 6, 7, 8, 9, 10].map(|place: usize| record[place] as usize);
    let (pilot, fingerprint) = if record[12] == 1 { (3, 0) } else { (4, 2) };
    let mut all: Vec<Field> = (0..b).map(|i| (64 + i * pilot, pilot)).collect();
    let slots = 64 + b * pilot;
    all.extend((0..n).map(|i| (slots + i * (address + fingerprint), address)));
    let mut at = arena;
    let mut fields = |at: &mut usize, widths: &[usize]| {
        for &width in widths {
            all.push((*at, width));
            *at += width;
        }
    };
    for _ in 0..n {
        let suffix = uint(&section[at + address + key..][..key]) as usize;
        let versions = uint(&section[at + address + 2 * key..][..count]);
        fields(&mut at, &[address, key, key, count]);
        at += suffix;
        (0..versions).for_each(|_| fields(&mut at, &[sequence, value, address, 4 * checksums]));
    }
    if record[11] > 0 {
        all.extend((0..n).map(|i| (record[11] as usize + 24 + i * address, address)));
    }
    all.retain(|&(_, width)| width > 0);
    all
}

/// Numbers that let a read end before, at and behind the section's end, or whose sum with the arena's start wraps;
/// small ones with the top bit, which names a slot or a tombstone.
fn edges(old: u64, width: usize, arena: u64, length: u64) -> Vec<u64> {
    let most = u64::MAX >> (64 - 8 * width);
    let mut all: Vec<u64> = (0..=length - arena + 2).chain([old.wrapping_add(1), old.wrapping_sub(1)]).collect();
    all.extend((0..40).flat_map(|more| [most - more, (most >> 1) - more, (most >> 1) + 1 + more]));
    all.extend((0..=length + 2).map(|place| place.wrapping_sub(arena)));
    all.retain(|&new| new <= most && new != old);
    all.sort();
    all.dedup();
    all
}

fn put(section: &mut [u8], (at, width): Field, number: u64) {
    section[at..at + width].copy_from_slice(&number.to_le_bytes()[..width]);
}

/// Copies of a small opened section with one of its numbers at an edge.
pub fn at_edges(section: &[u8], record: &[u64; 16]) -> Vec<Vec<u8>> {
    let mut all = Vec::new();
    for place in places(section, record) {
        let old = uint(&section[place.0..place.0 + place.1]);
        for new in edges(old, place.1, record[4], section.len() as u64) {
            let mut copy = section.to_vec();
            put(&mut copy, place, new);
            all.push(copy);
        }
    }
    all
}

/// The key whose record a plain or packed section of one key holds, as far as it can be read; not too long.
fn key_of_one(section: &[u8], record: &[u64; 16]) -> Vec<u8> {
    let [arena, address, key, count] = [4, 5, 6, 7].map(|place: usize| record[place] as usize);
    let read = |at: usize, width: usize| section.get(at..at + width).map_or(0, uint) as usize;
    let part = |at: usize, length: usize| match section.get(at..at.saturating_add(length)) {
        Some(part) => part.to_vec(),
        None => vec![b'k'; length.min(300)],
    };
    let (anchor, shared) = (read(arena, address), read(arena + address, key));
    let suffix = read(arena + address + key, key);
    let own = arena + address + 2 * key + count;
    [part(arena.saturating_add(anchor), shared), part(own, suffix)].concat()
}

/// The plain section with the key's fingerprint in its slot, so that a lookup reads on.
pub fn with_fingerprint(section: &[u8], record: &[u64; 16], key: &[u8]) -> Vec<u8> {
    let mut section = section.to_vec();
    let own = record[..13].try_into().expect("thirteen numbers");
    let h = oracle::point::hash(key, record[0]);
    if let (0, Ok(slot)) = (record[12], slot_of(&section, &own, h)) {
        let at = slot.saturating_add(record[5].into()).min(usize::MAX as u128) as usize;
        if let Some(part) = section.get_mut(at..at.saturating_add(2)) {
            part.copy_from_slice(&oracle::point::fingerprint(h).to_le_bytes());
        }
    }
    section
}

/// Keys that agree with the only record's beginning and end, with one of both, and with neither.
fn keys_near(key: &[u8]) -> Vec<Vec<u8>> {
    let mut all = vec![key.to_vec(), Vec::new(), b"k".to_vec()];
    if let [first, .., last] = key {
        all.push([&[first ^ 1], &key[1..]].concat());
        all.push([&key[..key.len() - 1], &[last ^ 1]].concat());
    }
    all.dedup();
    all
}

/// A lookup: section, record, key, limit.
pub type Asked = (Vec<u8>, [u64; 16], Vec<u8>, u64);

/// A store of one key with two versions, with addresses of this width.
pub fn one_key(address: usize, checksums: bool, least: u64) -> Input {
    let entry = |kind, value: &[u8], sequence| Entry { kind, key: b"k".to_vec(), value: value.to_vec(), sequence };
    let entries = vec![entry(1, b"vw", 9), entry(2, b"", 5)];
    let form = Form { widths: [address, 1, 1, 1, 2], checksums, prefix: 0, least };
    build(&mut Rng::part(1, "one key", 0), entries, Some(form))
}

/// A store of two keys of two versions with a scan part, with addresses of this width.
pub fn two_keys(address: usize, checksums: bool) -> Input {
    let entry =
        |kind, key: &[u8], value: &[u8], sequence| Entry { kind, key: key.to_vec(), value: value.to_vec(), sequence };
    let first = [entry(1, b"ka", b"vw", 9), entry(2, b"ka", b"", 5)];
    let entries = [&first[..], &[entry(2, b"kb", b"", 9), entry(1, b"kb", b"x", 6)]].concat();
    let form = Form { widths: [address, 1, 1, 1, 2], checksums, prefix: 2, least: 5 };
    build(&mut Rng::part(1, "two keys", 0), entries, Some(form))
}

/// The section and its record with another least sequence.
pub fn with_base(section: &[u8], record: &[u64; 16], least: u64) -> (Vec<u8>, [u64; 16]) {
    let (mut section, mut record) = (section.to_vec(), *record);
    record[1] = least;
    put(&mut section, (56, 8), least);
    (section, record)
}

/// Lookups in a section of one key, as opened and with one number at an edge, and the same where the key shares its
/// first byte.
pub fn edge_lookups(section: &[u8], record: &[u64; 16], mut ask: impl FnMut(Asked)) {
    let mut sharing = section.to_vec();
    put(&mut sharing, ((record[4] + record[5]) as usize, record[6] as usize), 1);
    for base in [section.to_vec(), sharing] {
        for changed in at_edges(&base, record).into_iter().chain([base]) {
            for key in keys_near(&key_of_one(&changed, record)) {
                let section = with_fingerprint(&changed, record, &key);
                for limit in [u64::MAX, 8, 4] {
                    ask((section.clone(), *record, key.clone(), limit));
                }
            }
        }
    }
}

/// Lookups under other bases: sums of stored sequences just below 2^64 and beyond.
pub fn base_lookups(section: &[u8], record: &[u64; 16], mut ask: impl FnMut(Asked)) {
    for less in 0..20 {
        let (section, record) = with_base(section, record, u64::MAX - less);
        for limit in [u64::MAX, u64::MAX - 1, u64::MAX - 5, record[1], 0] {
            ask((section.clone(), record, b"k".to_vec(), limit));
        }
    }
}
