//! Lookup, questions 24 and 25, and the value's place, question 26.
use crate::Layer;
use crate::buffer::Buffer;
use crate::case::{Answer, Case};
use crate::forge::{self, Input, le64, numbers};
use crate::numbers::NO_NUMBER;
use crate::ours;
use crate::reading::{self, Unread};
use crate::reads::{self, Asked, unasked};
use crate::rng::Rng;
use crate::run::Run;
use crate::stores::records;
use oracle::compact::{Index, Located, forged, open, open_packed};

pub const LAYER: Layer = Layer { name: "lookup", kinds: &["lookup", "held", "value"], ask, fixed, round };

const BEFORE: [u64; 6] = [77; 6];

fn ask(case: &Case) -> Option<(Answer, Answer)> {
    match case.kind {
        "lookup" => Some((our_lookup(case)?, rust_lookup(case)?)),
        "held" => held(case),
        _ => Some(value(case)),
    }
}

fn asked(section: &[u8], record: &[u64; 16], key: &[u8], limit: u64) -> (u64, [u64; 6]) {
    let (section, key) = (Buffer::input(section, 1), Buffer::input(key, 3));
    let mut answer = BEFORE;
    let number = ours::lookup(section.part(), record, key.part(), limit, &mut answer);
    (number, answer)
}

/// Numbers: the record's sixteen, then the limit. Parts: section, key.
fn our_lookup(case: &Case) -> Option<Answer> {
    let record: [u64; 16] = case.numbers[..16].try_into().ok()?;
    let (number, answer) = asked(&case.bytes[0], &record, &case.bytes[1], case.numbers[16]);
    Some(Answer { number, note: note(number, answer[0]), ..Answer::words(answer.to_vec()) })
}

fn note(number: u64, found: u64) -> &'static str {
    match (number, found) {
        (0, 0) => "none",
        (0, _) => "found",
        _ => "",
    }
}

fn located(found: Option<Located>) -> Vec<u64> {
    let found = found.map(|v| [1, v.kind.into(), v.sequence, v.offset, v.length, v.checksum.into()]);
    found.unwrap_or([0; 6]).to_vec()
}

/// 24 and 25 come from document 01 alone. Where neither occurs the Rust answers, and at a read outside it panics.
fn rust_lookup(case: &Case) -> Option<Answer> {
    let (section, key, limit) = (&case.bytes[0], &case.bytes[1], case.numbers[16]);
    let record = case.numbers[..16].try_into().ok()?;
    let read = reading::admitted(section, &record).and_then(|record| {
        let rust = forged(section, &[], &record).locate(key, limit);
        match (reading::lookup(section, &record, key, limit), rust) {
            (Ok(found), Ok(rust)) if found == rust => Ok(rust),
            (Err(Unread::Outside), Err(_)) | (Err(Unread::Wraps), _) => Err(25),
            _ => Err(NO_NUMBER),
        }
    });
    Some(match read {
        Ok(found) => Answer { note: note(0, found.is_some().into()), ..Answer::words(located(found)) },
        Err(number) => Answer { number, ..Answer::words(BEFORE.to_vec()) },
    })
}

/// What an accepted store's blocks hold: the version of greatest sequence within the limit, and its value's number.
/// Numbers: packed, limit. Parts: section, data, list, key.
fn held(case: &Case) -> Option<(Answer, Answer)> {
    let [section, data, list, key] = &case.bytes[..] else { return None };
    let (list, limit) = (numbers(list)?, case.numbers[1]);
    let index = index(section, data, &list, case.numbers[0] != 0)?;
    let (number, answer) = asked(index.bytes(), &record(&index), key, limit);
    let fits = ours::value(data, answer[3], answer[4]);
    let ours = Answer { number, note: note(number, answer[0]), ..Answer::words([&answer[..], &[fits]].concat()) };
    let versions = records(data, &list).into_iter().filter(|version| version.key == *key);
    let newest = versions.filter(|version| version.sequence <= limit).max_by_key(|version| version.sequence);
    let words = newest.map_or([0; 7], |version| {
        let value = &data[version.place..version.place + version.length];
        let checksum = if index.record()[10] == 1 { oracle::crc32::crc32(value) } else { 0 };
        let place = [version.place, version.length].map(|number| number as u64);
        [1, version.kind.into(), version.sequence, place[0], place[1], checksum.into(), 0]
    });
    Some((ours, Answer { note: note(0, words[0]), ..Answer::words(words.to_vec()) }))
}

/// Numbers: offset, length. Part: data.
fn value(case: &Case) -> (Answer, Answer) {
    let (data, offset, length) = (&case.bytes[0], case.numbers[0], case.numbers[1]);
    let ours = ours::value(data, offset, length);
    let inside = u128::from(offset) + u128::from(length) <= data.len() as u128;
    let expected = if inside { 0 } else { 26 };
    (Answer::refused(ours), Answer::refused(expected))
}

fn lookup(run: &mut Run, section: &[u8], record: &[u64; 16], key: &[u8], limit: u64) {
    let numbers = [&record[..], &[limit]].concat();
    run.compare(ask, Case::new("lookup", &numbers, &[section, key]));
}

fn fixed(run: &mut Run) {
    values(run);
    for store in [forge::worked(0), forge::worked(1), forge::single()] {
        every_key(run, &store);
        for index in indexes(&store) {
            let (bytes, own) = (index.bytes(), record(&index));
            for other in reads::other_records(&own) {
                lookup(run, bytes, &other, b"ab", u64::MAX);
            }
            for limit in (0..9).chain([u64::MAX]) {
                for key in [&b""[..], b"a", b"ab", b"ac", b"ad", b"abc", b"k"] {
                    lookup(run, bytes, &own, key, limit);
                }
            }
            cuts(run, bytes, &own);
            forge::changed(bytes).iter().for_each(|section| headers(run, section));
        }
    }
    forge::bare().iter().for_each(|input| headers(run, &input.section));
    for (input, key) in forge::wrapping() {
        let record = unasked(&input.section, false).expect("a header");
        lookup(run, &input.section, &record, &key, u64::MAX);
    }
    edges(run);
}

/// Reads that end before, at and behind the section's end, and sums about 2^64.
fn edges(run: &mut Run) {
    for (address, checksums) in [(4, true), (8, true), (4, false), (8, false)] {
        for index in indexes(&reads::one_key(address, checksums, 5)) {
            let mut one = |(section, record, key, limit): Asked| lookup(run, &section, &record, &key, limit);
            reads::edge_lookups(index.bytes(), &record(&index), &mut one);
            reads::base_lookups(index.bytes(), &record(&index), &mut one);
        }
    }
}

/// An opened section cut off at each length, with keys that lead to each of its records.
fn cuts(run: &mut Run, bytes: &[u8], record: &[u64; 16]) {
    for end in 64..bytes.len() {
        for key in [&b"ab"[..], b"ac", b"xb", b"xc", b"ax", b"bb", b"cb", b"k", b"x", b""] {
            let section = reads::with_fingerprint(&bytes[..end], record, key);
            for limit in [u64::MAX, 4, 0] {
                lookup(run, &section, record, key, limit);
            }
        }
    }
}

/// Lookups in bytes that no opening accepted, with the numbers of the header as a plain and as a packed record.
fn headers(run: &mut Run, section: &[u8]) {
    let keys: &[&[u8]] = if section.len() > 1 << 20 { &[b"k"] } else { &[b"ab", b"ac", b"k"] };
    for record in [false, true].map(|packed| unasked(section, packed).unwrap_or([0; 16])) {
        for key in keys {
            lookup(run, section, &record, key, 4);
            lookup(run, section, &record, key, u64::MAX);
        }
    }
}

/// Offsets and lengths about the data's end and about 2^64, and sums that wrap into the data.
fn values(run: &mut Run) {
    for length in [0, 1, 3, 82, 300] {
        let (data, end) = (vec![7; length], length as u64);
        let near = (0..3).flat_map(|more| [more, end.saturating_sub(more), end + more, end / 2 + more]);
        let far = (0..3).flat_map(|by| [u64::MAX - by, (u64::MAX - end).wrapping_add(by), u64::MAX - end - by]);
        let powers = [31, 32, 63].into_iter().flat_map(|bit| [(1 << bit) - 1, 1 << bit, (1 << bit) + end]);
        let all: Vec<u64> = near.chain(far).chain(powers).collect();
        for &offset in &all {
            for &length in &all {
                run.compare(ask, Case::new("value", &[offset, length], &[&data]));
            }
        }
    }
}

fn record(index: &Index) -> [u64; 16] {
    let mut record = [0; 16];
    record[..13].copy_from_slice(&index.record());
    record
}

/// The index of an accepted input.
fn index(section: &[u8], data: &[u8], list: &[u64], packed: bool) -> Option<Index> {
    if list.len() % 2 == 1 {
        return None;
    }
    let list: Vec<(u64, u64)> = list.chunks_exact(2).map(|pair| (pair[0], pair[1])).collect();
    if packed { open_packed(section, data, &list).ok().flatten() } else { open(section, data, &list).ok() }
}

/// The plain and the packed index of an accepted input.
fn indexes(input: &Input) -> Vec<Index> {
    let index = |packed| index(&input.section, &input.data, &input.list, packed);
    [false, true].into_iter().filter_map(index).collect()
}

/// This key, one near it, or another.
fn key(rng: &mut Rng, near: &[u8]) -> Vec<u8> {
    let mut key = near.to_vec();
    match rng.below(6) {
        0 => key.push(rng.pick(&[0, 255])),
        1 => _ = key.pop(),
        2 if !key.is_empty() => *key.last_mut().expect("a byte") ^= 1,
        3 => key = rng.bytes(4),
        _ => {}
    }
    key
}

fn lookups(run: &mut Run, section: &[u8], record: &[u64; 16], input: &Input, rng: &mut Rng) {
    let held = records(&input.data, &input.list);
    for _ in 0..4 {
        let near = held.get(rng.below(held.len().max(1)));
        let (near_key, near) = near.map_or((&[][..], 0), |record| (&record.key, record.sequence));
        let limit = match rng.below(4) {
            0 => u64::MAX,
            1 => near,
            2 => near.wrapping_sub(1),
            _ => rng.wide(),
        };
        let key = key(rng, near_key);
        lookup(run, section, record, &key, limit);
    }
}

/// All held keys of an accepted store with all limits about their sequences; their beginnings, what is longer, what
/// differs in a byte, and the empty key. All of it in both forms, against the blocks alone.
fn every_key(run: &mut Run, input: &Input) {
    let held = records(&input.data, &input.list);
    let list = le64(&input.list);
    let mut one = |key: &[u8], limit: u64| {
        for packed in [0, 1] {
            run.compare(ask, Case::new("held", &[packed, limit], &[&input.section, &input.data, &list, key]));
        }
    };
    for version in &held {
        let (key, sequence) = (&version.key, version.sequence);
        for limit in [sequence, sequence.wrapping_sub(1), sequence.saturating_add(1), 0, u64::MAX] {
            one(key, limit);
        }
        let cuts = (0..key.len()).map(|end| key[..end].to_vec());
        let longer = [0, 1, 255].map(|more| [&key[..], &[more]].concat());
        let changed = (0..key.len()).map(|at| {
            let mut other = key.clone();
            other[at] ^= 1;
            other
        });
        for other in cuts.chain(longer).chain(changed) {
            one(&other, u64::MAX);
            one(&other, sequence);
        }
    }
    one(b"", u64::MAX);
}

fn round(run: &mut Run, rng: &mut Rng) {
    for input in forge::forge(rng) {
        let indexes = indexes(&input);
        for index in &indexes {
            lookups(run, index.bytes(), &record(index), &input, rng);
            damaged_lookups(run, index, &input, rng);
            found_values(run, index, &input, rng);
        }
        if !indexes.is_empty() && input.section.len() < 400 && rng.one_in(20) {
            every_key(run, &input);
        }
        // Bytes that no opening accepted, and each form's bytes, with the numbers of their header as either record.
        let forms = indexes.iter().map(Index::bytes).chain([&input.section[..]]);
        for section in forms {
            for record in [false, true].into_iter().filter_map(|packed| unasked(section, packed)) {
                lookups(run, section, &record, &input, rng);
            }
        }
    }
}

/// The places of answers in the store's data, as they are and near.
fn found_values(run: &mut Run, index: &Index, input: &Input, rng: &mut Rng) {
    let held = records(&input.data, &input.list);
    if input.data.len() > 2000 || held.is_empty() {
        return;
    }
    let near = &held[rng.below(held.len())];
    if let Ok(Some(found)) = index.locate(&near.key, u64::MAX) {
        let less = input.data.len() as u64 - found.offset;
        for length in [found.length, less, less + 1, rng.wide()] {
            run.compare(ask, Case::new("value", &[found.offset, length], &[&input.data]));
        }
    }
}

/// An accepted index with bytes, of the header too, or the record changed afterwards.
fn damaged_lookups(run: &mut Run, index: &Index, input: &Input, rng: &mut Rng) {
    let (mut section, mut numbers) = (index.bytes().to_vec(), record(index));
    let packed = numbers[12] == 1;
    match rng.below(6) {
        0 => numbers[rng.below(16)] = rng.wide(),
        1 => section.truncate(rng.between(0, section.len())),
        2 => {
            section[rng.below(64)] ^= 1 << rng.below(8);
            numbers = unasked(&section, packed).unwrap_or(numbers);
        }
        _ => {
            for _ in 0..rng.between(1, 3) {
                let at = rng.between(64, section.len() - 1);
                section[at] = rng.pick(&[0, 1, 127, 128, 255]);
            }
        }
    }
    lookups(run, &section, &numbers, input, rng);
}
