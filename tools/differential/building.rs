//! The builder: add (30 to 34, 37), size (37), writing (35 to 40), and whole lists from the first add to both openings.
mod inputs;

use crate::Layer;
use crate::blocks::{Entry, Offered};
use crate::buffer::{Buffer, Places};
use crate::building_expected as expected;
use crate::case::{Answer, Case};
use crate::chosen;
use crate::forge::{built, numbers};
use crate::opening_expected as opening;
use crate::ours::{self, Record};
use crate::rng::Rng;
use crate::run::Run;
use crate::stores::records;
use inputs::{fixed, round};
use oracle_stable::point::Builder;

pub const LAYER: Layer = Layer { name: "building", kinds: &["add", "size", "write", "whole"], ask, fixed, round };

const BEFORE: u64 = 77;
const OUTPUT: u8 = 0xa5;

fn ask(case: &Case) -> Option<(Answer, Answer)> {
    if case.kind == "whole" {
        return whole(case);
    }
    let record: Record = case.numbers[..16].try_into().ok()?;
    match case.kind {
        "add" => Some((our_add(case, record), rust_add(case, record))),
        "size" => Some((our_size(case, record), rust_size(case, record))),
        _ => Some((our_write(case, record), rust_write(case, record))),
    }
}

/// Numbers: the record, tombstone, sequence, new, offset. Parts: area, key, value.
fn our_add(case: &Case, mut record: Record) -> Answer {
    let mut area = Buffer::input(&case.bytes[0], 1);
    let (key, value) = (Buffer::input(&case.bytes[1], 3), Buffer::input(&case.bytes[2], 5));
    let asked = case.numbers[16..20].try_into().expect("four numbers");
    let number = ours::add_numbers(area.part_mut(), &mut record, key.part(), value.part(), asked);
    area.guarded(Answer { number, words: record.to_vec(), bytes: area.part().to_vec(), ..Answer::default() })
}

fn offered(case: &Case) -> Offered<'_> {
    Offered {
        tombstone: case.numbers[16] != 0,
        key: &case.bytes[1],
        value: &case.bytes[2],
        sequence: case.numbers[17],
        new: case.numbers[18] != 0,
        offset: case.numbers[19],
    }
}

fn rust_add(case: &Case, record: Record) -> Answer {
    let area = &case.bytes[0];
    let (number, area, record) = match expected::add(area, &record, &offered(case)) {
        Ok((area, record)) => (0, area, record),
        Err(number) => (number, area.clone(), record),
    };
    Answer { number, words: record.to_vec(), bytes: area, ..Answer::default() }
}

/// Numbers: the record, prefix.
fn our_size(case: &Case, record: Record) -> Answer {
    let mut size = BEFORE;
    let number = ours::size(&record, case.numbers[16], &mut size);
    Answer { number, ..Answer::one(size) }
}

fn rust_size(case: &Case, record: Record) -> Answer {
    match expected::size(&record, case.numbers[16]) {
        Ok(size) => Answer::one(size),
        Err(number) => Answer { number, ..Answer::one(BEFORE) },
    }
}

/// Numbers: the record, prefix, length of both scratches, length of the output. Part: area.
fn our_write(case: &Case, record: Record) -> Answer {
    let area = Buffer::input(&case.bytes[0], 1);
    let [prefix, words, halves, room] = case.numbers[16..20] else { unreachable!("four numbers") };
    let rng = &mut Rng::part(room, "garbage", words);
    let mut words = Places::new(words as usize, 0, || rng.wide());
    let mut halves = Places::new(halves as usize, 0, || rng.wide() as u32);
    let mut output = Buffer::new(room as usize, b"", 3);
    let mut length = BEFORE;
    let (to, lent) = (output.part_mut(), (words.lent(), halves.lent()));
    let number = ours::write_lent(area.part(), &record, prefix, lent.0, lent.1, to, &mut length);
    if !words.others_stay() || !halves.others_stay() {
        return Answer { number, bytes: b"written outside a scratch".to_vec(), ..Answer::default() };
    }
    let bytes = output.part().to_vec();
    output.guarded(Answer { number, note: note(number, &bytes), words: vec![length], bytes })
}

/// A section is counted by its seed.
fn note(number: u64, section: &[u8]) -> &'static str {
    match section.get(8..16) {
        Some(seed) if number == 0 => chosen::seed_name(u64::from_le_bytes(seed.try_into().expect("eight bytes"))),
        _ => "",
    }
}

fn rust_write(case: &Case, record: Record) -> Answer {
    let [prefix, words, halves, room] = case.numbers[16..20] else { unreachable!("four numbers") };
    let mut output = vec![OUTPUT; room as usize];
    match expected::write(&case.bytes[0], &record, prefix, [words, halves], room) {
        Ok(section) => {
            output[..section.len()].copy_from_slice(&section);
            Answer { note: note(0, &section), words: vec![section.len() as u64], bytes: output, ..Answer::default() }
        }
        Err(number) => Answer { number, words: vec![BEFORE], bytes: output, ..Answer::default() },
    }
}

/// The records of blocks added, written, and opened beside these blocks, plain and packed; the section that the Rust
/// as published writes is opened too. Number: prefix. Parts: data, list.
fn whole(case: &Case) -> Option<(Answer, Answer)> {
    let (data, list, prefix) = (&case.bytes[0], numbers(&case.bytes[1])?, case.numbers[0]);
    let held = records(data, &list);
    let offsets: Vec<u64> = held.iter().map(|record| record.place as u64).collect();
    let entries: Vec<Entry> = held.into_iter().map(|record| entry(data, record)).collect();
    let most = entries.iter().map(|entry| entry.key.len()).max()?;
    let [stable, published] = [true, false].map(|stable| built(&entries, &offsets, prefix as usize, stable));
    let (stable, published) = (stable?, published?);
    let (mut ours, mut rust) = (our_section(&entries, &offsets, prefix), stable.clone());
    let (mut our_words, mut rust_words) = (Vec::new(), Vec::new());
    for section in [&ours.clone(), &published] {
        let (words, bytes) = our_openings(section, data, &list, most, stable.len());
        (our_words.extend(words), ours.extend(bytes));
    }
    for section in [&stable, &published] {
        let (words, bytes) = rust_openings(section, data, &list, most, stable.len())?;
        (rust_words.extend(words), rust.extend(bytes));
    }
    let note = if stable == published { "one section" } else { "two sections" };
    let answer = |words, bytes| Answer { note, words, bytes, ..Answer::default() };
    Some((answer(our_words, ours), answer(rust_words, rust)))
}

fn entry(data: &[u8], record: oracle::block::Record) -> Entry {
    let value = data[record.place..record.place + record.length].to_vec();
    Entry { kind: record.kind, key: record.key, value, sequence: record.sequence }
}

/// The section that our functions write from these entries in order, or nothing.
fn our_section(entries: &[Entry], offsets: &[u64], prefix: u64) -> Vec<u8> {
    let mut area = vec![0; entries.iter().map(|entry| 33 + entry.key.len()).sum()];
    let (mut record, mut size, mut length, mut last) = ([0; 16], 0, 0, None);
    for (e, &offset) in entries.iter().zip(offsets) {
        let offered = Offered {
            tombstone: e.kind == 2,
            key: &e.key,
            value: &e.value,
            sequence: e.sequence,
            new: last != Some(&e.key),
            offset,
        };
        if ours::add(&mut area, &mut record, offered) != 0 {
            return Vec::new();
        }
        last = Some(&e.key);
    }
    let (mut words, mut halves) = (vec![5; record[0] as usize], vec![6; 6 * record[0] as usize + 8]);
    if ours::size(&record, prefix, &mut size) != 0 || size > 1 << 30 {
        return Vec::new();
    }
    let mut output = vec![OUTPUT; size as usize];
    match ours::write_lent(&area, &record, prefix, &mut words, &mut halves, &mut output, &mut length) {
        0 if length == size => output,
        _ => Vec::new(),
    }
}

/// Number and record of the plain opening, then of the packed one with its length; and the packed output.
fn our_openings(section: &[u8], data: &[u8], list: &[u64], most: usize, room: usize) -> (Vec<u64>, Vec<u8>) {
    let mut scratch = vec![0; 2 * most];
    let (mut plain, mut packed, mut length) = ([BEFORE; 16], [BEFORE; 16], BEFORE);
    let mut output = vec![OUTPUT; room];
    let first = ours::open(section, data, list, &mut scratch, &mut plain);
    let second = ours::open_packed(section, data, list, &mut scratch, &mut output, &mut packed, &mut length);
    ([&[first][..], &plain, &[second], &packed, &[length]].concat(), output)
}

/// The same by the Rust, or nothing where it does not open.
fn rust_openings(section: &[u8], data: &[u8], list: &[u64], most: usize, room: usize) -> Option<(Vec<u64>, Vec<u8>)> {
    let plain = opening::plain(section, data, list, 2 * most).ok()?;
    let packed = opening::packed(section, data, list, 2 * most, room).ok()?;
    let bytes = packed.bytes();
    let [first, second] = [&plain, &packed].map(|index| [&index.record()[..], &[0; 3]].concat());
    let mut output = vec![OUTPUT; room];
    output[..bytes.len()].copy_from_slice(bytes);
    Some(([&[0][..], &first, &[0], &second, &[bytes.len() as u64]].concat(), output))
}
