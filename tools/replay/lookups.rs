//! Lookups and values: in accepted stores, in changed ones, under changed records.
use crate::forge::{Input, forge, single, worked};
use crate::list::{BEFORE, Kind, List};
use crate::reading;
use crate::reads::{self, Asked, unasked};
use crate::rng::Rng;
use crate::stores::records;
use oracle::compact::{Index, open as rust_open, open_packed as rust_packed};

/// A key with a limit.
type Question = (Vec<u8>, u64);

/// Number and the answer's six numbers.
fn answer(section: &[u8], record: &[u64; 16], (key, limit): &Question) -> (u64, [u64; 6]) {
    let read = reading::admitted(section, record)
        .and_then(|record| reading::lookup(section, &record, key, *limit).map_err(|_| 25));
    match read {
        Ok(None) => (0, [0; 6]),
        Ok(Some(v)) => (0, [1, v.kind.into(), v.sequence, v.offset, v.length, v.checksum.into()]),
        Err(number) => (number, [BEFORE; 6]),
    }
}

fn inside(data: &[u8], offset: u64, length: u64) -> bool {
    u128::from(offset) + u128::from(length) <= data.len() as u128
}

/// Places of a value about the data's end and about 2^64.
fn edges(data: &[u8]) -> Vec<(u64, u64)> {
    let end = data.len() as u64;
    vec![(0, end), (0, end + 1), (end, 0), (end, 1), (end + 1, 0), (u64::MAX, 1), (1, u64::MAX), (u64::MAX, end + 1)]
}

/// The questions in a section, then places of values in the data, with those of what was found among them.
fn add(
    list: &mut List,
    section: &[u8],
    record: &[u64; 16],
    questions: &[Question],
    data: &[u8],
    mut places: Vec<(u64, u64)>,
) {
    for question in questions {
        let (number, answer) = answer(section, record, question);
        add_lookup(list, section, record, question, number, &answer);
        if number == 0 && answer[0] == 1 {
            places.push((answer[3], answer[4]));
        }
    }
    places.sort();
    places.dedup();
    let [place, size] = list.part(data);
    for (offset, length) in places {
        let number = if inside(data, offset, length) { 0 } else { 26 };
        list.row(Kind::Value, &[place, size, offset, length, number], &[number]);
    }
}

fn add_lookup(
    list: &mut List,
    section: &[u8],
    record: &[u64; 16],
    (key, limit): &Question,
    number: u64,
    answer: &[u64; 6],
) {
    let row = [&list.part(section)[..], &list.part(key), &[*limit, list.numbers(record), number, list.numbers(answer)]];
    list.row(Kind::Lookup, &row.concat(), &[number]);
}

fn record(index: &Index) -> [u64; 16] {
    let mut record = [0; 16];
    record[..13].copy_from_slice(&index.record());
    record
}

/// The plain and the packed index of an accepted input.
fn indexes(input: &Input) -> Vec<Index> {
    let pairs: Vec<(u64, u64)> = input.list.chunks_exact(2).map(|pair| (pair[0], pair[1])).collect();
    let plain = rust_open(&input.section, &input.data, &pairs).ok();
    let packed = rust_packed(&input.section, &input.data, &pairs).ok().flatten();
    plain.into_iter().chain(packed).collect()
}

/// The held keys with limits about their sequences, and keys that are not held.
fn questions(input: &Input) -> Vec<Question> {
    let mut all = Vec::new();
    for version in records(&input.data, &input.list) {
        let (key, sequence) = (version.key, version.sequence);
        all.extend([sequence, sequence.wrapping_sub(1), u64::MAX].map(|limit| (key.clone(), limit)));
        let shorter = &key[..key.len().saturating_sub(1)];
        all.extend([shorter, &[&key[..], &[0]].concat(), b"k", b""].map(|key| (key.to_vec(), u64::MAX)));
    }
    all.sort();
    all.dedup();
    all
}

/// One number of the record changed, in plain and packed form by turns; bytes under the other form's record.
fn records_changed(list: &mut List) {
    let store = single();
    let forms = indexes(&store);
    let ask: &[Question] = &[(b"k".to_vec(), u64::MAX)];
    for place in 0..16 {
        let index = &forms[place % 2];
        let mut other = record(index);
        other[place] ^= 1;
        add(list, index.bytes(), &other, ask, &[], Vec::new());
    }
    for input in [worked(0), worked(1)] {
        let ask: &[Question] = &[(b"ab".to_vec(), u64::MAX), (b"x".to_vec(), 9)];
        for (index, packed) in indexes(&input).iter().zip([true, false]) {
            let other = unasked(index.bytes(), packed).expect("a header");
            add(list, index.bytes(), &other, ask, &[], Vec::new());
        }
    }
}

/// 25, or what was found: nothing (0), a version (1), a version whose value lies outside the data (26).
fn outcome((section, record, key, limit): &Asked, data: &[u8]) -> u64 {
    match answer(section, record, &(key.clone(), *limit)) {
        (0, [1, _, _, offset, length, _]) if inside(data, offset, length) => 1,
        (0, [1, ..]) => 26,
        (number, _) => number,
    }
}

/// Of many reads and sums about the section's end and 2^64 some of each outcome.
fn reads_changed(list: &mut List) {
    for (address, checksums) in [(4, true), (8, true), (8, false)] {
        let input = reads::one_key(address, checksums, 5);
        for index in indexes(&input) {
            let mut all: Vec<Asked> = Vec::new();
            reads::edge_lookups(index.bytes(), &record(&index), |asked| all.push(asked));
            reads::base_lookups(index.bytes(), &record(&index), |asked| all.push(asked));
            all.retain(|(_, _, key, _)| key.len() < 40);
            for (expected, count) in [(0, 1), (1, 1), (26, 1), (25, 2)] {
                let data = if expected == 0 || expected == 25 { &[] } else { &input.data[..] };
                let some: Vec<&Asked> = all.iter().filter(|asked| outcome(asked, &input.data) == expected).collect();
                for (section, record, key, limit) in some.iter().step_by(some.len() / count + 1) {
                    add(list, section, record, &[(key.clone(), *limit)], data, Vec::new());
                }
            }
        }
    }
}

/// What no opening gave.
pub fn forged(_: &mut Rng) -> List {
    let mut list = List::default();
    records_changed(&mut list);
    reads_changed(&mut list);
    [0, 24, 25, 26].iter().for_each(|&number| assert!(list.has(number), "{number} occurs"));
    list
}

/// Document 01's worked store and others, in both forms.
pub fn lookup(rng: &mut Rng) -> List {
    let mut list = List::default();
    let add = |list: &mut List, input: &Input, index: &Index| {
        add(list, index.bytes(), &record(index), &questions(input), &input.data, edges(&input.data))
    };
    for input in [worked(0), worked(1), single()] {
        indexes(&input).iter().for_each(|index| add(&mut list, &input, index));
    }
    while list.rows() < 300 {
        for input in forge(rng).iter().filter(|input| input.section.len() + input.data.len() < 300) {
            for index in indexes(input) {
                if rng.one_in(3) {
                    add(&mut list, input, &index);
                }
            }
        }
    }
    list
}
