//! A lent list of block records: filling, which asks 11, 12 and 41, and finding.
use crate::Layer;
use crate::buffer::{Buffer, Places};
use crate::case::{Answer, Case};
use crate::filling::{BlockRecord, filled, found};
use crate::forge::{self, Input, le64, numbers};
use crate::numbers::number;
use crate::ours;
use crate::pairs::{self, damaged, lists_near};
use crate::rng::Rng;
use crate::run::Run;

pub const LAYER: Layer = Layer { name: "blocks", kinds: &["fill_blocks", "find_block"], ask, fixed, round };

/// What records and count hold before the call.
const BEFORE: u64 = 77;

/// Places are allocated, so a case that asks for very many is left out.
const MOST_PLACES: u64 = 1 << 16;

fn ask(case: &Case) -> Option<(Answer, Answer)> {
    match case.kind {
        "fill_blocks" => ask_fill(case),
        _ => ask_find(case),
    }
}

/// Numbers: places, shift. Parts: data, list.
fn ask_fill(case: &Case) -> Option<(Answer, Answer)> {
    let (list, places) = (numbers(&case.bytes[1])?, case.numbers[0]);
    (places <= MOST_PLACES).then(|| (our_fill(case, &list), rust_fill(case, &list)))
}

fn our_fill(case: &Case, list: &[u64]) -> Answer {
    let data = Buffer::input(&case.bytes[0], case.numbers[1]);
    let mut records = Places::new(case.numbers[0] as usize, 0, || [BEFORE; 5]);
    let mut count = BEFORE;
    let number = ours::fill_blocks(data.part(), list, records.lent(), &mut count);
    if !records.others_stay() {
        return Answer { number, bytes: b"written outside the places".to_vec(), ..Answer::default() };
    }
    Answer { number, ..Answer::words([&records.used().concat()[..], &[count]].concat()) }
}

fn rust_fill(case: &Case, list: &[u64]) -> Answer {
    let mut places = vec![[BEFORE; 5]; case.numbers[0] as usize];
    let (number, count) = match filled(&case.bytes[0], list, places.len()) {
        Ok(records) => {
            places[..records.len()].copy_from_slice(&records);
            (0, records.len() as u64)
        }
        Err(number) => (number, BEFORE),
    };
    Answer { number, ..Answer::words([&places.concat()[..], &[count]].concat()) }
}

/// Numbers: offset, and the first and the number of the records that are lent. Parts: all records.
fn ask_find(case: &Case) -> Option<(Answer, Answer)> {
    let numbers = numbers(&case.bytes[0])?;
    let (records, []) = numbers.as_chunks::<5>() else { return None };
    let [offset, first, count] = case.numbers[..] else { unreachable!("three numbers") };
    let lent = records.get(first as usize..first.checked_add(count)? as usize)?;
    let answer = |place: u64| Answer { note: if place < count { "found" } else { "none" }, ..Answer::one(place) };
    Some((answer(ours::find_block(lent, offset)), answer(found(lent, offset) as u64)))
}

fn fill(run: &mut Run, data: &[u8], list: &[u64], places: usize, shift: u64) {
    run.compare(ask, Case::new("fill_blocks", &[places as u64, shift], &[data, &le64(list)]));
}

/// No place, one too few, as many as there are pairs, and more.
fn fill_rooms(run: &mut Run, data: &[u8], list: &[u64], shift: u64) {
    let pairs = list.len() / 2;
    let mut rooms = vec![0, pairs.saturating_sub(1), pairs, pairs + 1, pairs + 3];
    rooms.dedup();
    rooms.into_iter().for_each(|places| fill(run, data, list, places, shift));
}

fn find(run: &mut Run, records: &[BlockRecord], offset: u64, first: usize, count: usize) {
    let part = [offset, first as u64, count as u64];
    run.compare(ask, Case::new("find_block", &part, &[&le64(&records.concat())]));
}

/// Where all before 13 is told by the Rust's opening of a whole store, our expectation is the Rust's.
fn held_against_opening(input: &Input) {
    let Input { section, data, list, .. } = input;
    let (pairs, []) = list.as_chunks::<2>() else { return };
    let pairs: Vec<(u64, u64)> = pairs.iter().map(|&[offset, length]| (offset, length)).collect();
    let expected = filled(data, list, pairs.len());
    match oracle::compact::open(section, data, &pairs) {
        Ok(index) => {
            let blocks = index.blocks().into_iter().map(|record| record.map(|n| n as u64));
            assert_eq!(expected, Ok(blocks.collect()), "our records are the Rust's");
        }
        Err(error) if [11, 12].contains(&number(&error)) => {
            assert_eq!(expected, Err(number(&error)), "our refusals are the Rust's");
        }
        Err(_) => {}
    }
}

/// Three small blocks beside lists about theirs.
fn three_blocks(run: &mut Run) {
    for (data, list) in pairs::three_blocks() {
        for list in lists_near(&list, data.len() as u64) {
            fill_rooms(run, &data, &list, 0);
        }
    }
}

/// All lists of up to four records with few offsets, and all their parts. Other numbers are such offsets too.
fn all_small_lists(run: &mut Run) {
    for length in 0..5 {
        for code in 0..3usize.pow(length) {
            let digit = |at: u32| (code / 3usize.pow(at) % 3) as u64;
            let record = |at| [digit(at), digit(at) + 1, 2 - digit(at), (digit(at) + 2) % 3, at.into()];
            let records: Vec<BlockRecord> = (0..length).map(record).collect();
            for first in 0..=records.len() {
                for count in 0..=records.len() - first {
                    [0, 1, 2, 3, 1 << 32, u64::MAX].iter().for_each(|&o| find(run, &records, o, first, count));
                }
            }
        }
    }
}

fn fixed(run: &mut Run) {
    for input in [forge::worked(0), forge::single()] {
        let Input { data, list, .. } = &input;
        for changed in forge::changed(data) {
            fill_rooms(run, &changed, list, 0);
            fill_rooms(run, &changed, &[0, changed.len() as u64], 0);
        }
        lists_near(list, data.len() as u64).iter().for_each(|list| fill_rooms(run, data, list, 0));
        forge::neighbours(&input).iter().for_each(held_against_opening);
    }
    three_blocks(run);
    all_small_lists(run);
    let mut far = vec![[0; 5]; 1000];
    far.iter_mut().zip(0..).for_each(|(record, place)| record[0] = u64::MAX - place / 2);
    (0..502).for_each(|less| find(run, &far, u64::MAX - less, 0, 1000));
}

fn round(run: &mut Run, rng: &mut Rng) {
    for input in forge::forge(rng) {
        held_against_opening(&input);
        fill_rooms(run, &input.data, &input.list, rng.next() % 8);
        if let Ok(records) = filled(&input.data, &input.list, usize::MAX) {
            finds(run, rng, &records);
        }
    }
    for _ in 0..8 {
        let (data, list) = damaged(rng);
        fill_rooms(run, &data, &list, rng.next() % 8);
    }
}

/// Offsets that the records have, their neighbours, and others, in parts of the records.
fn finds(run: &mut Run, rng: &mut Rng, records: &[BlockRecord]) {
    for _ in 0..4 {
        let first = rng.between(0, records.len());
        let count = rng.between(0, records.len() - first);
        let lent = &records[first..first + count];
        let from = if lent.is_empty() || rng.one_in(3) { records } else { lent };
        let held = if from.is_empty() { 0 } else { rng.pick(from)[0] };
        for offset in [held, held.wrapping_add(1), held.wrapping_sub(1), rng.wide()] {
            find(run, records, offset, first, count);
        }
    }
}
