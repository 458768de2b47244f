//! Block records: filled from pairs in an array of eight, of which so many places are lent, and found in parts of one.
use crate::entries::entries;
use crate::filling::{BlockRecord, filled, found};
use crate::forge::worked;
use crate::list::{BEFORE, Kind, List};
use crate::pairs::{damaged, lists_near, three_blocks};
use crate::rng::Rng;
use crate::stores::{Blocks, blocks};

/// As many records as the program's array has.
const RECORDS: usize = 8;

/// No block list of a row has more numbers.
const MOST_BLOCKS: usize = 64;

/// How many rows each list has, or a few more.
const ROWS: usize = 300;

/// No store of a row has more data.
const MOST_DATA: usize = 500;

/// The blocks of a small random store.
fn sound(rng: &mut Rng) -> (Vec<u8>, Vec<u64>) {
    loop {
        let count = rng.between(1, 12);
        let entries = entries(rng, count);
        let Blocks { data, list, .. } = blocks(rng, &entries);
        if data.len() <= MOST_DATA {
            return (data, list);
        }
    }
}

/// A row that fills the array's first places. The whole array is the answer.
fn fill(list: &mut List, data: &[u8], blocks: &[u64], places: usize) {
    assert!(places <= RECORDS && blocks.len() <= MOST_BLOCKS, "more than is lent");
    let mut held = [[BEFORE; 5]; RECORDS];
    let (number, count) = match filled(data, blocks, places) {
        Ok(records) => {
            held[..records.len()].copy_from_slice(&records);
            (0, records.len() as u64)
        }
        Err(number) => (number, BEFORE),
    };
    let [place, length] = list.part(data);
    let asked = [place, length, list.numbers(blocks), blocks.len() as u64, places as u64];
    let answer = [number, list.numbers(&held.concat()), count];
    list.row(Kind::Fill, &[&asked[..], &answer].concat(), &[number]);
}

/// No place, one too few, as many as there are pairs, and all.
fn fill_rooms(list: &mut List, data: &[u8], blocks: &[u64]) {
    let pairs = blocks.len() / 2;
    let mut rooms = [0, pairs.saturating_sub(1), pairs, RECORDS].map(|places| places.min(RECORDS)).to_vec();
    rooms.dedup();
    rooms.into_iter().for_each(|places| fill(list, data, blocks, places));
}

/// Document 01's worked store; three blocks, each of them sound or not, also beside other lists; and blocks of random
/// stores, sound or with one of them damaged.
pub fn fills(rng: &mut Rng) -> List {
    let mut list = List::default();
    let store = worked(0);
    for blocks in lists_near(&store.list, store.data.len() as u64).iter().step_by(3) {
        fill(&mut list, &store.data, blocks, 1);
    }
    let three = three_blocks();
    three.iter().for_each(|(data, blocks)| fill_rooms(&mut list, data, blocks));
    let (data, blocks) = &three[0];
    for blocks in lists_near(blocks, data.len() as u64).iter().step_by(3) {
        fill(&mut list, data, blocks, rng.between(2, 5));
    }
    // The one of them whose third block alone is not sound.
    let (data, blocks) = &three[16];
    assert_eq!(filled(data, blocks, 0), Err(12), "the third block's 12 comes before 41");
    while list.rows() < ROWS {
        let (data, blocks) = sound(rng);
        fill_rooms(&mut list, &data, &blocks);
        let (data, blocks) = damaged(rng);
        if data.len() <= MOST_DATA {
            fill_rooms(&mut list, &data, &blocks);
        }
    }
    [0, 11, 12, 41].iter().for_each(|&number| assert!(list.has(number), "{number} occurs"));
    list
}

/// A row that looks for an offset in a part of the array.
fn find(list: &mut List, records: &[BlockRecord; RECORDS], first: usize, count: usize, offset: u64) {
    let place = found(&records[first..first + count], offset);
    let row = [list.numbers(&records.concat()), first as u64, count as u64, offset, place as u64];
    list.row(Kind::Find, &row, &[u64::from(place < count)]);
}

/// Offsets about those of the records, in the whole array and in parts of it.
fn finds_in(list: &mut List, rng: &mut Rng, records: &[BlockRecord; RECORDS]) {
    for part in 0..4 {
        let first = if part == 0 { 0 } else { rng.between(0, RECORDS) };
        let count = if part == 0 { RECORDS } else { rng.between(0, RECORDS - first) };
        let held = rng.pick(records)[0];
        [held, held.wrapping_add(1), rng.wide()].iter().for_each(|&offset| find(list, records, first, count, offset));
        if count > 0 {
            find(list, records, first, count, records[first + count - 1][0]);
        }
    }
}

/// Arrays whose offsets repeat, and whose other numbers are such offsets too; arrays of records that were filled.
pub fn finds(rng: &mut Rng) -> List {
    let mut list = List::default();
    while list.rows() < ROWS {
        let record = |rng: &mut Rng| [(); 5].map(|()| rng.pick(&[0, 1, 2, 1 << 32, u64::MAX]));
        let mut records = [(); RECORDS].map(|()| record(rng));
        finds_in(&mut list, rng, &records);
        let (data, blocks) = sound(rng);
        if let Ok(filled) = filled(&data, &blocks, RECORDS) {
            records[..filled.len()].copy_from_slice(&filled);
            finds_in(&mut list, rng, &records);
        }
    }
    [0, 1].iter().for_each(|&answer| assert!(list.has(answer), "found and not"));
    list
}
