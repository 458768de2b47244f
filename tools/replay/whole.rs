//! Openings of small stores and beside long data.
use crate::blocks::{Entry, block};
use crate::forge::{Input, forge, pilots, small, worked};
use crate::list::{BEFORE, Kind, List};
use crate::opening_expected::{packed, packed_length, plain};
use crate::rng::Rng;
use oracle::compact::Index;
use std::collections::BTreeMap;
use std::ops::Range;

/// How many small stores are opened.
const CASES: usize = 70;

/// A store with the rooms for keys and for the packed form, and what both openings of it give.
struct Case {
    input: Input,
    scratch: usize,
    room: usize,
    plain: Result<Index, u64>,
    packed: Result<Index, u64>,
}

fn number(opened: &Result<Index, u64>) -> u64 {
    opened.as_ref().err().copied().unwrap_or(0)
}

/// The sixteen numbers of the record behind an opening.
fn record(opened: &Result<Index, u64>) -> [u64; 16] {
    let Ok(index) = opened else { return [BEFORE; 16] };
    let mut record = [0; 16];
    record[..13].copy_from_slice(&index.record());
    record
}

impl Case {
    fn new(input: Input, scratch: usize, room: usize) -> Self {
        let Input { section, data, list, .. } = &input;
        let plain = plain(section, data, list, scratch);
        let packed = packed(section, data, list, scratch, room);
        Case { input, scratch, room, plain, packed }
    }

    fn answers(&self) -> [u64; 2] {
        [number(&self.plain), number(&self.packed)]
    }

    fn size(&self) -> usize {
        self.input.section.len() + self.input.data.len() + 8 * self.input.list.len()
    }

    /// Length and output of the packed opening.
    fn output(&self) -> (u64, Vec<u8>) {
        let mut output = vec![BEFORE as u8; self.room];
        let Ok(index) = &self.packed else { return (BEFORE, output) };
        output[..index.bytes().len()].copy_from_slice(index.bytes());
        (index.bytes().len() as u64, output)
    }

    /// A row without the zeros of the data, which lie at these places.
    fn add(&self, list: &mut List, zeros: Range<usize>) {
        let Input { section, data, list: blocks, .. } = &self.input;
        let (length, output) = self.output();
        let [plain, packed] = self.answers();
        let row = [
            &list.part(section)[..],
            &list.part(&data[..zeros.start]),
            &list.part(&data[zeros.end..]),
            &[zeros.end as u64, data.len() as u64],
            &[list.numbers(blocks), blocks.len() as u64, self.scratch as u64],
            &[plain, list.numbers(&record(&self.plain))],
            &[packed, list.numbers(&record(&self.packed)), length],
            &list.part(&output),
        ];
        list.row(Kind::Open, &row.concat(), &self.answers());
    }

    fn add_whole(&self, list: &mut List) {
        let end = self.input.data.len();
        self.add(list, end..end);
    }
}

/// Document 01's worked store; then of many stores the smallest of each answer, the second smallest, and so on.
pub fn open(rng: &mut Rng) -> List {
    let mut list = List::default();
    for prefix in [0, 1, 2] {
        let store = worked(prefix);
        let length = packed_length(&store.section);
        for room in [length - 1, length, store.section.len() + 3] {
            Case::new(store.clone(), 4, room).add_whole(&mut list);
        }
    }
    let pool = pool(rng);
    let by_place = (0..CASES).flat_map(|place| pool.values().filter_map(move |cases| cases.get(place)));
    by_place.take(CASES - list.rows()).for_each(|case| case.add_whole(&mut list));
    (1..24).filter(|&number| number != 14).for_each(|number| assert!(list.has(number), "{number} occurs"));
    list
}

/// The cases of small stores, by both answers and by size.
fn pool(rng: &mut Rng) -> BTreeMap<[u64; 2], Vec<Case>> {
    let mut pool: BTreeMap<[u64; 2], Vec<Case>> = BTreeMap::new();
    let mut inputs: Vec<Input> = (0..1500).flat_map(|_| forge(rng)).collect();
    inputs.extend(small().iter().flat_map(pilots));
    inputs.retain(|input| input.section.len() + input.data.len() < 400 && input.longest_key <= 32);
    for input in inputs {
        let scratch = [2 * input.longest_key, 64].map(|scratch| scratch - scratch.min(rng.below(2)));
        let less = if rng.one_in(3) { input.section.len() / 8 } else { 0 };
        let room = input.section.len() - less;
        let case = Case::new(input, scratch[rng.below(2)], room);
        pool.entry(case.answers()).or_default().push(case);
    }
    pool.values_mut().for_each(|cases| cases.sort_by_key(Case::size));
    pool
}

/// A key of zeros at the limit of 14 and beyond, alone and behind the worked store's block.
pub fn run(_: &mut Rng) -> List {
    let mut list = List::default();
    for before in [false, true] {
        for key in [1 << 20, (1 << 20) + 1] {
            let mut input = worked(0);
            if !before {
                (input.data, input.list) = (Vec::new(), Vec::new());
            }
            let entry = Entry { kind: 1, key: vec![0; key], value: Vec::new(), sequence: 1 };
            let (start, long) = (input.data.len(), block(&[entry], 1));
            input.list.extend([start as u64, long.raw.len() as u64]);
            input.data.extend(long.raw);
            Case::new(input, 64, 200).add(&mut list, start + 21..start + 21 + key);
        }
    }
    assert!(list.has(14));
    list
}
