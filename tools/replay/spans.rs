//! Spans of accepted stores, and in sections and under records that no opening gave.
use crate::forge::{Input, forge, worked};
use crate::list::{BEFORE, Kind, List};
use crate::numbers::NO_NUMBER;
use crate::reads::{self, other_records, unasked};
use crate::rng::Rng;
use crate::spanning::{Asked, pairs};
use crate::stores::records;
use oracle::compact::{open, open_packed};

/// No row lends more places.
const MOST_PLACES: u64 = 64;

fn add(list: &mut List, input: &Input, record: &[u64; 16], asked: Asked) {
    let places = asked[3] as usize;
    assert!(asked[3] <= MOST_PLACES, "more than is lent");
    let mut held = vec![BEFORE; places];
    let (number, found) = match pairs(&input.section, &input.data, record, asked) {
        Ok(pairs) => {
            held[..pairs.len()].copy_from_slice(&pairs);
            (0, pairs.len() as u64 / 2)
        }
        Err(number) => (number, BEFORE),
    };
    assert!(number != NO_NUMBER, "the Rust gives the same");
    let [place, length] = list.part(&input.section);
    let behind = [number, list.numbers(&held), found];
    let row = [&[place, length, list.numbers(record)][..], &asked, &behind].concat();
    list.row(Kind::Span, &row, &[number]);
}

/// The record of a store that the Rust accepts.
fn accepted(input: &Input) -> Option<[u64; 16]> {
    let pairs: Vec<(u64, u64)> = input.list.chunks_exact(2).map(|pair| (pair[0], pair[1])).collect();
    open(&input.section, &input.data, &pairs).ok()?;
    unasked(&input.section, false)
}

/// Spans of accepted stores about their first and last key, under limits about their sequences.
pub fn spans(rng: &mut Rng) -> List {
    let mut list = List::default();
    for prefix in [1, 2] {
        let store = worked(prefix);
        let record = accepted(&store).expect("accepted");
        for [first, count] in [[0, 2], [0, 1], [1, 1], [2, 0], [0, 3], [2, 1], [u64::MAX, 2], [1, u64::MAX]] {
            for (limit, places) in [(u64::MAX, 4), (7, 5), (6, 4), (4, 4), (2, 6), (u64::MAX, 3), (6, 2)] {
                add(&mut list, &store, &record, [first, count, limit, places]);
            }
        }
    }
    while list.rows() < 300 {
        for input in forge(rng).iter().filter(|input| input.section.len() < 400) {
            let Some(record) = accepted(input) else { continue };
            if record[11] > 0 || rng.one_in(9) {
                random(&mut list, rng, input, &record);
            }
        }
    }
    [0, 27, 28, 29].iter().for_each(|&number| assert!(list.has(number), "{number} occurs"));
    list
}

fn random(list: &mut List, rng: &mut Rng, input: &Input, record: &[u64; 16]) {
    let sequences: Vec<u64> = records(&input.data, &input.list).iter().map(|version| version.sequence).collect();
    for limit in [u64::MAX, rng.pick(&sequences), rng.pick(&sequences).wrapping_sub(1)] {
        let n = record[2].min(MOST_PLACES / 2);
        let first = rng.next() % (n + 1);
        let count = rng.next() % (n - first + 1);
        let places = (2 * count + rng.next() % 3).saturating_sub(rng.next() % 2);
        add(list, input, record, [first, count, limit, places.min(MOST_PLACES)]);
    }
}

/// What no opening gave: other records, packed bytes, and numbers at the edges of reads and sums.
pub fn forged(_: &mut Rng) -> List {
    let mut list = List::default();
    let store = worked(1);
    let record = accepted(&store).expect("accepted");
    for other in other_records(&record).iter().step_by(4) {
        add(&mut list, &store, other, [0, 2, u64::MAX, 4]);
    }
    let packed = open_packed(&store.section, &store.data, &[(0, store.data.len() as u64)]);
    let packed = packed.expect("accepted").expect("packed").bytes().to_vec();
    for section in [packed, store.section.clone()] {
        let input = Input { section, ..store.clone() };
        for form in [false, true] {
            let record = unasked(&input.section, form).expect("a header");
            add(&mut list, &input, &record, [0, 2, u64::MAX, 4]);
        }
    }
    edges(&mut list, &reads::two_keys(4, true));
    edges(&mut list, &reads::two_keys(4, false));
    [0, 24, 25, 27].iter().for_each(|&number| assert!(list.has(number), "{number} occurs"));
    list
}

/// Of many reads and sums about the section's end and 2^64 some that are read and some that are not.
fn edges(list: &mut List, input: &Input) {
    let record = unasked(&input.section, false).expect("a header");
    let changed = reads::at_edges(&input.section, &record).into_iter().map(|section| (section, record));
    let bases = (0..20).map(|less| reads::with_base(&input.section, &record, u64::MAX - less));
    let limits = [4, 8, u64::MAX - 5, u64::MAX].into_iter().cycle();
    let mut read: [Vec<_>; 2] = [Vec::new(), Vec::new()];
    for ((section, record), limit) in bases.chain(changed).zip(limits) {
        let asked = [0, 2, limit, 5];
        let refused = pairs(&section, &input.data, &record, asked).is_err();
        read[usize::from(refused)].push((Input { section, ..input.clone() }, record, asked));
    }
    for all in read {
        all.iter().step_by(all.len() / 40 + 1).for_each(|(input, record, asked)| add(list, input, record, *asked));
    }
}
