//! Spans: questions 24, 27, 28, 29 and 25.
use crate::Layer;
use crate::buffer::{Buffer, Places};
use crate::case::{Answer, Case};
use crate::forge::{self, Input};
use crate::ours;
use crate::reads::{self, unasked};
use crate::rng::Rng;
use crate::run::Run;
use crate::spanning::pairs;
use oracle::compact::open_packed;

pub const LAYER: Layer = Layer { name: "spans", kinds: &["span"], ask, fixed, round };

const BEFORE: u64 = 77;

/// Numbers: the record's sixteen, first, count, limit, places. Parts: section, data.
fn ask(case: &Case) -> Option<(Answer, Answer)> {
    let record: [u64; 16] = case.numbers[..16].try_into().ok()?;
    // Places are allocated, so a case that asks for very many is left out.
    if case.numbers[19] > 1 << 20 {
        return None;
    }
    Some((our_span(case, &record), rust_span(case, &record)))
}

fn our_span(case: &Case, record: &[u64; 16]) -> Answer {
    let section = Buffer::input(&case.bytes[0], 1);
    let [first, count, limit, places] = case.numbers[16..20] else { unreachable!("four numbers") };
    let mut pairs = Places::new(places as usize, 0, || BEFORE);
    let mut found = BEFORE;
    let number = ours::span(section.part(), record, [first, count, limit], pairs.lent(), &mut found);
    if !pairs.others_stay() {
        return Answer { number, bytes: b"written outside the places".to_vec(), ..Answer::default() };
    }
    Answer { number, ..Answer::words([pairs.used(), &[found]].concat()) }
}

fn rust_span(case: &Case, record: &[u64; 16]) -> Answer {
    let places = case.numbers[19] as usize;
    let mut words = vec![BEFORE; places + 1];
    let asked = case.numbers[16..20].try_into().expect("four numbers");
    match pairs(&case.bytes[0], &case.bytes[1], record, asked) {
        Ok(pairs) => {
            words[..pairs.len()].copy_from_slice(&pairs);
            words[places] = pairs.len() as u64 / 2;
            Answer::words(words)
        }
        Err(number) => Answer { number, ..Answer::words(words) },
    }
}

fn span(run: &mut Run, input: &Input, record: &[u64; 16], asked: [u64; 4]) {
    let numbers = [&record[..], &asked].concat();
    run.compare(ask, Case::new("span", &numbers, &[&input.section, &input.data]));
}

/// The record that the header gives.
fn record(section: &[u8]) -> Option<[u64; 16]> {
    let mut record = [0; 16];
    record[..13].copy_from_slice(&oracle::compact::header(section).ok()?);
    Some(record)
}

fn fixed(run: &mut Run) {
    for prefix in [0, 1, 2] {
        let worked = forge::worked(prefix);
        let own = record(&worked.section).expect("a header");
        for first in [0, 1, 2, 3, u64::MAX] {
            for count in [0, 1, 2, 3, 1 << 63, u64::MAX] {
                for limit in [0, 2, 3, 4, 5, 6, 7, u64::MAX] {
                    for places in 0..6 {
                        span(run, &worked, &own, [first, count, limit, places]);
                    }
                }
            }
        }
        for other in reads::other_records(&own) {
            span(run, &worked, &other, [0, 2, u64::MAX, 4]);
        }
        packed(run, &worked);
        for neighbour in forge::neighbours(&worked) {
            // The numbers that the header holds, whether it passes or not.
            let Some(own) = unasked(&neighbour.section, false) else { continue };
            for limit in [4, u64::MAX] {
                span(run, &neighbour, &own, [0, 2, limit, 4]);
                span(run, &neighbour, &own, [1, 1, limit, 4]);
            }
        }
    }
    edges(run);
}

/// Packed bytes and plain ones, each under both records.
fn packed(run: &mut Run, input: &Input) {
    let list: Vec<(u64, u64)> = input.list.chunks_exact(2).map(|pair| (pair[0], pair[1])).collect();
    let index = open_packed(&input.section, &input.data, &list).ok().flatten().expect("the packed store");
    for section in [&input.section[..], index.bytes()] {
        let input = Input { section: section.to_vec(), ..input.clone() };
        for packed in [false, true] {
            let record = unasked(section, packed).expect("a header");
            for asked in [[0, 2, u64::MAX, 4], [0, 3, 5, 4], [0, 2, 5, 3], [0, 0, 5, 0]] {
                span(run, &input, &record, asked);
            }
        }
    }
}

/// Every number of a small section, its scan addresses too, at the edges of its reads, and bases with sums about 2^64.
fn edges(run: &mut Run) {
    for (address, checksums) in [(4, true), (4, false), (8, true)] {
        let input = reads::two_keys(address, checksums);
        let own = record(&input.section).expect("a header");
        for section in reads::at_edges(&input.section, &own) {
            let input = Input { section, ..input.clone() };
            for (first, count) in [(0, 1), (0, 2), (1, 1), (2, 0)] {
                for limit in [4, 8, u64::MAX] {
                    span(run, &input, &own, [first, count, limit, 5]);
                }
            }
        }
        for less in 0..20 {
            let (section, own) = reads::with_base(&input.section, &own, u64::MAX - less);
            let input = Input { section, ..input.clone() };
            for limit in [u64::MAX, u64::MAX - 1, u64::MAX - 5, u64::MAX - less, 0] {
                span(run, &input, &own, [0, 2, limit, 4]);
            }
        }
    }
}

fn round(run: &mut Run, rng: &mut Rng) {
    for input in forge::forge(rng) {
        let Some(mut own) = unasked(&input.section, false) else { continue };
        for _ in 0..3 {
            let n = own[2].min(3000);
            let first = rng.next() % (n + 2);
            let count = rng.next() % (n - n.min(first) + 2);
            let places = (2 * count + rng.next() % 4).saturating_sub(rng.next() % 2);
            let limit = if rng.one_in(2) { u64::MAX } else { own[1].wrapping_add(rng.wide()) };
            span(run, &input, &own, [first, count, limit, places]);
        }
        own[rng.below(16)] = rng.wide();
        span(run, &input, &own, [0, 1, u64::MAX, 2]);
    }
}
