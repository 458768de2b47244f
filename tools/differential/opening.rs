//! Plain and packed opening: questions 1 to 23.
use crate::Layer;
use crate::blocks::Entry;
use crate::buffer::Buffer;
use crate::case::{Answer, Case};
use crate::forge::{self, Input, le64, numbers};
use crate::opening_expected as expected;
use crate::ours;
use crate::rng::Rng;
use crate::run::Run;
use oracle::compact::Index;

pub const LAYER: Layer = Layer { name: "opening", kinds: &["open", "open_packed"], ask, fixed, round };

/// What record and length hold before the call.
const BEFORE: [u64; 16] = [77; 16];
const OUTPUT: u8 = 0xa5;

/// Numbers: scratch, shift, and for the packed form the length of the output. Parts: section, data, list.
fn ask(case: &Case) -> Option<(Answer, Answer)> {
    let list = numbers(&case.bytes[2])?;
    match case.kind {
        "open" => Some((our_plain(case, &list), rust_plain(case, &list))),
        _ => Some((our_packed(case, &list), rust_packed(case, &list))),
    }
}

/// The words of an answer: the record, then the length for the packed form.
fn words(record: &[u64; 16], length: &[u64]) -> Vec<u64> {
    [record, length].concat()
}

fn our_plain(case: &Case, list: &[u64]) -> Answer {
    let shift = case.numbers[1];
    let (section, data) = (Buffer::input(&case.bytes[0], shift), Buffer::input(&case.bytes[1], shift + 3));
    let mut scratch = Buffer::new(case.numbers[0] as usize, b"", shift);
    let mut record = BEFORE;
    let number = ours::open(section.part(), data.part(), list, scratch.part_mut(), &mut record);
    scratch.guarded(Answer { number, ..Answer::words(words(&record, &[])) })
}

#[cfg(not(has = "kiban_open_packed"))]
fn our_packed(_: &Case, _: &[u64]) -> Answer {
    unreachable!("`both` makes no packed case without the packed opening")
}

#[cfg(has = "kiban_open_packed")]
fn our_packed(case: &Case, list: &[u64]) -> Answer {
    let shift = case.numbers[1];
    let (section, data) = (Buffer::input(&case.bytes[0], shift), Buffer::input(&case.bytes[1], shift + 3));
    let mut scratch = Buffer::new(case.numbers[0] as usize, b"", shift);
    let mut output = Buffer::new(case.numbers[2] as usize, b"", shift + 1);
    let (mut record, mut length) = (BEFORE, BEFORE[0]);
    let number = ours::open_packed(
        section.part(),
        data.part(),
        list,
        scratch.part_mut(),
        output.part_mut(),
        &mut record,
        &mut length,
    );
    let bytes = output.part().to_vec();
    let answer = Answer { number, bytes, ..Answer::words(words(&record, &[length])) };
    scratch.guarded(output.guarded(answer))
}

/// The record as sixteen numbers.
pub fn record(index: &Index) -> [u64; 16] {
    let mut record = [0; 16];
    record[..13].copy_from_slice(&index.record());
    record
}

fn rust_plain(case: &Case, list: &[u64]) -> Answer {
    match expected::plain(&case.bytes[0], &case.bytes[1], list, case.numbers[0] as usize) {
        Ok(index) => Answer::words(words(&record(&index), &[])),
        Err(number) => Answer { number, ..Answer::words(words(&BEFORE, &[])) },
    }
}

fn rust_packed(case: &Case, list: &[u64]) -> Answer {
    let (scratch, room) = (case.numbers[0] as usize, case.numbers[2] as usize);
    let mut output = vec![OUTPUT; room];
    match expected::packed(&case.bytes[0], &case.bytes[1], list, scratch, room) {
        Ok(index) => {
            let packed = index.bytes();
            output[..packed.len()].copy_from_slice(packed);
            let words = words(&record(&index), &[packed.len() as u64]);
            Answer { bytes: output, ..Answer::words(words) }
        }
        Err(number) => Answer { number, bytes: output, ..Answer::words(words(&BEFORE, &BEFORE[..1])) },
    }
}

fn both(run: &mut Run, input: &Input, scratch: usize, output: usize, shift: u64) {
    let parts: [&[u8]; 3] = [&input.section, &input.data, &le64(&input.list)];
    run.compare(ask, Case::new("open", &[scratch as u64, shift], &parts));
    if cfg!(has = "kiban_open_packed") {
        run.compare(ask, Case::new("open_packed", &[scratch as u64, shift, output as u64], &parts));
    }
}

/// Lengths of the output about the packed length: one too short, exact, longer, and as long as the section and more.
fn rooms(section: &[u8]) -> [usize; 6] {
    let length =
        if oracle::compact::header(section).is_ok() { expected::packed_length(section) } else { section.len() };
    [0, length.saturating_sub(1), length, length + 1, section.len(), section.len() + 40]
}

/// Each byte of a small store's section and data changed, sealed again and not, and each cut; small stores with their
/// pilots at the edges, and beside lists and scratches that other questions refuse.
fn fixed(run: &mut Run) {
    for store in [forge::worked(0), forge::worked(1), forge::single()] {
        for input in forge::neighbours(&store) {
            both(run, &input, 64, 200, 0);
        }
    }
    for store in forge::small() {
        for room in rooms(&store.section) {
            (0..8).for_each(|scratch| both(run, &store, scratch, room, 0));
            for input in forge::pilots(&store) {
                both(run, &input, 64, room, 0);
                both(run, &input, 0, room, 0);
                both(run, &Input { list: vec![0], ..input }, 64, room, 0);
            }
        }
    }
    let wrapping = forge::wrapping().map(|(input, _)| input);
    for input in forge::bare().into_iter().chain(wrapping) {
        both(run, &input, 64, input.section.len(), 0);
    }
    long_keys(run);
}

/// Question 14: keys and values at the limits and beyond.
fn long_keys(run: &mut Run) {
    for (key, value) in [(1 << 20, 1), ((1 << 20) + 1, 1), (1, 1 << 24), (1, (1 << 24) + 1)] {
        let entry = Entry { kind: 1, key: vec![5; key], value: vec![6; value], sequence: 1 };
        let input = forge::build(&mut Rng::part(1, "long", 0), vec![entry], None);
        for scratch in [2 * key, 2 * key - 1] {
            both(run, &input, scratch, input.section.len(), 0);
        }
    }
}

fn round(run: &mut Run, rng: &mut Rng) {
    for input in forge::forge(rng) {
        let scratch = if rng.one_in(4) { rng.between(0, 2 * input.longest_key + 2) } else { 2000 };
        let less = if rng.one_in(8) { rng.between(0, 40) } else { 0 };
        let output = rng.pick(&rooms(&input.section)[1..]).saturating_sub(less);
        both(run, &input, scratch, output, rng.next() % 8);
    }
}
