//! Block verify: question 12.
use crate::blocks::{Entry, block, close, seal};
use crate::buffer::Buffer;
use crate::case::{Answer, Case};
use crate::damage::{damage, put32};
use crate::numbers::number;
use crate::ours;
use crate::rng::Rng;
use crate::run::Run;
use crate::{Layer, samples};

pub const LAYER: Layer = Layer { name: "verify", kinds: &["verify"], ask, fixed, round };

/// What the three numbers hold before the call.
const BEFORE: [u64; 3] = [11, 22, 33];

/// Numbers: shift.
fn ask(case: &Case) -> Option<(Answer, Answer)> {
    let raw = case.bytes[0].as_slice();
    let lent = Buffer::input(raw, case.numbers[0]);
    let mut meta = BEFORE;
    let answer = ours::verify(lent.part(), &mut meta);
    let ours = Answer { number: answer, ..Answer::words(meta.to_vec()) };
    let expected = match oracle::block::verify(raw) {
        Ok(meta) => Answer::words(meta.map(|n| n as u64).to_vec()),
        Err(error) => Answer { number: number(&error), ..Answer::words(BEFORE.to_vec()) },
    };
    Some((ours, expected))
}

fn plain_and_sealed(run: &mut Run, raw: &[u8]) {
    run.compare(ask, Case::new("verify", &[0], &[raw]));
    let mut sealed = raw.to_vec();
    seal(&mut sealed);
    run.compare(ask, Case::new("verify", &[0], &[&sealed]));
}

/// Each byte changed to each value, each part cut off, each length added.
fn around(run: &mut Run, raw: &[u8]) {
    for at in 0..raw.len() {
        for value in 0..=255 {
            let mut changed = raw.to_vec();
            changed[at] = value;
            plain_and_sealed(run, &changed);
        }
        plain_and_sealed(run, &raw[..at]);
        plain_and_sealed(run, &raw[at..]);
        plain_and_sealed(run, &[&raw[..at], &raw[at + 1..]].concat());
        plain_and_sealed(run, &[&raw[..at], &[0], &raw[at..]].concat());
    }
}

/// Each number of restarts and each restart at the edges of what fits.
fn restarts(run: &mut Run, raw: &[u8]) {
    let end = raw.len() - 9;
    let edges = [0, 1, 2, 3, 4, 5, 6, 7, 20, 21, 22, 1 << 30, (1 << 30) + 1, 1 << 31, u32::MAX];
    let ends = (0..=9).map(|less| (end - less) as u32);
    let numbers: Vec<u32> = edges.into_iter().chain(ends).collect();
    for at in (0..=end).rev().step_by(4).take(4) {
        for &number in &numbers {
            let mut changed = raw.to_vec();
            put32(&mut changed, at, number);
            plain_and_sealed(run, &changed);
        }
    }
}

fn fixed(run: &mut Run) {
    let entry = |key: &[u8]| Entry { kind: 1, key: key.to_vec(), value: Vec::new(), sequence: 5 };
    let least = block(&[entry(b"")], 1).raw;
    let two = block(&[entry(b"a"), entry(b"ab")], 1).raw;
    for raw in [&least, &two] {
        around(run, raw);
        restarts(run, raw);
    }
    for length in 0..40 {
        plain_and_sealed(run, &vec![0; length]);
        for restarts in [&[0][..], &[0, 1], &[0, 1, 20], &[0, 2, 1], &[0, 1, 1], &[1, 2]] {
            plain_and_sealed(run, &close(vec![1; length], restarts));
        }
    }
}

fn round(run: &mut Run, rng: &mut Rng) {
    for sample in samples(rng) {
        let shift = rng.next() % 8;
        run.compare(ask, Case::new("verify", &[shift], &[&sample.block.raw]));
        for _ in 0..6 {
            let raw = damage(&sample.block.raw, &sample.block.starts, rng);
            run.compare(ask, Case::new("verify", &[shift], &[&raw]));
        }
    }
}
