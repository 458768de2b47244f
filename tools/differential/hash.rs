//! The hash, fingerprint, bucket, position, and the slot that a pilot names.
use crate::buffer::Buffer;
use crate::case::{Answer, Case};
use crate::ours;
use crate::rng::Rng;
use crate::run::Run;
use crate::{Layer, tiny};
use oracle::point;

pub const LAYER: Layer =
    Layer { name: "hash", kinds: &["hash", "fingerprint", "bucket", "position", "slot"], ask, fixed, round };

/// Where the Rust divides by zero and panics, 0 is expected.
fn divided(by: u64, answer: Result<usize, String>) -> u64 {
    match answer {
        Err(_) if by == 0 => 0,
        answer => answer.expect("an answer") as u64,
    }
}

/// Numbers: for the hash seed and shift, else the function's own in order.
fn ask(case: &Case) -> Option<(Answer, Answer)> {
    let number = |place: usize| case.numbers[place];
    let (ours, expected) = match case.kind {
        "hash" => {
            let key = Buffer::input(&case.bytes[0], number(1));
            (ours::hash(key.part(), number(0)), point::hash(&case.bytes[0], number(0)))
        }
        "fingerprint" => (ours::probe_fingerprint(number(0)), point::fingerprint(number(0)).into()),
        "bucket" => {
            let (h, count) = (number(0), number(1));
            let expected = divided(count, point::bucket(h, count as usize));
            (ours::probe_bucket(h, count), expected)
        }
        "position" => {
            let (h, pilot, n) = (number(0), number(1), number(2));
            let expected = divided(n, point::position(h, pilot as u32, n as usize));
            (ours::probe_position(h, pilot, n), expected)
        }
        _ => {
            let (h, pilot, n) = (number(0), number(1), number(2));
            // Question 4 gives n of at least 1; the probe answers 0 for every pilot of no slots.
            let expected = if n == 0 { 0 } else { divided(n, point::slot(h, pilot as u32, n as usize)) };
            (ours::probe_slot(h, pilot, n), expected)
        }
    };
    Some((Answer::one(ours), Answer::one(expected)))
}

fn companions(run: &mut Run, h: u64, pilot: u32, n: u64) {
    let pilot = u64::from(pilot);
    run.compare(ask, Case::new("fingerprint", &[h], &[]));
    run.compare(ask, Case::new("bucket", &[h, n], &[]));
    run.compare(ask, Case::new("position", &[h, pilot, n], &[]));
    run.compare(ask, Case::new("slot", &[h, pilot, n], &[]));
}

fn hash(run: &mut Run, key: &[u8], seed: u64, shift: u64) {
    run.compare(ask, Case::new("hash", &[seed, shift], &[key]));
}

fn fixed(run: &mut Run) {
    for seed in [0, 1, u64::MAX] {
        tiny(|key| hash(run, key, seed, 0));
    }
    for length in 0..=40 {
        let key: Vec<u8> = (0..length).map(|i| i * 41 + length).collect();
        (0..8).for_each(|shift| hash(run, &key, u64::from(length), shift));
    }
    // Lengths of more than 16 bits.
    for length in [65_535, 65_536, 65_543, 1 << 20] {
        hash(run, &vec![0x5a; length], 1, 0);
    }
    let numbers: Vec<u64> = (0..64).flat_map(|bit| [1 << bit, u64::MAX >> bit]).chain([0]).collect();
    let pilots = [0, 1, 99_999, (1 << 23) - 1, 1 << 23, (1 << 31) - 1, 1 << 31, (1 << 31) + 5, u32::MAX];
    for &h in &numbers {
        for &n in &numbers {
            companions(run, h, pilots[(h ^ n) as usize % pilots.len()], n);
        }
        pilots.iter().for_each(|&pilot| companions(run, h, pilot, 1000));
    }
}

fn round(run: &mut Run, rng: &mut Rng) {
    for _ in 0..50 {
        let most = rng.pick(&[9, 20, 40, 600]);
        let length = rng.between(0, most);
        let key = rng.bytes(length);
        hash(run, &key, rng.wide(), rng.next() % 8);
        companions(run, rng.wide(), rng.next() as u32 >> rng.below(32), rng.wide());
        companions(run, rng.next(), 1 << 31 | rng.next() as u32 >> rng.below(32), rng.wide());
    }
}
