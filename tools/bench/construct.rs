//! Construction of pilots and slots, per key: 20-byte keys, and lists that make it slow.
use crate::chosen::{self, Keys, area, held};
use crate::measure::{Row, repeated, row, thousands};
use crate::ours;
use crate::rng::Rng;
use crate::stores::KEY;
use oracle_stable::point::construct;
use std::hint::black_box;

const SIZES: [usize; 4] = [1_000, 10_000, 100_000, 1_000_000];

/// What of an answer both sides must give alike.
fn weighed(seed: u64, pilot: u32, slot: u64) -> u64 {
    seed ^ u64::from(pilot) << 32 ^ slot
}

/// Both sides read the keys where they stand in the area, which is lent as long as the program runs.
fn construct_row(name: String, limit: Option<f64>, keys: Keys) -> Row {
    let n = keys.len();
    let area: &[u8] = area(keys.iter().map(|key| (&key[..], 1))).leak();
    let (mut hashes, mut scratch) = (vec![0; n], vec![0; 6 * n + 8]);
    let ours = repeated(move || {
        let mut seed = 0;
        let number = ours::construct(black_box(area), n as u64, &mut hashes, &mut scratch, &mut seed);
        let (pilots, slots) = ours::placed(black_box(&scratch), n);
        if number == 0 { weighed(seed, pilots[0], slots[n - 1].into()) } else { number }
    });
    let parts = held(area, n as u64).0;
    let rust = repeated(move || match construct(black_box(&parts)) {
        Ok((seed, pilots, slots)) => weighed(seed, pilots[0], slots[n - 1] as u64),
        Err(_) => 40,
    });
    row(name, n, limit, ours, rust)
}

pub fn rows(rng: &mut Rng) -> Vec<Row> {
    let mut random = |count| {
        let keys = (0..count).map(|_| rng.bytes(KEY)).collect();
        construct_row(format!("construct, {} keys, per key", thousands(count)), Some(1.0), keys)
    };
    let usual = SIZES.map(&mut random);
    usual.into_iter().chain(slow(rng)).collect()
}

/// Keys that are all equal, so that every seed fails, and keys of one bucket, for which the first seed has no pilot.
fn slow(rng: &mut Rng) -> Vec<Row> {
    let equal = |count| {
        let name = format!("construct, {} equal keys, per key", thousands(count));
        construct_row(name, None, vec![vec![7; KEY]; count])
    };
    let crowded = |count| {
        let name = format!("construct, {} keys of one bucket, per key", thousands(count));
        construct_row(name, None, chosen::crowded(rng, chosen::seed(1), 0, count, count))
    };
    [1_000, 100_000].map(equal).into_iter().chain([1_000, 10_000].map(crowded)).collect()
}
