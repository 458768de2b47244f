//! Lists of keys for construction: their area, and keys whose hashes under a seed are chosen, by undoing the hash.
use crate::rng::Rng;
use oracle::point::{hash, mix};

const STEP: u64 = 0x9e37_79b9_7f4a_7c15;

pub type Keys = Vec<Vec<u8>>;

/// Seed k of the eight, from 1 on.
pub fn seed(k: u64) -> u64 {
    mix(STEP.wrapping_mul(k))
}

const SEEDS: [&str; 8] = ["seed 1", "seed 2", "seed 3", "seed 4", "seed 5", "seed 6", "seed 7", "seed 8"];

/// Which of the eight seeds it is, or nothing.
pub fn seed_name(found: u64) -> &'static str {
    let of_eight = SEEDS.into_iter().zip(1..).find(|&(_, k)| seed(k) == found);
    of_eight.map_or("", |(name, _)| name)
}

/// Which of the eight seeds serves these keys, from 1 on, or 9 if none does.
pub fn serving(keys: &[Vec<u8>]) -> u64 {
    let parts: Vec<&[u8]> = keys.iter().map(Vec::as_slice).collect();
    let found = oracle_stable::point::construct(&parts).map(|(found, ..)| found);
    (1..9).find(|&k| found == Ok(seed(k))).unwrap_or(9)
}

/// The keys as the builder keeps them, each with so many versions; what those hold has no say.
pub fn area<'a>(keys: impl IntoIterator<Item = (&'a [u8], u32)>) -> Vec<u8> {
    let mut area = Vec::new();
    for (key, versions) in keys {
        area.extend((key.len() as u32).to_le_bytes());
        area.extend(versions.to_le_bytes());
        area.extend(key);
        area.resize(area.len() + 25 * versions as usize, 0x5a);
    }
    area
}

fn number(area: &[u8], at: usize) -> Option<usize> {
    let bytes = area.get(at..at + 4)?;
    Some(u32::from_le_bytes(bytes.try_into().expect("four bytes")) as usize)
}

/// The first keys of an area, at most `count`, and the length of their part of it.
pub fn held(area: &[u8], count: u64) -> (Vec<&[u8]>, usize) {
    let (mut keys, mut at) = (Vec::new(), 0);
    while (keys.len() as u64) < count {
        let Some((length, versions)) = number(area, at).zip(number(area, at + 4)) else { break };
        let end = at + 8 + length;
        if end + 25 * versions > area.len() {
            break;
        }
        keys.push(&area[at + 8..end]);
        at = end + 25 * versions;
    }
    (keys, at)
}

/// Of an odd number, modulo 2^64. It is its own inverse in three bits, and each step doubles the bits.
fn inverse(odd: u64) -> u64 {
    (0..5).fold(odd, |x, _| x.wrapping_mul(2u64.wrapping_sub(odd.wrapping_mul(x))))
}

/// Undoes `h ^ h >> shift` for shifts of at least 22.
fn unshift(h: u64, shift: u32) -> u64 {
    h ^ h >> shift ^ h >> (2 * shift)
}

fn unmix(h: u64) -> u64 {
    let h = unshift(h, 31).wrapping_mul(inverse(0x94d0_49bb_1331_11eb));
    let h = unshift(h, 27).wrapping_mul(inverse(0xbf58_476d_1ce4_e5b9));
    unshift(h, 30)
}

/// The key of these whole chunks and one more that has this hash under the seed.
pub fn key(seed: u64, free: &[u8], wanted: u64) -> Vec<u8> {
    let (less, length) = (free.len() as u64, free.len() as u64 + 8);
    // The hash of the free chunks alone, with the whole key's length mixed in.
    let before = unmix(hash(free, seed ^ less ^ length));
    let last = unmix(wanted).wrapping_mul(inverse(STEP)).rotate_right(27) ^ before;
    let key = [free, &last.to_le_bytes()].concat();
    assert_eq!(hash(&key, seed), wanted, "the chosen hash");
    key
}

/// Keys of one hash under the seed.
pub fn equal(rng: &mut Rng, seed: u64, count: usize) -> Keys {
    let wanted = rng.next();
    (0..count).map(|_| key(seed, &rng.bytes(8), wanted)).collect()
}

/// Keys of bucket x under the seed, if there are n keys in all.
pub fn crowded(rng: &mut Rng, seed: u64, x: u64, count: usize, n: usize) -> Keys {
    let buckets = n.div_ceil(2) as u64;
    (0..count).map(|_| key(seed, &[], (rng.next() >> 1) / buckets * buckets + x)).collect()
}

/// Two keys of equal hashes under each seed before seed k.
pub fn pairs(rng: &mut Rng, k: u64) -> Keys {
    (1..k).flat_map(|before| equal(rng, seed(before), 2)).collect()
}

/// Keys of one bucket, so many that no pilot serves, under each seed before seed k.
pub fn crowds(rng: &mut Rng, k: u64, size: usize) -> Keys {
    let n = (k as usize - 1) * size;
    (1..k).flat_map(|before| crowded(rng, seed(before), 0, size, n)).collect()
}

/// Keys that stand with others: alone in a bucket under the seed, at positions 0, 1 and so on by this pilot.
pub fn served(rng: &mut Rng, seed: u64, pilot: u64, count: usize, others: &[Vec<u8>]) -> Keys {
    let n = (count + others.len()) as u64;
    let buckets = n.div_ceil(2);
    let empty = |x: &u64| others.iter().all(|key| hash(key, seed) % buckets != *x);
    let x = (0..buckets).find(empty).expect("an empty bucket");
    let mut one = |at: u64| {
        let mixed = std::iter::repeat_with(|| (rng.next() >> 1) / n * n + at);
        let mut hashes = mixed.map(|mixed| unmix(mixed) ^ pilot.wrapping_mul(STEP));
        key(seed, &[], hashes.find(|h| h % buckets == x).expect("a hash of the bucket"))
    };
    (0..count as u64).map(&mut one).collect()
}
