//! Inputs that several layers share.
use crate::blocks::{Block, Entry, block};
use crate::entries::{cut, entries};
use crate::rng::Rng;

/// All byte strings of length 0, 1 and 2.
pub fn tiny(mut each: impl FnMut(&[u8])) {
    each(&[]);
    (0..=255).for_each(|a| each(&[a]));
    (0..=u16::MAX).for_each(|ab| each(&ab.to_le_bytes()));
}

/// All tiny strings, and each length below 200, and about 448, at each distance from an aligned place.
pub fn fixed_data(mut each: impl FnMut(&[u8], u64)) {
    tiny(|data| each(data, 0));
    each(b"123456789", 0);
    for length in (0..200).chain(440..460) {
        let data: Vec<u8> = (0..length).map(|i| (i * 37 + length) as u8).collect();
        (0..8).for_each(|shift| each(&data, shift));
    }
}

/// Random bytes, most of them short, and seldom about 1 MiB.
pub fn random_data(rng: &mut Rng, mut each: impl FnMut(&[u8], u64)) {
    for _ in 0..50 {
        let most = rng.pick(&[16, 70, 300, 300, 5000]);
        let length = rng.between(0, most);
        each(&rng.bytes(length), rng.next() % 8);
    }
    if rng.one_in(200) {
        let length = rng.between(1 << 20, (1 << 20) + 9);
        each(&rng.bytes(length), rng.next() % 8);
    }
}

/// A valid block and the length of its longest key.
pub struct Sample {
    pub block: Block,
    pub longest_key: usize,
}

fn sample(part: &[Entry], interval: usize) -> Sample {
    let block = block(part, interval);
    let longest_key = part.iter().map(|entry| entry.key.len()).max().unwrap_or(0);
    if interval == 16 {
        assert_eq!(block.raw, rust_block(part), "our blocks are the Rust's");
    }
    Sample { block, longest_key }
}

fn rust_block(part: &[Entry]) -> Vec<u8> {
    let mut builder = oracle::block::Builder::default();
    for entry in part {
        builder.add(entry.kind, &entry.key, &entry.value, entry.sequence);
    }
    builder.finish()
}

/// At most four blocks of one random store.
pub fn samples(rng: &mut Rng) -> Vec<Sample> {
    let count = if rng.one_in(60) { 1200 } else { rng.pick(&[1, 2, 4, 8, 40]) };
    let interval = rng.pick(&[1, 2, 3, 16, 16, 1000]);
    let entries = entries(rng, count);
    let parts = cut(rng, &entries);
    parts.into_iter().take(4).map(|part| sample(part, interval)).collect()
}
