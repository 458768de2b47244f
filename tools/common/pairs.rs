//! Blocks beside their lists of pairs, and lists that are not theirs.
use crate::blocks::{Block, Entry, block, seal};
use crate::damage::damage;
use crate::entries::{cut, entries};
use crate::rng::Rng;

/// Blocks one behind the other, with so many bytes that no pair names before each.
fn joined(blocks: &[Vec<u8>], gaps: &[usize]) -> (Vec<u8>, Vec<u64>) {
    let (mut data, mut list) = (Vec::new(), Vec::new());
    for (raw, &gap) in blocks.iter().zip(gaps) {
        data.resize(data.len() + gap, 0);
        list.extend([data.len() as u64, raw.len() as u64]);
        data.extend(raw);
    }
    (data, list)
}

/// The list with a number changed, taken out or put in, and pairs in another order.
pub fn lists_near(list: &[u64], end: u64) -> Vec<Vec<u64>> {
    let mut all = vec![list.to_vec(), vec![], vec![0], vec![0, 0], vec![0, end], vec![end, 0]];
    for at in 0..list.len() {
        let near = [1, 2, u64::MAX, u64::MAX - 1, 1 << 32, 1 << 63].map(|more| list[at].wrapping_add(more));
        for number in near.into_iter().chain([0, end, u64::MAX, u64::MAX - end]) {
            let mut other = list.to_vec();
            other[at] = number;
            all.push(other);
        }
        all.push([&list[..at], &list[at + 1..]].concat());
        all.push([&list[..at], &[0], &list[at..]].concat());
        all.push([&list[..at], &list[at.min(list.len() - 2)..]].concat());
        let mut turned = list.to_vec();
        turned.rotate_left(at);
        all.push(turned);
    }
    for more in [vec![0], vec![end], vec![end, 0], vec![end, 1], vec![end, u64::MAX - end + 1], vec![end, 0, end]] {
        all.push([list, &more].concat());
    }
    all
}

/// Three small blocks: each of them sound or not, with bytes between them or not.
pub fn three_blocks() -> Vec<(Vec<u8>, Vec<u64>)> {
    let entry = |key: u8| Entry { kind: 1, key: vec![key], value: vec![key; 3], sequence: 5 };
    let sound = [1, 2, 3].map(|n| block(&(0..n).map(entry).collect::<Vec<_>>(), 1).raw);
    let mut all = Vec::new();
    for bad in 0..8 {
        let mut blocks = sound.clone();
        (0..3).filter(|i| bad >> i & 1 == 1).for_each(|i| blocks[i][0] ^= 1);
        all.extend([[0, 0, 0], [1, 0, 0], [0, 1, 0], [0, 0, 1]].map(|gaps| joined(&blocks, &gaps)));
    }
    all
}

/// The blocks of a random store, one of them damaged, or with bytes before one.
pub fn damaged(rng: &mut Rng) -> (Vec<u8>, Vec<u64>) {
    let count = rng.pick(&[1, 2, 4, 9, 40]);
    let entries = entries(rng, count);
    let blocks: Vec<Block> = cut(rng, &entries).iter().map(|part| block(part, rng.pick(&[1, 2, 3, 16]))).collect();
    let mut gaps = vec![0; blocks.len()];
    let mut raw: Vec<Vec<u8>> = blocks.iter().map(|block| block.raw.clone()).collect();
    let at = rng.below(blocks.len());
    match rng.below(3) {
        0 => gaps[at] = rng.between(1, 9),
        _ => raw[at] = damage(&raw[at], &blocks[at].starts, rng),
    }
    if rng.one_in(4) {
        seal(&mut raw[rng.below(blocks.len())]);
    }
    joined(&raw, &gaps)
}
