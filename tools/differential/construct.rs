//! Construction: the seed, each bucket's pilot, each slot's key, or question 40.
use crate::Layer;
use crate::buffer::{Buffer, Places};
use crate::case::{Answer, Case};
use crate::chosen::{self, Keys, area, crowds, held, pairs, serving};
use crate::entries::keys as sorted_keys;
use crate::numbers::number;
use crate::ours;
use crate::rng::Rng;
use crate::run::Run;
use crate::tiny;
use oracle::point::hash;
use oracle_stable::point::construct;

pub const LAYER: Layer = Layer { name: "construct", kinds: &["construct"], ask, fixed, round };

/// Numbers: the most keys taken, what fixes the garbage, places lent beyond what is needed. Part: area.
fn ask(case: &Case) -> Option<(Answer, Answer)> {
    let (keys, used) = held(&case.bytes[0], case.numbers[0]);
    if keys.is_empty() || keys.len() > 1 << 20 || case.numbers[2] > 1 << 20 {
        return None;
    }
    let ours = our_answer(&case.bytes[0][..used], keys.len(), case.numbers[1], case.numbers[2] as usize);
    Some((ours, expected(&keys)))
}

fn answer(seed: u64, pilots: &[u32], slots: impl Iterator<Item = u64>, hashes: impl Iterator<Item = u64>) -> Answer {
    let words = [seed].into_iter().chain(pilots.iter().map(|&pilot| pilot.into())).chain(slots).chain(hashes);
    Answer { note: chosen::seed_name(seed), ..Answer::words(words.collect()) }
}

fn expected(keys: &[&[u8]]) -> Answer {
    match construct(keys) {
        Ok((seed, pilots, slots)) => {
            let hashes = keys.iter().map(|key| hash(key, seed));
            answer(seed, &pilots, slots.iter().map(|&key| key as u64), hashes)
        }
        Err(error) => Answer::refused(number(&error)),
    }
}

fn our_answer(area: &[u8], n: usize, garbage: u64, others: usize) -> Answer {
    let area = Buffer::input(area, 1);
    let rng = &mut Rng::part(garbage, "garbage", 0);
    let mut hashes = Places::new(n, others, || rng.wide());
    let mut scratch = Places::new(6 * n + 8, others, || rng.wide() as u32);
    let mut seed = rng.next();
    let number = ours::construct(area.part(), n as u64, hashes.lent(), scratch.lent(), &mut seed);
    if !hashes.others_stay() || !scratch.others_stay() {
        return Answer { number, bytes: b"written outside the used places".to_vec(), ..Answer::default() };
    }
    if number != 0 {
        return Answer::refused(number);
    }
    let (pilots, slots) = ours::placed(scratch.used(), n);
    answer(seed, pilots, slots.iter().map(|&key| key.into()), hashes.used().iter().copied())
}

fn compare(run: &mut Run, area: &[u8], count: usize) {
    run.compare(ask, Case::new("construct", &[count as u64, count as u64, count as u64 % 3], &[area]));
}

/// The keys with 0 to 3 versions each.
fn keys<K: AsRef<[u8]>>(run: &mut Run, keys: &[K]) {
    let versions = (0..4).cycle();
    compare(run, &area(keys.iter().map(AsRef::as_ref).zip(versions)), keys.len());
}

fn fixed(run: &mut Run) {
    small(run);
    ties(run);
    heads(run);
    many(run);
    failing(run);
    last_pilots(run);
}

/// One key of up to two bytes, two of one byte, three of up to two bytes.
fn small(run: &mut Run) {
    tiny(|key| keys(run, &[key]));
    for a in 0..=255 {
        (0..=255).for_each(|b| keys(run, &[[a], [b]]));
    }
    let letters = [0, 1, 255u8];
    let mut words: Keys = vec![Vec::new()];
    words.extend(letters.map(|a| vec![a]));
    words.extend(letters.iter().flat_map(|&a| letters.map(|b| vec![a, b])));
    for a in &words {
        for b in &words {
            words.iter().for_each(|c| keys(run, &[a, b, c]));
        }
    }
}

/// One-byte keys, each number of them. With more than 20 buckets the Rust as published orders equal ones otherwise.
fn ties(run: &mut Run) {
    let bytes: Vec<[u8; 1]> = (0..=255).map(|byte| [byte]).collect();
    (1..=256).for_each(|count| keys(run, &bytes[..count]));
    let parts: Vec<&[u8]> = bytes[..41].iter().map(|key| &key[..]).collect();
    assert!(oracle::point::construct(&parts) != construct(&parts), "the two orders differ");
}

/// Lengths and version counts of one byte and more.
fn heads(run: &mut Run) {
    for length in [255, 256, 65_535, 65_536, 1 << 20] {
        keys(run, &[vec![7; length], vec![8; 3], vec![9; length + 1]]);
    }
    for versions in [255, 256, 65_535, 65_536] {
        let lists = [(&b"a"[..], versions), (b"b", 1), (b"c", versions)];
        compare(run, &area(lists), lists.len());
    }
}

fn many(run: &mut Run) {
    let rng = &mut Rng::part(1, "many", 0);
    for count in [1000, 1001, 4095, 4096, 30_000] {
        let numbers: Vec<[u8; 4]> = (0..count).map(u32::to_be_bytes).collect();
        keys(run, &numbers);
        let random: Keys = numbers.iter().map(|_| rng.bytes(20)).collect();
        keys(run, &random);
    }
    let most: Vec<[u8; 4]> = (0..1 << 20).map(u32::to_be_bytes).collect();
    compare(run, &area(most.iter().map(|key| (&key[..], 0))), most.len());
}

/// Keys with which seed k, from 1 on, serves, or none if k is 9.
fn served_by(run: &mut Run, k: u64, list: &[Vec<u8>]) {
    assert_eq!(serving(list), k, "the seed that serves");
    keys(run, list);
}

/// Seeds that fail: by equal hashes, by the first bucket, and by a bucket behind others.
fn failing(run: &mut Run) {
    let rng = &mut Rng::part(1, "failing", 0);
    for k in 2..=9 {
        served_by(run, k, &pairs(rng, k));
        let others: Keys = (0..100).map(|_| rng.bytes(5)).collect();
        served_by(run, k, &[others, pairs(rng, k)].concat());
    }
    for (k, size) in [(2, 24), (3, 60), (9, 300)] {
        served_by(run, k, &crowds(rng, k, size));
    }
    let mixed = [pairs(rng, 8), chosen::crowded(rng, chosen::seed(8), 3, 60, 74)].concat();
    served_by(run, 9, &mixed);
    // The first bucket takes half of the slots, and the second would need all others.
    let two = [0, 1].map(|x| chosen::crowded(rng, chosen::seed(1), x, 16, 32));
    served_by(run, 2, &two.concat());
    let repeated = vec![b"ab".to_vec(); 1000];
    served_by(run, 9, &repeated);
}

/// Keys of one bucket that the last pilots alone serve, and pilots beyond, under several seeds.
fn last_pilots(run: &mut Run) {
    let rng = &mut Rng::part(1, "last pilots", 0);
    for pilot in [0, 1, 99_998, 99_999, 100_000, 100_001] {
        for k in [1, 2, 8] {
            let before = pairs(rng, k);
            let group = chosen::served(rng, chosen::seed(k), pilot, 60, &before);
            let serves = if pilot < 100_000 { k } else { k + 1 };
            served_by(run, serves, &[group, before].concat());
        }
    }
}

/// So many keys: sorted with shared beginnings, random of one length and up to it, or numbers.
fn random(rng: &mut Rng, count: usize) -> Keys {
    let most = rng.pick(&[1, 2, 3, 7, 8, 9, 20, 40]);
    match rng.below(4) {
        0 => sorted_keys(rng, count),
        1 => (0..count).map(|_| rng.bytes(most)).collect(),
        2 => {
            let lengths: Vec<usize> = (0..count).map(|_| rng.between(0, most)).collect();
            lengths.into_iter().map(|length| rng.bytes(length)).collect()
        }
        _ => (rng.next()..).take(count).map(|number| number.to_be_bytes()[8 - most.min(8)..].to_vec()).collect(),
    }
}

fn round(run: &mut Run, rng: &mut Rng) {
    let usual = rng.pick(&[1, 2, 3, 4, 8, 20, 41, 60, 100]);
    let count = if rng.one_in(50) { rng.between(300, 5000) } else { rng.between(1, usual) };
    let mut list = random(rng, count);
    if rng.one_in(4) {
        let k = rng.between(1, 9) as u64;
        list.extend(pairs(rng, k));
    }
    if rng.one_in(10) {
        let (k, size) = (rng.between(1, 8) as u64, rng.between(2, 40));
        let n = list.len() + size;
        list.extend(chosen::crowded(rng, chosen::seed(k), 0, size, n));
    }
    let versions: Vec<u32> = list.iter().map(|_| rng.below(4) as u32).collect();
    let area = area(list.iter().map(Vec::as_slice).zip(versions));
    run.compare(ask, Case::new("construct", &[list.len() as u64, rng.next(), rng.next() % 5], &[&area]));
}
