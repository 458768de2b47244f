//! CRC-32, hash and block verify.
use crate::blocks::{Entry, block};
use crate::measure::{Row, repeated, row};
use crate::ours;
use crate::rng::Rng;
use std::hint::black_box;

fn size(bytes: usize) -> String {
    match bytes {
        0x10_0000 => "1 MiB".to_string(),
        1024 => "1 KiB".to_string(),
        bytes => format!("{bytes} bytes"),
    }
}

const SIZES: [usize; 7] = [8, 16, 32, 64, 256, 1024, 1 << 20];

fn rust_crc(data: Vec<u8>) -> crate::measure::Work {
    use oracle::crc32::{INITIAL, access::update_scalar, finalize};
    repeated(move || finalize(update_scalar(INITIAL, black_box(&data))).into())
}

#[cfg(has = "kiban_crc32")]
pub fn crc(rng: &mut Rng) -> Vec<Row> {
    let one = |bytes| {
        let data = rng.bytes(bytes);
        let lent = data.clone();
        let ours = repeated(move || ours::crc32(black_box(&lent)).into());
        row(format!("crc32, {}", size(bytes)), 1, None, ours, rust_crc(data))
    };
    SIZES.map(one).into()
}

#[cfg(has = "probe_crc32_lent")]
pub fn crc_lent(rng: &mut Rng) -> Vec<Row> {
    let table = oracle::crc32::access::slices();
    let one = |bytes| {
        let data = rng.bytes(bytes);
        let lent = data.clone();
        let ours = repeated(move || ours::crc32_lent(table, black_box(&lent)).into());
        let limit = if bytes < 64 { 2.0 } else { 1.1 };
        row(format!("crc32, table lent, {}", size(bytes)), 1, Some(limit), ours, rust_crc(data))
    };
    SIZES.map(one).into()
}

#[cfg(has = "probe_hash")]
pub fn hash(rng: &mut Rng) -> Vec<Row> {
    let one = |bytes| {
        let key = rng.bytes(bytes);
        let lent = key.clone();
        let ours = repeated(move || ours::hash(black_box(&lent), black_box(7)));
        let rust = repeated(move || oracle::point::hash(black_box(&key), black_box(7)));
        row(format!("hash, {bytes}-byte key"), 1, Some(1.1), ours, rust)
    };
    [8, 20].map(one).into()
}

/// A block of entries with 20-byte keys and 40-byte values.
fn sample(rng: &mut Rng, count: usize) -> Vec<u8> {
    let mut keys: Vec<Vec<u8>> = (0..count).map(|_| rng.bytes(20)).collect();
    keys.sort();
    let entry = |key| Entry { kind: 1, key, value: vec![7; 40], sequence: 9 };
    let entries: Vec<Entry> = keys.into_iter().map(entry).collect();
    block(&entries, 16).raw
}

#[cfg(has = "probe_verify_lent")]
pub fn verify(rng: &mut Rng) -> Vec<Row> {
    let table = oracle::crc32::access::slices();
    let one = |count| {
        let raw = sample(rng, count);
        let (lent, name) = (raw.clone(), format!("block verify, table lent, {} bytes", raw.len()));
        let ours = repeated(move || {
            let mut meta = [0; 3];
            ours::verify_lent(table, black_box(&lent), &mut meta) ^ meta[0]
        });
        let rust = repeated(move || oracle::block::verify_plain(black_box(&raw)).map_or(1, |m| m.entries_end as u64));
        row(name, 1, Some(1.2), ours, rust)
    };
    [1, 50, 800].map(one).into()
}
