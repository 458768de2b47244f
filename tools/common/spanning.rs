//! What document 01 expects of a span: the refusals, and pairs that the Rust must give too.
use crate::numbers::NO_NUMBER;
use crate::reading::{self, Unread};
use oracle::compact::{Record, forged};

/// First, count, limit, places.
pub type Asked = [u64; 4];

/// The pairs or the refusal. Where the Rust can be asked, it must give the same pairs, and panic at a read outside.
pub fn pairs(section: &[u8], data: &[u8], record: &[u64; 16], asked: Asked) -> Result<Vec<u64>, u64> {
    let [first, count, limit, places] = asked;
    let record = reading::admitted(section, record)?;
    if record[12] == 1 || record[11] == 0 || record[5] != 4 {
        return Err(27);
    }
    if u128::from(first) + u128::from(count) > u128::from(record[2]) {
        return Err(28);
    }
    if 2 * u128::from(count) > u128::from(places) {
        return Err(29);
    }
    let rust = || rust(section, data, &record, first, count, limit);
    // Without a limit the Rust takes another path, which reads less.
    let current = limit == u64::MAX;
    match reading::span(section, &record, first, count, limit) {
        Err(Unread::Outside) if !current && rust().is_ok() => Err(NO_NUMBER),
        Err(_) => Err(25),
        Ok(span) => {
            let comparable =
                span.sliced.iter().all(|&slice| inside(slice, data)) && !(current && span.without_versions);
            if comparable && rust() != Ok(span.pairs.clone()) { Err(NO_NUMBER) } else { Ok(span.pairs) }
        }
    }
}

fn inside((offset, length): (u64, u64), data: &[u8]) -> bool {
    u128::from(offset) + u128::from(length) <= data.len() as u128
}

fn rust(section: &[u8], data: &[u8], record: &Record, first: u64, count: u64, limit: u64) -> Result<Vec<u64>, String> {
    let pairs = forged(section, data, record).span(first as usize, count as usize, limit)?;
    Ok(pairs.into_iter().flat_map(|(offset, length)| [offset, length]).collect())
}
