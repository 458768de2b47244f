//! What document 01 expects of both openings: the Rust's answer, with 9, 15 and the odd list added.
use crate::blocks::close;
use crate::numbers::number;
use oracle::compact::{Index, open, open_packed};

/// The list as pairs; a last number without a partner is left out.
fn pairs(list: &[u64]) -> Vec<(u64, u64)> {
    list.chunks_exact(2).map(|pair| (pair[0], pair[1])).collect()
}

/// The Rust's opening of one form.
type Open = fn(&[u8], &[u8], &[(u64, u64)]) -> Result<Index, u64>;

fn rust_plain(section: &[u8], data: &[u8], list: &[(u64, u64)]) -> Result<Index, u64> {
    open(section, data, list).map_err(|error| number(&error))
}

fn rust_packed(section: &[u8], data: &[u8], list: &[(u64, u64)]) -> Result<Index, u64> {
    open_packed(section, data, list).map_err(|error| number(&error))?.ok_or(8)
}

/// Where the first key longer than `most` stands, if the blocks before it can be walked: the pair,
/// the start of its entry in the block, and whether it passes 14.
fn long_key(data: &[u8], list: &[(u64, u64)], most: usize) -> Option<(usize, usize, bool)> {
    let mut last = 0;
    for (i, &(offset, length)) in list.iter().enumerate() {
        let end = offset.checked_add(length).filter(|&end| offset == last && end <= data.len() as u64)?;
        let raw = &data[offset as usize..end as usize];
        last = end;
        let (records, walked) = oracle::block::walk(raw, oracle::block::verify(raw).ok()?);
        let mut start = 0;
        for record in records {
            if record.key.len() > most {
                let limits = record.key.len() <= 1 << 20 && record.length <= 1 << 24;
                return Some((i, start, limits));
            }
            start = record.place + record.length;
        }
        walked.ok()?;
    }
    None
}

/// 15 comes before what the Rust says if everything before the long key passes. To see that, the Rust
/// is given the blocks cut off right before that entry.
fn with_scratch(rust: Open, section: &[u8], data: &[u8], list: &[(u64, u64)], most: usize) -> Result<Index, u64> {
    let Some((pair, start, limits)) = long_key(data, list, most) else {
        return rust(section, data, list);
    };
    let mut before = list[..pair].to_vec();
    let offset = list[pair].0 as usize;
    let mut shorter = data[..offset].to_vec();
    if start > 0 {
        let block = close(data[offset..offset + start].to_vec(), &[0]);
        before.push((offset as u64, block.len() as u64));
        shorter.extend(block);
    }
    match rust(section, &shorter, &before) {
        Err(number) if number < 22 => Err(number),
        _ if limits => Err(15),
        _ => Err(14),
    }
}

/// An odd list is refused after 10 and before any pair: the Rust is asked without pairs.
fn with_list(rust: Open, section: &[u8], data: &[u8], list: &[u64], scratch: usize) -> Result<Index, u64> {
    if list.len() % 2 == 1 {
        return match rust(section, data, &[]) {
            Err(number) if number <= 10 => Err(number),
            _ => Err(11),
        };
    }
    with_scratch(rust, section, data, &pairs(list), scratch / 2)
}

/// The index, or document 01's number.
pub fn plain(section: &[u8], data: &[u8], list: &[u64], scratch: usize) -> Result<Index, u64> {
    with_list(rust_plain, section, data, list, scratch)
}

/// How long the packed form of a section is that passes 1 to 6.
pub fn packed_length(section: &[u8]) -> usize {
    let number = |at: usize| u32::from_le_bytes(section[at..at + 4].try_into().unwrap()) as usize;
    let (n, b, address) = (number(16), number(20), number(32));
    let scan = if number(52) & 2 != 0 { 24 + n * address + 8 } else { 0 };
    section.len() - b - 2 * n - scan
}

/// The same for the packed form; 9 is asked between 8 and 10.
pub fn packed(section: &[u8], data: &[u8], list: &[u64], scratch: usize, output: usize) -> Result<Index, u64> {
    match rust_packed(section, data, &[]) {
        Err(number) if number <= 8 => Err(number),
        _ if output < packed_length(section) => Err(9),
        _ => with_list(rust_packed, section, data, list, scratch),
    }
}
