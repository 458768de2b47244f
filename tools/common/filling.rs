//! What document 01 expects of a lent list of block records: filling by the Rust's verify of each pair's block, finding
//! by a search from the first record on.
use crate::numbers::number;

/// Offset, length, entries_end, restart_start, num_restarts.
pub type BlockRecord = [u64; 5];

/// The block of a pair that begins where the last one ended.
fn block(data: &[u8], last: u64, offset: u64, length: u64) -> Option<&[u8]> {
    let end = offset.checked_add(length).filter(|&end| offset == last && end <= data.len() as u64)?;
    Some(&data[offset as usize..end as usize])
}

/// 11 of an odd list, 11 and 12 pair by pair, then 41: the records, or the number.
pub fn filled(data: &[u8], list: &[u64], places: usize) -> Result<Vec<BlockRecord>, u64> {
    let (pairs, []) = list.as_chunks::<2>() else { return Err(11) };
    let (mut records, mut last) = (Vec::new(), 0);
    for &[offset, length] in pairs {
        let raw = block(data, last, offset, length).ok_or(11u64)?;
        let [entries_end, restart_start, num_restarts] =
            oracle::block::verify(raw).map_err(|error| number(&error))?.map(|n| n as u64);
        records.push([offset, length, entries_end, restart_start, num_restarts]);
        last = offset + length;
    }
    if records.len() <= places { Ok(records) } else { Err(41) }
}

/// The lowest place with that offset, or how many records there are.
pub fn found(records: &[BlockRecord], offset: u64) -> usize {
    records.iter().position(|record| record[0] == offset).unwrap_or(records.len())
}
