//! Entries, and blocks of chosen ones and restart intervals.

/// Kind 1 is a Put, kind 2 a Tombstone.
#[derive(Clone, Debug)]
pub struct Entry {
    pub kind: u8,
    pub key: Vec<u8>,
    pub value: Vec<u8>,
    pub sequence: u64,
}

/// What an add is given beside area and record.
#[derive(Clone, Copy)]
pub struct Offered<'a> {
    pub tombstone: bool,
    pub key: &'a [u8],
    pub value: &'a [u8],
    pub sequence: u64,
    pub new: bool,
    pub offset: u64,
}

fn common(a: &[u8], b: &[u8]) -> usize {
    a.iter().zip(b).take_while(|(x, y)| x == y).count()
}

/// A block, where its entries begin, and where their values do.
pub struct Block {
    pub raw: Vec<u8>,
    pub starts: Vec<usize>,
    pub places: Vec<usize>,
}

/// A block with a restart at every `interval`-th entry.
pub fn block(entries: &[Entry], interval: usize) -> Block {
    let (mut raw, mut restarts) = (Vec::new(), Vec::new());
    let (mut starts, mut places) = (Vec::new(), Vec::new());
    for (i, entry) in entries.iter().enumerate() {
        let shared = if i % interval == 0 {
            restarts.push(raw.len() as u32);
            0
        } else {
            common(&entries[i - 1].key, &entry.key)
        };
        starts.push(raw.len());
        raw.push(entry.kind);
        for length in [shared, entry.key.len() - shared, entry.value.len()] {
            raw.extend((length as u32).to_le_bytes());
        }
        raw.extend(entry.sequence.to_le_bytes());
        raw.extend(&entry.key[shared..]);
        places.push(raw.len());
        raw.extend(&entry.value);
    }
    let raw = close(raw, &restarts);
    Block { raw, starts, places }
}

/// Restarts, type and CRC-32 behind the bytes of the entries.
pub fn close(mut raw: Vec<u8>, restarts: &[u32]) -> Vec<u8> {
    for restart in restarts {
        raw.extend(restart.to_le_bytes());
    }
    raw.extend((restarts.len() as u32).to_le_bytes());
    raw.extend([0; 5]);
    seal(&mut raw);
    raw
}

/// Writes the CRC-32 of all before the last four bytes into them.
pub fn seal(raw: &mut [u8]) {
    if let Some(end) = raw.len().checked_sub(4) {
        let crc = oracle::crc32::crc32(&raw[..end]);
        raw[end..].copy_from_slice(&crc.to_le_bytes());
    }
}
