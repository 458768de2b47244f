//! Damaged copies of blocks, with the CRC-32 sealed again or not.
use crate::blocks::seal;
use crate::rng::Rng;

/// Numbers that lie at the edges of the tests.
const EDGES: &[u32] = &[0, 1, 2, 3, 16, 20, 21, 22, 255, 256, 1 << 30, (1 << 30) + 1, 1 << 31, u32::MAX];

pub fn put32(raw: &mut [u8], at: usize, number: u32) {
    if at + 4 <= raw.len() {
        raw[at..at + 4].copy_from_slice(&number.to_le_bytes());
    }
}

pub fn get32(raw: &[u8], at: usize) -> u32 {
    raw.get(at..at + 4).map_or(0, |b| u32::from_le_bytes(b.try_into().unwrap()))
}

/// Where the restart offsets begin, by the count that the block states.
fn restarts_at(raw: &[u8]) -> usize {
    let end = raw.len().saturating_sub(9);
    end.saturating_sub(4 * get32(raw, end) as usize)
}

fn near(rng: &mut Rng, number: u32) -> u32 {
    match rng.below(4) {
        0 => number.wrapping_add(1),
        1 => number.wrapping_sub(1),
        2 => rng.pick(EDGES),
        _ => rng.next() as u32 >> rng.below(32),
    }
}

fn edit_number(raw: &mut [u8], rng: &mut Rng, at: usize) {
    let number = near(rng, get32(raw, at));
    put32(raw, at, number);
}

fn edit_byte(raw: &mut [u8], rng: &mut Rng, end: usize) {
    if end > 0 {
        let at = rng.below(end.min(raw.len()));
        raw[at] ^= 1 << rng.below(8);
    }
}

/// One of the 4-byte numbers of the header of the entry that begins at `at`.
fn edit_header(raw: &mut [u8], rng: &mut Rng, at: usize) {
    let field = at + 1 + 4 * rng.below(3);
    edit_number(raw, rng, field);
}

fn edit_restart(raw: &mut [u8], rng: &mut Rng) {
    let (first, end) = (restarts_at(raw), raw.len().saturating_sub(9));
    if first + 4 <= end {
        let at = first + 4 * rng.below((end - first) / 4);
        let number = match rng.below(3) {
            0 => get32(raw, at.saturating_sub(4)),
            1 => first as u32,
            _ => near(rng, get32(raw, at)),
        };
        put32(raw, at, number);
    }
}

fn cut(raw: &mut Vec<u8>, rng: &mut Rng) {
    if !raw.is_empty() {
        let at = rng.below(raw.len());
        let length = rng.between(1, (raw.len() - at).min(40));
        raw.drain(at..at + length);
    }
}

fn stretch(raw: &mut Vec<u8>, rng: &mut Rng) {
    let at = rng.between(0, raw.len());
    let length = rng.between(1, 40);
    let more = rng.bytes(length);
    raw.splice(at..at, more);
}

/// One to three edits of a block whose entries begin at `starts`; sealed again three times of four.
pub fn damage(block: &[u8], starts: &[usize], rng: &mut Rng) -> Vec<u8> {
    let mut raw = block.to_vec();
    for _ in 0..rng.between(1, 3) {
        let start = rng.pick(starts);
        let (all, entries) = (raw.len(), restarts_at(&raw));
        match rng.below(10) {
            0 => edit_byte(&mut raw, rng, all),
            1 => edit_byte(&mut raw, rng, entries),
            2 | 3 => edit_header(&mut raw, rng, start),
            4 => raw[start.min(all - 1)] = rng.pick(&[0, 1, 2, 3, 255]),
            5 => edit_restart(&mut raw, rng),
            6 => edit_number(&mut raw, rng, all.saturating_sub(9)),
            7 => raw[all.saturating_sub(5)] = rng.next() as u8,
            8 => cut(&mut raw, rng),
            _ => stretch(&mut raw, rng),
        }
        if raw.is_empty() {
            return raw;
        }
    }
    if !rng.one_in(4) {
        seal(&mut raw);
    }
    raw
}
