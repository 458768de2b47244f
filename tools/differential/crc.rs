//! CRC-32: the entry, against the Rust and against V.42.
use crate::Layer;
use crate::buffer::Buffer;
use crate::case::{Answer, Case};
use crate::inputs::{fixed_data, random_data};
use crate::ours;
use crate::rng::Rng;
use crate::run::Run;

pub const LAYER: Layer = Layer { name: "crc", kinds: &["crc32", "crc32_v42"], ask, fixed, round };

/// V.42's division, bit by bit, the lowest bit of each byte first.
fn v42(data: &[u8]) -> u32 {
    let mut remainder = u32::MAX;
    for place in 0..data.len() * 8 {
        let bit = u32::from(data[place / 8] >> (place % 8)) & 1;
        let carry = (remainder >> 31) ^ bit;
        remainder = (remainder << 1) ^ (carry * 0x04c1_1db7);
    }
    (!remainder).reverse_bits()
}

/// Numbers: shift.
fn ask(case: &Case) -> Option<(Answer, Answer)> {
    let data = case.bytes[0].as_slice();
    let ours = ours::crc32(Buffer::input(data, case.numbers[0]).part());
    let expected = if case.kind == "crc32" { oracle::crc32::crc32(data) } else { v42(data) };
    Some((Answer::one(ours.into()), Answer::one(expected.into())))
}

fn both(run: &mut Run, data: &[u8], shift: u64) {
    run.compare(ask, Case::new("crc32", &[shift], &[data]));
    // Bit by bit is slow.
    if data.len() <= 100 {
        run.compare(ask, Case::new("crc32_v42", &[shift], &[data]));
    }
}

fn fixed(run: &mut Run) {
    fixed_data(|data, shift| both(run, data, shift));
}

fn round(run: &mut Run, rng: &mut Rng) {
    random_data(rng, |data, shift| both(run, data, shift));
}
