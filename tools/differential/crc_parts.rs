//! CRC-32 with a lent table, and the update of its register.
use crate::Layer;
use crate::buffer::Buffer;
use crate::case::{Answer, Case};
use crate::inputs::{fixed_data, random_data};
use crate::ours;
use crate::rng::Rng;
use crate::run::Run;
use oracle::crc32::access::{slices, update_scalar};

pub const LAYER: Layer = Layer { name: "crc_parts", kinds: &["crc32_lent", "crc32_update"], ask, fixed, round };

/// Numbers: shift, and for an update the state.
fn ask(case: &Case) -> Option<(Answer, Answer)> {
    let data = case.bytes[0].as_slice();
    let lent = Buffer::input(data, case.numbers[0]);
    let (ours, expected) = match case.kind {
        "crc32_lent" => (ours::crc32_lent(slices(), lent.part()), oracle::crc32::crc32(data)),
        _ => {
            let state = case.numbers[1] as u32;
            (ours::crc32_update(state, lent.part()), update_scalar(state, data))
        }
    };
    Some((Answer::one(ours.into()), Answer::one(expected.into())))
}

fn both(run: &mut Run, data: &[u8], shift: u64, state: u32) {
    run.compare(ask, Case::new("crc32_lent", &[shift], &[data]));
    run.compare(ask, Case::new("crc32_update", &[shift, state.into()], &[data]));
}

fn fixed(run: &mut Run) {
    fixed_data(|data, shift| both(run, data, shift, 0x8000_0001));
    for state in (0..32).map(|bit| 1 << bit).chain([0, u32::MAX]) {
        both(run, b"", 0, state);
        both(run, &[0; 9], 0, state);
    }
}

fn round(run: &mut Run, rng: &mut Rng) {
    let state = rng.next() as u32;
    random_data(rng, |data, shift| both(run, data, shift, state));
}
