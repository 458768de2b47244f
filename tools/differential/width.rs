//! The width in bytes of a greatest number.
use crate::Layer;
use crate::case::{Answer, Case};
use crate::ours;
use crate::rng::Rng;
use crate::run::Run;

pub const LAYER: Layer = Layer { name: "width", kinds: &["width"], ask, fixed, round };

fn ask(case: &Case) -> Option<(Answer, Answer)> {
    let max = case.numbers[0];
    Some((Answer::one(ours::probe_width(max)), Answer::one(oracle::point::width(max) as u64)))
}

fn fixed(run: &mut Run) {
    let around = |bit: u32| [(1 << bit) - 1, 1u64 << bit, (1 << bit) + 1];
    for max in (0..64).flat_map(around).chain([u64::MAX]) {
        run.compare(ask, Case::new("width", &[max], &[]));
    }
}

fn round(run: &mut Run, rng: &mut Rng) {
    for _ in 0..10 {
        run.compare(ask, Case::new("width", &[rng.wide()], &[]));
    }
}
