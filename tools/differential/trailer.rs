//! The trailer of a section: questions 1 and 2.
use crate::blocks::seal;
use crate::buffer::Buffer;
use crate::case::{Answer, Case};
use crate::numbers::number;
use crate::ours;
use crate::rng::Rng;
use crate::run::Run;
use crate::{Layer, tiny};

pub const LAYER: Layer = Layer { name: "trailer", kinds: &["trailer"], ask, fixed, round };

/// Numbers: shift.
fn ask(case: &Case) -> Option<(Answer, Answer)> {
    let section = case.bytes[0].as_slice();
    let lent = Buffer::input(section, case.numbers[0]);
    let ours = ours::trailer(lent.part());
    let expected = oracle::block::trailer(section).map_or_else(|error| number(&error), |()| 0);
    Some((Answer::refused(ours), Answer::refused(expected)))
}

fn plain_and_sealed(run: &mut Run, section: &[u8], shift: u64) {
    run.compare(ask, Case::new("trailer", &[shift], &[section]));
    let mut sealed = section.to_vec();
    seal(&mut sealed);
    run.compare(ask, Case::new("trailer", &[shift], &[&sealed]));
}

fn fixed(run: &mut Run) {
    tiny(|section| plain_and_sealed(run, section, 0));
    for length in 3..16 {
        for kind in 0..=255 {
            let mut section = vec![7; length];
            if length >= 5 {
                section[length - 5] = kind;
            }
            plain_and_sealed(run, &section, 0);
        }
    }
    let mut sealed = vec![0; 12];
    seal(&mut sealed);
    for bit in 0..sealed.len() * 8 {
        let mut section = sealed.clone();
        section[bit / 8] ^= 1 << (bit % 8);
        run.compare(ask, Case::new("trailer", &[0], &[&section]));
    }
}

fn round(run: &mut Run, rng: &mut Rng) {
    for _ in 0..30 {
        let most = rng.pick(&[8, 40, 400]);
        let length = rng.between(0, most);
        let mut section = rng.bytes(length);
        if length >= 5 && !rng.one_in(4) {
            section[length - 5] = 0;
        }
        plain_and_sealed(run, &section, rng.next() % 8);
    }
}
