//! The length of a section by the builder's totals and the scan prefix.
use crate::Layer;
use crate::case::{Answer, Case};
use crate::ours;
use crate::rng::Rng;
use crate::run::Run;
use oracle::point::{Totals, section_len};

pub const LAYER: Layer = Layer { name: "section_len", kinds: &["section_len"], ask, fixed, round };

/// Numbers: keys, versions, suffix bytes, least and greatest sequence, longest key, longest value,
/// most versions, last offset, prefix.
fn ask(case: &Case) -> Option<(Answer, Answer)> {
    let totals: [u64; 9] = case.numbers[..9].try_into().ok()?;
    let prefix = case.numbers[9];
    if totals[4] < totals[3] {
        return None;
    }
    let ours = ours::section_len(&totals, prefix);
    let rust = Totals {
        keys: totals[0] as usize,
        versions: totals[1] as usize,
        suffix_bytes: totals[2] as usize,
        least: totals[3],
        greatest: totals[4],
        longest_key: totals[5] as u32,
        longest_value: totals[6] as u32,
        most_versions: totals[7] as u32,
        last_offset: totals[8],
    };
    let expected = section_len(&rust, prefix as usize).expect("a length");
    Some((Answer::one(ours), Answer::one(expected as u64)))
}

fn fixed(run: &mut Run) {
    for prefix in [0, 1, 24, 25] {
        run.compare(ask, Case::new("section_len", &[0, 0, 0, 0, 0, 0, 0, 0, 0, prefix], &[]));
        for keys in [1, 2, 3, 1024, 65_537, 1 << 20] {
            run.compare(ask, Case::new("section_len", &[keys, 3, 3, 3, 7, 2, 3, 2, 69, prefix], &[]));
        }
    }
    // The edges of each width, one number at a time.
    for edge in [255, 256, 65_535, 65_536, 32_767, 32_768, (1 << 32) - 1, 1 << 32] {
        for place in [4, 5, 6, 7, 8] {
            let mut numbers = [2, 3, 3, 0, 7, 2, 3, 2, 69, 1];
            numbers[place] = if place == 4 || place == 8 { edge } else { edge.min(1 << 30) };
            run.compare(ask, Case::new("section_len", &numbers, &[]));
        }
    }
}

fn round(run: &mut Run, rng: &mut Rng) {
    let mut total = |bits: u32| rng.wide() & ((1 << bits) - 1);
    let small = [total(24), total(30), total(30)];
    let most = [total(20), total(24), total(30)];
    let (a, b) = (rng.wide(), rng.wide());
    let prefix = rng.between(0, 26) as u64;
    let numbers = [small[0], small[1], small[2], a.min(b), a.max(b), most[0], most[1], most[2], rng.wide(), prefix];
    run.compare(ask, Case::new("section_len", &numbers, &[]));
}
