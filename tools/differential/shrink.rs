//! Makes a differing case smaller while it still differs.
use crate::blocks::seal;
use crate::case::Case;
use std::time::{Duration, Instant};

const MOST_TIME: Duration = Duration::from_secs(10);

struct Shrinker<F> {
    differs: F,
    end: Instant,
}

impl<F: Fn(&Case) -> bool> Shrinker<F> {
    fn over(&self) -> bool {
        Instant::now() >= self.end
    }

    /// The case with part `i` replaced, as it is or sealed again, if it still differs.
    fn with_part(&self, case: &Case, i: usize, part: Vec<u8>, may_seal: bool) -> Option<Case> {
        let mut smaller = case.clone();
        smaller.bytes[i] = part;
        if (self.differs)(&smaller) {
            return Some(smaller);
        }
        seal(&mut smaller.bytes[i]);
        (may_seal && (self.differs)(&smaller)).then_some(smaller)
    }

    fn shorter(&self, case: &Case, i: usize) -> Option<Case> {
        let part = &case.bytes[i];
        // Powers of two, so that lengths modulo 8 can be kept.
        let lengths = (0..usize::BITS).rev().map(|bit| 1 << bit).filter(|&length| length <= part.len());
        for length in lengths {
            for at in (0..=part.len() - length).step_by(length.div_ceil(2)) {
                if self.over() {
                    return None;
                }
                let less = [&part[..at], &part[at + length..]].concat();
                if let Some(found) = self.with_part(case, i, less, true) {
                    return Some(found);
                }
            }
        }
        None
    }

    /// One byte set to 0. Sealing makes other bytes nonzero, so it is tried only before the last four.
    fn plainer(&self, case: &Case, i: usize) -> Option<Case> {
        let part = &case.bytes[i];
        let nonzero = (0..part.len()).filter(|&at| part[at] != 0);
        nonzero.take_while(|_| !self.over()).find_map(|at| {
            let mut less = part.clone();
            less[at] = 0;
            self.with_part(case, i, less, at + 4 < part.len())
        })
    }

    fn lesser(&self, case: &Case, i: usize) -> Option<Case> {
        let number = case.numbers[i];
        let tries = [0, number / 2, number.saturating_sub(1)];
        tries.into_iter().filter(|&less| less < number && !self.over()).find_map(|less| {
            let mut smaller = case.clone();
            smaller.numbers[i] = less;
            (self.differs)(&smaller).then_some(smaller)
        })
    }

    fn step(&self, case: &Case) -> Option<Case> {
        let parts = 0..case.bytes.len();
        let shorter = parts.clone().find_map(|i| self.shorter(case, i));
        shorter
            .or_else(|| (0..case.numbers.len()).find_map(|i| self.lesser(case, i)))
            .or_else(|| parts.clone().find_map(|i| self.plainer(case, i)))
    }
}

pub fn shrink(case: Case, differs: impl Fn(&Case) -> bool) -> Case {
    let shrinker = Shrinker { differs, end: Instant::now() + MOST_TIME };
    let mut best = case;
    while let Some(smaller) = shrinker.step(&best) {
        best = smaller;
    }
    best
}
