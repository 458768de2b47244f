//! Asks both sides, counts the answers, and stops at the first difference.
use crate::case::{Answer, Case};
use crate::numbers::NO_NUMBER;
use crate::shrink::shrink;
use std::collections::BTreeMap;
use std::process::exit;

/// Our answer and the Rust's, or nothing where a case lies outside what may be asked.
pub type Ask = fn(&Case) -> Option<(Answer, Answer)>;

#[derive(Default)]
pub struct Run {
    /// For each kind of case: how often each number, with its note, was expected.
    counts: BTreeMap<&'static str, BTreeMap<(u64, &'static str), u64>>,
    pub place: String,
}

impl Run {
    pub fn compare(&mut self, ask: Ask, case: Case) {
        let Some((ours, rust)) = ask(&case) else { return };
        if ours != rust {
            self.report(ask, case);
        }
        let answer = (rust.number, rust.note);
        *self.counts.entry(case.kind).or_default().entry(answer).or_default() += 1;
    }

    fn report(&self, ask: Ask, case: Case) -> ! {
        let differs = |c: &Case| ask(c).is_some_and(|(ours, rust)| ours != rust);
        let small = shrink(case, differs);
        let (ours, rust) = ask(&small).expect("a case that differs");
        println!("DIFFERENCE in {}, made smaller:", self.place);
        println!("case: {small}");
        println!("ours: {ours}");
        println!("expected: {rust}");
        println!("To ask it again: tools/differential/run --case - and this case line on standard input.");
        exit(1)
    }

    /// The table of what was compared, and of the layers that could not be.
    pub fn finish(&self, absent: &[String]) {
        println!("{:<14} {:>12}  answers: number x cases", "kind", "cases");
        for (kind, numbers) in &self.counts {
            let cases: u64 = numbers.values().sum();
            let each: Vec<String> = numbers.iter().map(|(answer, c)| format!("{} x {c}", name(*answer))).collect();
            println!("{kind:<14} {cases:>12}  {}", each.join(", "));
        }
        absent.iter().for_each(|text| println!("not compared, not in the archive: {text}"));
        let all: u64 = self.counts.values().flat_map(|n| n.values()).sum();
        println!("{all} cases, no difference");
    }
}

fn name((number, note): (u64, &str)) -> String {
    match (number, note) {
        (NO_NUMBER, _) => "panic".to_string(),
        (number, "") => number.to_string(),
        (_, note) => note.to_string(),
    }
}
