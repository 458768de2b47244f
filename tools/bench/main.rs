//! Measures our library and the Rust on the same inputs. usage: bench [--rounds N] [--only TEXT]
// A row that is left out leaves its helpers unused.
#![allow(dead_code, unused_imports)]

#[path = "../common/blocks.rs"]
mod blocks;
#[path = "../common/chosen.rs"]
mod chosen;
#[path = "../common/ours.rs"]
mod ours;
#[path = "../common/rng.rs"]
mod rng;

#[cfg(has = "kiban_write")]
mod building;
#[cfg(has = "probe_construct")]
mod construct;
mod leaves;
mod measure;
#[cfg(has = "kiban_span")]
mod spans;
mod stores;

use rng::Rng;

// Rows are built only if the archive has their function: the script passes its names as `has`.
macro_rules! rows {
    ($rng:expr, $($symbol:literal: $rows:path;)*) => {{
        let mut all: Vec<measure::Row> = Vec::new();
        $(
            #[cfg(has = $symbol)]
            all.extend($rows($rng));
            #[cfg(not(has = $symbol))]
            println!("not measured, not in the archive: {}", $symbol);
        )*
        all
    }};
}

/// How many rounds, and what the names of the rows to measure have in them.
fn asked() -> (usize, String) {
    let (mut rounds, mut only) = (201, String::new());
    let words: Vec<String> = std::env::args().skip(1).collect();
    for pair in words.chunks(2) {
        match pair.iter().map(String::as_str).collect::<Vec<_>>()[..] {
            ["--rounds", n] if n.parse().is_ok_and(|n: usize| n > 0) => rounds = n.parse().expect("a number"),
            ["--only", text] => only = text.into(),
            _ => {
                eprintln!("usage: bench [--rounds N] [--only TEXT]");
                std::process::exit(2)
            }
        }
    }
    (rounds, only)
}

fn main() {
    let (rounds, only) = asked();
    let rng = &mut Rng::part(1, "bench", 0);
    let mut rows = rows! { rng,
        "probe_crc32_lent": leaves::crc_lent;
        "kiban_crc32": leaves::crc;
        "probe_hash": leaves::hash;
        "probe_verify_lent": leaves::verify;
        "kiban_open": stores::opening;
        "kiban_open_packed": stores::opening_packed;
        "kiban_lookup": stores::lookups;
        "kiban_span": spans::rows;
        "probe_construct": construct::rows;
        "kiban_write": building::rows;
    };
    rows.retain(|row| row.name.contains(&only));
    println!("{rounds} interleaved rounds, medians, per call or per record");
    measure::measure(rows, rounds);
}
