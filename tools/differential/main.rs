//! Compares the static library with the Rust. usage: runner [--seed N] [--seconds N] [--trace] [--case TEXT]
// A layer that is left out leaves its helpers unused.
#![allow(dead_code, unused_imports)]

#[path = "../common/blocks.rs"]
mod blocks;
#[path = "../common/building.rs"]
mod building_expected;
#[path = "../common/chosen.rs"]
mod chosen;
#[path = "../common/damage.rs"]
mod damage;
#[path = "../common/entries.rs"]
mod entries;
#[path = "../common/filling.rs"]
mod filling;
#[path = "../common/forge.rs"]
mod forge;
#[path = "../common/numbers.rs"]
mod numbers;
#[path = "../common/opening.rs"]
mod opening_expected;
#[path = "../common/ours.rs"]
mod ours;
#[path = "../common/pairs.rs"]
mod pairs;
#[path = "../common/reading.rs"]
mod reading;
#[path = "../common/reads.rs"]
mod reads;
#[path = "../common/rng.rs"]
mod rng;
#[path = "../common/spanning.rs"]
mod spanning;
#[path = "../common/stores.rs"]
mod stores;

mod buffer;
mod case;
mod inputs;
mod run;
mod shrink;

use case::Case;
use inputs::{samples, tiny};
use rng::Rng;
use run::{Ask, Run};
use std::io::Read;
use std::process::exit;
use std::time::{Duration, Instant};

/// A layer: its kinds of cases, the question, the fixed cases, and one round of random cases.
pub struct Layer {
    name: &'static str,
    kinds: &'static [&'static str],
    ask: Ask,
    fixed: fn(&mut Run),
    round: fn(&mut Run, &mut Rng),
}

// A layer is built only if the archive has all its symbols: the script passes them as `has`.
macro_rules! layers {
    ($($module:ident: $($symbol:literal)*;)*) => {
        $(#[cfg(all($(has = $symbol),*))] mod $module;)*

        /// Each layer, or the text that says what is not in the archive.
        fn layers() -> Vec<Result<Layer, String>> {
            vec![$({
                #[cfg(all($(has = $symbol),*))]
                let layer = Ok($module::LAYER);
                #[cfg(not(all($(has = $symbol),*)))]
                let layer = Err([stringify!($module), " needs", $(" ", $symbol),*].concat());
                layer
            }),*]
        }
    };
}

layers! {
    crc: "kiban_crc32";
    crc_parts: "probe_crc32_lent" "probe_crc32_update";
    hash: "probe_hash" "probe_fingerprint" "probe_bucket" "probe_position" "probe_slot";
    trailer: "probe_trailer";
    verify: "probe_verify";
    walk: "probe_record";
    width: "probe_width";
    section_len: "probe_section_len";
    opening: "kiban_open";
    lookup: "kiban_lookup" "kiban_value";
    spans: "kiban_span";
    block_records: "kiban_fill_blocks" "kiban_find_block";
    construct: "probe_construct";
    building: "kiban_add" "kiban_size" "kiban_write" "kiban_open" "kiban_open_packed";
}

struct Options {
    seed: u64,
    seconds: u64,
    trace: bool,
    case: Option<String>,
}

fn usage() -> ! {
    eprintln!("usage: runner [--seed N] [--seconds N] [--trace] [--case TEXT]");
    exit(2)
}

fn options() -> Options {
    let mut options = Options { seed: 1, seconds: 100, trace: false, case: None };
    let mut words = std::env::args().skip(1);
    let number = |word: Option<String>| word.and_then(|w| w.parse().ok()).unwrap_or_else(|| usage());
    while let Some(word) = words.next() {
        match word.as_str() {
            "--seed" => options.seed = number(words.next()),
            "--seconds" => options.seconds = number(words.next()),
            "--trace" => options.trace = true,
            "--case" => options.case = Some(words.next().unwrap_or_else(|| usage())),
            _ => usage(),
        }
    }
    options
}

/// Random rounds, layer after layer, until the time is used.
fn rounds(run: &mut Run, layers: &[Layer], options: &Options) {
    let end = Instant::now() + Duration::from_secs(options.seconds);
    let mut round = 0;
    while Instant::now() < end {
        for layer in layers {
            run.place = format!("{}, seed {}, round {round}", layer.name, options.seed);
            if options.trace {
                eprintln!("{}", run.place);
            }
            (layer.round)(run, &mut Rng::part(options.seed, layer.name, round));
        }
        round += 1;
    }
    println!("seed {}, {round} rounds of random cases", options.seed);
}

fn one_case(run: &mut Run, layers: &[Layer], text: &str) {
    let mut text = text.to_string();
    if text == "-" {
        text.clear();
        std::io::stdin().read_to_string(&mut text).expect("standard input");
    }
    let text = text.trim().trim_start_matches("case:");
    let found = layers.iter().find_map(|l| Some((l.ask, Case::parse(text, l.kinds)?)));
    let Some((ask, case)) = found else {
        eprintln!("no layer in the archive has this case");
        exit(2)
    };
    match ask(&case) {
        Some((ours, rust)) => println!("ours: {ours}\nexpected: {rust}"),
        None => println!("this case may not be asked"),
    }
    run.compare(ask, case);
}

fn main() {
    let options = options();
    oracle::quiet();
    oracle_stable::quiet();
    let mut run = Run::default();
    let (here, absent): (Vec<_>, Vec<_>) = layers().into_iter().partition(Result::is_ok);
    let layers: Vec<Layer> = here.into_iter().flatten().collect();
    if layers.is_empty() {
        eprintln!("the archive has no function that can be compared");
        exit(2);
    }
    if let Some(text) = &options.case {
        return one_case(&mut run, &layers, text);
    }
    for layer in &layers {
        run.place = format!("{}, fixed cases", layer.name);
        (layer.fixed)(&mut run);
    }
    rounds(&mut run, &layers, &options);
    let absent: Vec<String> = absent.into_iter().filter_map(Result::err).collect();
    run.finish(&absent);
}
