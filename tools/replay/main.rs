//! Writes lists of the Rust's answers. usage: replay FOLDER, or replay --programs CRATES
// The modules shared with the differential runs have more than is used here.
#![allow(dead_code)]

#[path = "../common/blocks.rs"]
mod blocks;
#[path = "../common/building.rs"]
mod building_expected;
#[path = "../common/chosen.rs"]
mod chosen;
#[path = "../common/damage.rs"]
mod damage;
#[path = "../common/entries.rs"]
mod entries;
#[path = "../common/filling.rs"]
mod filling;
#[path = "../common/forge.rs"]
mod forge;
#[path = "../common/numbers.rs"]
mod numbers;
#[path = "../common/opening.rs"]
mod opening_expected;
#[path = "../common/pairs.rs"]
mod pairs;
#[path = "../common/reading.rs"]
mod reading;
#[path = "../common/reads.rs"]
mod reads;
#[path = "../common/rng.rs"]
mod rng;
#[path = "../common/spanning.rs"]
mod spanning;
#[path = "../common/stores.rs"]
mod stores;

mod block_records;
mod building;
mod leaves;
mod list;
mod lookups;
mod spans;
mod whole;

use list::List;
use rng::Rng;
use std::path::Path;

type Make = fn(&mut Rng) -> List;

/// The programs of the gate, and the lists of each in the order in which it replays them.
const PROGRAMS: [(&str, &[(&str, Make)]); 2] = [
    (
        "replay",
        &[
            ("crc.bin", leaves::crc),
            ("hash.bin", leaves::hash),
            ("trailer.bin", leaves::trailer),
            ("verify.bin", leaves::verify),
            ("walk.bin", leaves::walk),
            ("open.bin", whole::open),
            ("run.bin", whole::run),
            ("lookup.bin", lookups::lookup),
            ("forged.bin", lookups::forged),
            ("spans.bin", spans::spans),
            ("forged_spans.bin", spans::forged),
            ("fills.bin", block_records::fills),
            ("finds.bin", block_records::finds),
        ],
    ),
    (
        "replay_building",
        &[
            ("builds.bin", building::builds),
            ("refused.bin", building::refused),
            ("widths.bin", building::widths),
            ("many.bin", building::many),
        ],
    ),
];

fn main() {
    let words: Vec<String> = std::env::args().skip(1).collect();
    oracle::quiet();
    oracle_stable::quiet();
    match words.iter().map(String::as_str).collect::<Vec<_>>()[..] {
        ["--programs", crates] => {
            for (program, lists) in PROGRAMS {
                let program = Path::new(crates).join(program);
                let stdout = write(&program.join("data"), lists);
                std::fs::write(program.join("stdout"), stdout).expect("a program's folder");
            }
        }
        [folder] => PROGRAMS.iter().for_each(|(_, lists)| _ = write(Path::new(folder), lists)),
        _ => panic!("usage: replay FOLDER, or replay --programs CRATES"),
    }
}

/// Writes the lists, and gives what a program must print that replays them.
fn write(to: &Path, lists: &[(&str, Make)]) -> String {
    std::fs::create_dir_all(to).expect("a folder to write to");
    let line = |(name, make): &(&str, Make)| {
        let list = make(&mut Rng::part(1, name, 0));
        list.write(to, name);
        format!("{name} agree {} differ 0\n", list.rows())
    };
    lists.iter().map(line).collect()
}
