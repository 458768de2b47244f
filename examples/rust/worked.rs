//! Builds the worked store of document 01, opens it plain and packed, looks keys up under limits, fetches values and a span, and shows a refusal.

mod kiban;

use kiban::{Builder, Entry, Index, Kind, NO_LIMIT, Refused, Store};

/// The backing data: one block of 82 bytes. Values stand at 23, 47 and 69.
#[rustfmt::skip]
const DATA: [u8; 82] = [
    1, 0, 0, 0, 0, 2, 0, 0, 0, 3, 0, 0, 0, 7, 0, 0, 0, 0, 0, 0, 0, b'a', b'b', b'x', b'y', b'z', // ab 7 Put xyz
    2, 2, 0, 0, 0, 0, 0, 0, 0, 0, 0, 0, 0, 3, 0, 0, 0, 0, 0, 0, 0,                               // ab 3 Tombstone
    1, 1, 0, 0, 0, 1, 0, 0, 0, 0, 0, 0, 0, 5, 0, 0, 0, 0, 0, 0, 0, b'c',                         // ac 5 Put
    0, 0, 0, 0, 1, 0, 0, 0, 0, 169, 146, 60, 65,                                                 // restarts, type, CRC-32
];

fn build(prefix: u64) -> Result<Vec<u8>, Refused> {
    let entry = |kind, key, offset: usize, len: usize, sequence, new_key| Entry {
        kind,
        key,
        value: &DATA[offset..offset + len],
        sequence,
        new_key,
        offset: offset as u64,
    };
    let mut builder = Builder::default();
    builder.add(&entry(Kind::Put, b"ab", 23, 3, 7, true))?;
    builder.add(&entry(Kind::Tombstone, b"ab", 47, 0, 3, false))?;
    builder.add(&entry(Kind::Put, b"ac", 69, 0, 5, true))?;
    builder.write(prefix)
}

fn show(form: &str, index: &Index, key: &str, limit: u64) -> Result<(), Refused> {
    print!("{form} {key} under {limit}: ");
    match index.lookup(key.as_bytes(), limit)? {
        None => println!("none"),
        Some(version) => {
            let kind = if version.kind == Kind::Put { 'P' } else { 'T' };
            println!("{} {kind} '{}'", version.sequence, String::from_utf8_lossy(version.value));
        }
    }
    Ok(())
}

fn main() -> Result<(), Refused> {
    assert_eq!(kiban::crc32(b"123456789"), 0xCBF4_3926);
    let store = Store { data: &DATA, blocks: &[0, DATA.len() as u64] };

    let mut section = build(1)?;
    println!("section of {} bytes", section.len());
    let plain = Index::open(&section, store, 2)?;
    println!("plain opening: 0, {} keys", plain.keys());
    for limit in [7, 6, 2] {
        show("plain", &plain, "ab", limit)?;
    }

    print!("span: 0,");
    for pair in plain.span(0, 2, NO_LIMIT)? {
        print!(" {pair:?}");
    }
    println!();

    let packed = Index::open_packed(&section, store, 2)?;
    println!("packed opening: 0, {} bytes", packed.bytes().len());
    show("packed", &packed, "ab", 7)?;
    show("packed", &packed, "ac", 4)?;

    section[90] ^= 1;
    if let Err(Refused(number)) = Index::open(&section, store, 2) {
        println!("a changed byte: {number} (CRC-32 of the section)");
    }
    Ok(())
}
