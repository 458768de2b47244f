//! From the Rust's error messages to document 01's numbers.

/// Beginnings of the messages, each with its number. A longer beginning stands before a shorter one.
const NUMBERS: &[(&str, u64)] = &[
    ("unknown point index block type", 1),
    ("point index block checksum mismatch", 2),
    ("point index: unsupported compact header", 3),
    ("point index: invalid compact dimensions", 4),
    ("point index: scan bounds", 5),
    ("point index: unsupported scan dimensions", 5),
    ("point index: unsupported scan extractor or stride", 6),
    ("point index: unsupported locator admission", 7),
    ("point index: compact singleton slot out of bounds", 10),
    ("point index: invalid compact backing bounds", 11),
    ("data block entry at", 13),
    ("data block:", 12),
    ("point backing block: invalid shared key length", 13),
    ("point index: compact backing key/value limit", 14),
    ("point index: truncated compact key header", 16),
    ("point index: compact anchor has a prefix", 16),
    ("point index: invalid compact key dimensions", 16),
    ("point index: truncated compact versions", 16),
    ("point index: compact key ordering", 17),
    ("point index: scan locator disagrees", 18),
    ("point index: compact slot does not identify", 19),
    ("point index: compact locator disagrees", 20),
    ("point index: value checksum disagrees", 21),
    ("point index: compact and sorted coverage differ", 22),
    ("point index: scan prefix coverage differs", 23),
    ("key or value exceeds Kiban's size limit", 30),
    ("scan prefix length exceeds 24", 35),
    ("point index key count", 36),
    ("point index construction exhausted seed retries", 40),
];

/// What no number of document 01 stands for: a panic, or an error that must not occur.
pub const NO_NUMBER: u64 = u64::MAX;

pub fn number(message: &str) -> u64 {
    let text = message.trim_start_matches("sstable corrupt: ").trim_start_matches("sstable invalid argument: ");
    let known = NUMBERS.iter().find(|(beginning, _)| text.starts_with(beginning));
    known.map_or(NO_NUMBER, |&(_, number)| number)
}
