//! sstable/mod.rs re-exports this name; the file itself is not published.
pub struct TableBuilder;
