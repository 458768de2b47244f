//! Lends what block.rs keeps private: building, verify, a header, the walk.
use super::{BlockBuilder, VerifiedBlock, header_at, visit_records};
use crate::cache::BlockMeta;
use crate::sstable::{Kind, SstError};
use crate::{caught, sstable};

/// entries_end, restart_start, num_restarts.
pub type Meta = [usize; 3];

pub struct Record {
    pub kind: u8,
    pub sequence: u64,
    pub key: Vec<u8>,
    pub place: usize,
    pub length: usize,
}

pub struct Header {
    pub kind: u8,
    pub sequence: u64,
    pub shared: usize,
    pub suffix: usize,
    pub length: usize,
}

fn meta(m: Meta) -> BlockMeta {
    BlockMeta { entries_end: m[0], restart_start: m[1], num_restarts: m[2] }
}

pub fn verify(raw: &[u8]) -> Result<Meta, String> {
    caught(|| VerifiedBlock::verify(raw)).map(|m| [m.entries_end, m.restart_start, m.num_restarts])
}

/// `verify` as called from Rust, with nothing caught, for timing.
#[inline(never)]
pub fn verify_plain(raw: &[u8]) -> Result<BlockMeta, SstError> {
    VerifiedBlock::verify(raw)
}

pub fn header(raw: &[u8], m: Meta, pos: usize) -> Result<Header, String> {
    let (kind, sequence, shared, suffix, length) = caught(|| header_at(raw, &meta(m), pos))?;
    Ok(Header { kind: kind.to_u8(), sequence, shared, suffix, length })
}

/// The records that the walk met, and how it ended.
pub fn walk(raw: &[u8], m: Meta) -> (Vec<Record>, Result<(), String>) {
    let mut records = Vec::new();
    let end = caught(|| {
        visit_records(raw, &meta(m), &mut Vec::new(), |kind, sequence, key, place, length| {
            records.push(Record { kind: kind.to_u8(), sequence, key: key.to_vec(), place, length });
            Ok(())
        })
    });
    (records, end)
}

pub fn trailer(section: &[u8]) -> Result<(), String> {
    caught(|| sstable::reader::verify_trailer(section, "point index"))
}

#[derive(Default)]
pub struct Builder(BlockBuilder);

impl Builder {
    /// The value's place in the block.
    pub fn add(&mut self, kind: u8, key: &[u8], value: &[u8], sequence: u64) -> usize {
        let kind = Kind::from_u8(kind).expect("kind 1 or 2");
        self.0.add(kind, key, value, sequence)
    }

    pub fn finish(self) -> Vec<u8> {
        self.0.finish()
    }
}
