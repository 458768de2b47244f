//! Lends what compact.rs keeps private: both openings, lookup, spans.
use super::{CompactIndex, Encoding};
use crate::cache::{ArcBlock, ResidentReservation};
use crate::{caught, caught_plain};
use std::borrow::Cow;
use std::convert::Infallible;
use std::sync::Arc;

pub fn width(max: u64) -> usize {
    super::width(max)
}

/// Seed, least sequence, n, b, arena, the widths of address, key, count, sequence and value,
/// checksums, place of the scan part, packed.
pub type Record = [u64; 13];

#[derive(Clone, Copy, Debug, PartialEq)]
pub struct Located {
    pub kind: u8,
    pub sequence: u64,
    pub offset: u64,
    pub length: u64,
    pub checksum: u32,
}

pub struct Index(CompactIndex);

/// Plain opening.
pub fn open(section: &[u8], data: &[u8], list: &[(u64, u64)]) -> Result<Index, String> {
    open_shared(section.into(), data.into(), list)
}

/// Plain opening of bytes that are shared already, for timing.
pub fn open_shared(section: ArcBlock, data: ArcBlock, list: &[(u64, u64)]) -> Result<Index, String> {
    let pairs = list.iter().copied();
    caught(|| CompactIndex::decode(section, data, ResidentReservation, pairs)).map(Index)
}

/// Packed opening; `None` where a pilot is too large.
pub fn open_packed(section: &[u8], data: &[u8], list: &[(u64, u64)]) -> Result<Option<Index>, String> {
    open_packed_shared(section.into(), data, list)
}

/// Packed opening of a section that is shared already, for timing.
pub fn open_packed_shared(section: ArcBlock, data: &[u8], list: &[(u64, u64)]) -> Result<Option<Index>, String> {
    let pairs = list.iter().copied();
    let read = |offset, length| Ok(Cow::Borrowed(&data[offset..offset + length]));
    let opened = caught(|| CompactIndex::decode_locators(section, data.len(), ResidentReservation, pairs, read))?;
    Ok(opened.map(Index))
}

/// The header's record, with nothing asked of pilots, arena and blocks.
pub fn header(section: &[u8]) -> Result<Record, String> {
    let index = caught(|| CompactIndex::header(section.into(), Arc::from([]), ResidentReservation))?;
    Ok(Index(index).record())
}

/// An index of these bytes and numbers, with nothing asked.
pub fn forged(section: &[u8], data: &[u8], record: &Record) -> Index {
    let number = |place: usize| record[place] as usize;
    Index(CompactIndex {
        bytes: section.into(),
        data: data.into(),
        blocks: Vec::new(),
        seed: record[0],
        min_seq: record[1],
        count: number(2),
        buckets: number(3),
        arena: number(4),
        encoding: Encoding {
            address: number(5),
            key: number(6),
            count: number(7),
            seq: number(8),
            value: number(9),
            checksum: record[10] != 0,
        },
        scan: number(11),
        packed: record[12] != 0,
        _reservation: ResidentReservation,
    })
}

impl Index {
    pub fn record(&self) -> Record {
        let (x, e) = (&self.0, self.0.encoding);
        let flags = [u64::from(e.checksum), x.scan as u64, u64::from(x.packed)];
        let sizes = [x.count, x.buckets, x.arena, e.address, e.key, e.count, e.seq, e.value];
        let mut record = [0; 13];
        record[..2].copy_from_slice(&[x.seed, x.min_seq]);
        record[2..10].copy_from_slice(&sizes.map(|size| size as u64));
        record[10..].copy_from_slice(&flags);
        record
    }

    /// The section, or the packed bytes.
    pub fn bytes(&self) -> &[u8] {
        &self.0.bytes
    }

    /// Offset, length, entries_end, restart_start, num_restarts of each block; none when packed.
    pub fn blocks(&self) -> Vec<[usize; 5]> {
        let blocks = self.0.blocks.iter();
        blocks.map(|&(offset, len, m)| [offset, len, m.entries_end, m.restart_start, m.num_restarts]).collect()
    }

    /// The greatest sequence is no limit.
    pub fn locate(&self, key: &[u8], limit: u64) -> Result<Option<Located>, String> {
        caught_plain(|| self.locate_plain(key, limit))
    }

    /// `locate` with nothing caught, for timing.
    #[inline(never)]
    pub fn locate_plain(&self, key: &[u8], limit: u64) -> Option<Located> {
        self.0.locate(key, Some(limit)).map(|v| Located {
            kind: v.kind.to_u8(),
            sequence: v.seq,
            offset: v.offset as u64,
            length: v.len as u64,
            checksum: v.checksum,
        })
    }

    /// Prefix length, keys, prefixes, where spans can be asked.
    pub fn scan_config(&self) -> Option<(usize, usize, usize)> {
        self.0.scan_config()
    }

    /// The pairs of offset and length of `count` keys from the key at place `first`.
    pub fn span(&self, first: usize, count: usize, limit: u64) -> Result<Vec<(u64, u64)>, String> {
        let mut pairs = Vec::new();
        caught_plain(|| self.span_plain(first, count, limit, &mut pairs))?;
        Ok(pairs)
    }

    /// `span` with nothing caught, for timing.
    #[inline(never)]
    pub fn span_plain(&self, first: usize, count: usize, limit: u64, pairs: &mut Vec<(u64, u64)>) {
        let start = self.0.data.as_ptr() as u64;
        let mut map = |value: &[u8]| Ok::<_, Infallible>((value.as_ptr() as u64 - start, value.len() as u64));
        let Ok(()) = self.0.scan_values(self.0.scan_offset(first), count, limit, &mut map, pairs);
    }
}
