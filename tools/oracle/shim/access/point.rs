//! Lends what point.rs keeps private: the hash and its companions, slots, the builder.
use super::{PointBuilder, compact};
use crate::sstable::Kind;
use crate::{caught, caught_plain};

#[inline(never)]
pub fn hash(key: &[u8], seed: u64) -> u64 {
    super::hash(key, seed)
}

#[inline(never)]
pub fn mix(h: u64) -> u64 {
    super::mix(h)
}

#[inline(never)]
pub fn fingerprint(h: u64) -> u16 {
    super::fingerprint(h)
}

pub fn bucket(h: u64, count: usize) -> Result<usize, String> {
    caught_plain(|| super::bucket(h, count))
}

pub fn position(h: u64, pilot: u32, n: usize) -> Result<usize, String> {
    caught_plain(|| super::position(h, pilot, n))
}

/// The slot that a pilot names: `index` with this pilot in its only bucket.
pub fn slot(h: u64, pilot: u32, n: usize) -> Result<usize, String> {
    caught_plain(|| super::index(h, &[pilot], n))
}

/// Seed, pilots, and for each slot the place of its key.
pub fn construct(keys: &[&[u8]]) -> Result<(u64, Vec<u32>, Vec<usize>), String> {
    caught(|| super::construct_with_bucket_size(keys, 2))
}

/// The numbers that a builder counts, in the order of the builder record without its places.
#[derive(Clone, Copy, Debug, Default, PartialEq)]
pub struct Totals {
    pub keys: usize,
    pub versions: usize,
    pub suffix_bytes: usize,
    pub least: u64,
    pub greatest: u64,
    pub longest_key: u32,
    pub longest_value: u32,
    pub most_versions: u32,
    pub last_offset: u64,
}

fn with_totals(totals: &Totals, prefix: usize) -> PointBuilder {
    PointBuilder {
        heads: vec![0; totals.keys],
        suffix_bytes: totals.suffix_bytes,
        versions: totals.versions,
        min_seq: totals.least,
        max_seq: totals.greatest,
        max_key_len: totals.longest_key,
        max_value_len: totals.longest_value,
        max_versions: totals.most_versions,
        last_value_offset: totals.last_offset,
        ..PointBuilder::with_scan_prefix_len(prefix)
    }
}

/// The size of a section by totals alone.
pub fn section_len(totals: &Totals, prefix: usize) -> Result<usize, String> {
    caught_plain(|| with_totals(totals, prefix).approximate_size())
}

pub fn width(max: u64) -> usize {
    compact::access::width(max)
}

pub struct Builder(PointBuilder);

impl Builder {
    pub fn new(prefix: usize) -> Self {
        Builder(PointBuilder::with_scan_prefix_len(prefix))
    }

    /// A builder that holds these bytes, beginnings of keys, CRCs and totals.
    pub fn restored(arena: Vec<u8>, heads: Vec<usize>, checksums: Vec<u32>, totals: &Totals, prefix: usize) -> Self {
        Builder(PointBuilder { arena, heads, checksums, ..with_totals(totals, prefix) })
    }

    /// `add`, then `set_value_offset` on that entry.
    pub fn add(
        &mut self,
        kind: u8,
        key: &[u8],
        value: &[u8],
        sequence: u64,
        new_key: bool,
        offset: u64,
    ) -> Result<(), String> {
        let kind = Kind::from_u8(kind).expect("kind 1 or 2");
        let patch = caught(|| self.0.add(kind, key, value, sequence, new_key))?;
        self.0.set_value_offset(patch, offset);
        Ok(())
    }

    /// `add` of a Put with a new key, with nothing caught, for timing.
    #[inline(never)]
    pub fn add_plain(&mut self, key: &[u8], value: &[u8], sequence: u64, offset: u64) {
        let patch = self.0.add(Kind::Put, key, value, sequence, true).expect("taken");
        self.0.set_value_offset(patch, offset);
    }

    pub fn size(&self) -> Result<usize, String> {
        caught_plain(|| self.0.approximate_size())
    }

    pub fn totals(&self) -> Totals {
        Totals {
            keys: self.0.heads.len(),
            versions: self.0.versions,
            suffix_bytes: self.0.suffix_bytes,
            least: self.0.min_seq,
            greatest: self.0.max_seq,
            longest_key: self.0.max_key_len,
            longest_value: self.0.max_value_len,
            most_versions: self.0.max_versions,
            last_offset: self.0.last_value_offset,
        }
    }

    /// The builder's bytes, where each key begins in them, and each version's CRC-32.
    pub fn area(&self) -> (&[u8], &[usize], &[u32]) {
        (&self.0.arena, &self.0.heads, &self.0.checksums)
    }

    pub fn finish(self) -> Result<Vec<u8>, String> {
        caught(|| self.0.finish())
    }
}
