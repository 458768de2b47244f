//! sstable/mod.rs re-exports these names. The published items that are used follow.
use super::{Kind, SstError};
use crate::crc32;

pub struct Iter;
pub struct SstTable;
