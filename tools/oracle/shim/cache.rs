//! The types of the cache that the point index names, without the cache.
pub type ArcBlock = std::sync::Arc<[u8]>;

#[derive(Debug, Clone, Copy)]
pub struct BlockMeta {
    pub entries_end: usize,
    pub restart_start: usize,
    pub num_restarts: usize,
}

#[derive(Debug, Clone)]
pub struct CachedBlock {
    pub data: ArcBlock,
    pub meta: BlockMeta,
}

/// Charges nothing: no answer depends on a reservation.
pub(crate) struct ResidentReservation;
