//! Lends what crc32.rs keeps private.
#[inline(never)]
pub fn update_scalar(state: u32, data: &[u8]) -> u32 {
    super::update_scalar(state, data)
}

pub fn slices() -> &'static [[u32; 256]; 8] {
    &super::SLICES
}
