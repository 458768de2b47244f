//! The published source has no pclmul file: long inputs take the scalar path.
/// # Safety
/// None is needed; the caller's text says `unsafe`.
pub unsafe fn update(state: u32, data: &[u8]) -> u32 {
    super::update_scalar(state, data)
}
