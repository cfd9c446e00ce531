//! The proved replay, as a host in Rust calls it.
use parnusild::Answer;

#[inline(never)]
pub fn replay(bytes: &[u8], numbers: &mut [u32]) -> Answer {
    parnusild::replay(bytes, numbers)
}
