//! Sizes of geometries.
use crate::words::unsigned;

/// The size of a geometry without an extended byte, or 0 if it has none, and the bytes after it. `first` is the word
/// that the geometry begins with.
#[inline(always)]
pub fn size(rest: &[u8], first: u64) -> Option<(u64, &[u8])> {
    if first & 0x0200 == 0 {
        Some((0, &rest[2..]))
    } else if first & 0x80_0000 == 0 {
        Some((first >> 16 & 127, &rest[3..]))
    } else if first & 0x8000_0000 == 0 {
        Some((first >> 16 & 127 | first >> 17 & 0x3f80, &rest[4..]))
    } else {
        unsigned(&rest[2..])
    }
}
