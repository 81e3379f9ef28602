//! Bodies without a box, whose numbers aren't decoded: their ends are counted, 64 bytes at a time.
use crate::bodies::Points;
use crate::kernels::{each_four_end, end_of, ends};

/// Points that are passed. Fewer than 2^14 differences of an axis below 2^48 don't sum up to 2^63.
pub struct Passed {
    left: u64,
}

impl Passed {
    #[inline(always)]
    pub fn new() -> Passed {
        Passed { left: (1 << 14) - 1 }
    }
}

impl<const N: usize> Points<N> for Passed {
    /// Not called, since no number is decoded.
    fn step(&mut self, _: usize, _: i64) -> bool {
        false
    }

    #[inline(always)]
    fn read<'a>(&mut self, rest: &'a [u8], count: u64) -> Option<&'a [u8]> {
        self.left = self.left.checked_sub(count)?;
        pass(rest, N as u64 * count)
    }
}

/// The bytes after a given number of varints, of at most seven bytes each.
#[inline(always)]
pub fn pass(mut rest: &[u8], varints: u64) -> Option<&[u8]> {
    let mut left = varints;
    while left > 0 {
        let ends = ends(rest.first_chunk()?);
        let count = ends.count_ones() as u64;
        if count >= left {
            let end = end_of(left, ends);
            return if each_four_end(ends | !1 << end) { rest.get(end + 1..) } else { None };
        }
        if !each_four_end(ends) {
            return None;
        }
        (rest, left) = (&rest[64..], left - count);
    }
    Some(rest)
}
