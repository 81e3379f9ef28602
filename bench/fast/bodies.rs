//! Bodies of kinds 1 to 6, and lists of ids.
use crate::words::{pair, skip, unsigned, unzigzag};

/// What is done with a body's points of `N` axes. `step` says whether a difference may be.
pub trait Points<const N: usize> {
    fn step(&mut self, axis: usize, difference: i64) -> bool;

    #[inline(always)]
    fn read<'a>(&mut self, mut rest: &'a [u8], count: u64) -> Option<&'a [u8]> {
        let mut point = 0;
        while point < count {
            let (x, y, after) = pair(rest)?;
            let mut sure = self.step(0, x) && self.step(1, y);
            rest = after;
            if N == 4 {
                let (z, m, after) = pair(rest)?;
                sure = sure && self.step(2, z) && self.step(3, m);
                rest = after;
            } else if N == 3 {
                let (z, after) = unsigned(rest)?;
                sure = sure && self.step(2, unzigzag(z));
                rest = after;
            }
            if !sure {
                return None;
            }
            point += 1;
        }
        Some(rest)
    }
}

/// Under a box: distances from the lower ends, where one comparison says that a coordinate is in the box. Ends, extents
/// and differences are below 2^56, so no distance wraps unseen and no coordinate leaves 64 bits.
pub struct Boxed<const N: usize> {
    pub at: [i64; N],
    pub extent: [i64; N],
}

impl<const N: usize> Points<N> for Boxed<N> {
    #[inline(always)]
    fn step(&mut self, axis: usize, difference: i64) -> bool {
        self.at[axis] = self.at[axis].wrapping_add(difference);
        self.at[axis] as u64 <= self.extent[axis] as u64
    }
}

/// Under no box: not decoded. Fewer than 2^14 differences of an axis below 2^48, and eight below 2^55, don't sum up to
/// 2^63.
pub struct Skipped {
    left: u64,
}

const FEW: u64 = (1 << 14) - 1;

impl Skipped {
    #[inline(always)]
    pub fn new() -> Skipped {
        Skipped { left: FEW }
    }
}

impl<const N: usize> Points<N> for Skipped {
    fn step(&mut self, _: usize, _: i64) -> bool {
        false
    }

    #[inline(always)]
    fn read<'a>(&mut self, rest: &'a [u8], count: u64) -> Option<&'a [u8]> {
        let first = self.left == FEW;
        self.left = self.left.checked_sub(count)?;
        skip(rest, count * N as u64, first)
    }
}

/// Under no box: summed, since there are too many or too great differences for `Skipped`, and sums might leave 64 bits.
pub struct Summed<const N: usize> {
    pub at: [i64; N],
}

impl<const N: usize> Points<N> for Summed<N> {
    #[inline(always)]
    fn step(&mut self, axis: usize, difference: i64) -> bool {
        let (sum, left) = self.at[axis].overflowing_add(difference);
        self.at[axis] = sum;
        !left
    }
}

/// The bytes after a geometry or its body, and the number of its vertices.
pub type Sure<'a> = Option<(&'a [u8], u64)>;

/// The `count` parts of a body of kinds 1 to 6.
#[inline(always)]
pub fn parts<'a, const N: usize>(mut rest: &'a [u8], kind: u8, count: u64, points: &mut impl Points<N>) -> Sure<'a> {
    if kind == 1 || kind == 4 {
        return Some((points.read(rest, count)?, count));
    }
    let (mut vertices, mut part) = (0, 0);
    while part < count {
        let mut rings = 1;
        if kind == 3 || kind == 6 {
            (rings, rest) = unsigned(rest)?;
        }
        while rings > 0 {
            let (more, after) = unsigned(rest)?;
            rest = points.read(after, more)?;
            vertices += more;
            rings -= 1;
        }
        part += 1;
    }
    Some((rest, vertices))
}

/// The count of a list, and the bytes after its ids, if they differ. Ids that rise need no memory and no sorting.
#[inline(always)]
pub fn list(rest: &[u8], has_ids: bool) -> Option<(u64, &[u8])> {
    let (count, start) = unsigned(rest)?;
    let (mut rest, mut rise, mut before, mut place) = (start, true, i64::MIN, 0);
    while has_ids && place < count {
        let (id, after) = unsigned(rest)?;
        rise &= before < unzigzag(id);
        (before, rest) = (unzigzag(id), after);
        place += 1;
    }
    if rise || differ(start, count) {
        Some((count, rest))
    } else {
        None
    }
}

#[inline(never)]
fn differ(mut rest: &[u8], count: u64) -> bool {
    let mut ids = Vec::with_capacity(count as usize);
    for _ in 0..count {
        let Some((id, after)) = unsigned(rest) else { return false };
        ids.push(id);
        rest = after;
    }
    ids.sort_unstable();
    ids.windows(2).all(|two| two[0] != two[1])
}
