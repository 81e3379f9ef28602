//! Boxes in lanes, and whether points lie in them.
use crate::kernels::{ahead, four};
use crate::lanes::Lanes;
use crate::runs::Places;

/// A box in X and Y, in lanes X, Y, X, Y, or in X, Y, Z and M, in raw integers below 2^27, and the precisions and axes
/// that they are meant at.
pub struct Frame {
    pub low: Lanes,
    pub extent: Lanes,
    pub precisions: u32,
    /// No lane is negative, if all extents are at least zero, and the box lies in the one over it.
    outside: Lanes,
}

impl Frame {
    /// The box of X and Y that the bytes begin with, and the bytes after it.
    #[inline(always)]
    pub fn of_two(rest: &[u8], precisions: u32) -> Option<(Frame, &[u8])> {
        let (numbers, length) = four(ahead(rest)?)?;
        let (low, extent) = (numbers.at_32::<0b10_00_10_00>(), numbers.at_32::<0b11_01_11_01>());
        Some((Frame { low, extent, precisions, outside: extent }, &rest[length..]))
    }

    /// The box of X, Y, Z and M that the bytes begin with, and the bytes after it.
    #[inline(always)]
    pub fn of_four(rest: &[u8], precisions: u32) -> Option<(Frame, &[u8])> {
        let (these, length) = four(ahead(rest)?)?;
        let rest = &rest[length..];
        let (those, length) = four(ahead(rest)?)?;
        let low = these.at_32_of_both::<0b10_00_10_00>(those);
        let extent = these.at_32_of_both::<0b11_01_11_01>(those);
        Some((Frame { low, extent, precisions, outside: extent }, &rest[length..]))
    }

    /// The frame, if it has the precisions and axes of the one over it. Whether it lies there, `is_sure` says.
    #[inline(always)]
    pub fn under(mut self, over: Option<&Frame>) -> Option<Frame> {
        if let Some(over) = over {
            if over.precisions != self.precisions {
                return None;
            }
            let low = self.low.minus_32(over.low);
            let above = over.extent.minus_32(low.plus_32(self.extent));
            self.outside = self.outside.or(low.or(above));
        }
        Some(self)
    }

    /// Whether its extents are at least zero, and it lies in the box over it.
    #[inline(always)]
    pub fn is_sure(&self) -> bool {
        self.outside.signs() == 0
    }

    /// The greatest numbers that lie in it.
    #[inline(always)]
    pub fn high(&self) -> Lanes {
        self.low.plus_32(self.extent)
    }

    /// No point yet.
    #[inline(always)]
    pub fn points(&self) -> Inside {
        Inside { at: Lanes::zero().minus_32(self.low), extent: self.extent, outside: self.outside }
    }
}

/// Points in a box, as distances from its lower ends. A distance is negative where a point lies below the box, and so
/// is the extent less the distance where it lies above it. All numbers are below 2^27, so the first point outside is
/// seen before anything wraps.
#[derive(Clone, Copy)]
pub struct Inside {
    at: Lanes,
    extent: Lanes,
    outside: Lanes,
}

impl Inside {
    /// Whether all points lie in the box, and the box as it should.
    #[inline(always)]
    pub fn is_sure(&self) -> bool {
        self.outside.signs() == 0
    }
}

impl Places for Inside {
    #[inline(always)]
    fn last(&self) -> Lanes {
        self.at
    }

    #[inline(always)]
    fn show(&mut self, points: Lanes) {
        self.outside = self.outside.or(points.or(self.extent.minus_32(points)));
    }

    #[inline(always)]
    fn go_on(&mut self, last: Lanes) {
        self.at = last;
    }
}
