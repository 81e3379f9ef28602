//! Windows in lanes, and whether points lie in them.
use crate::fast_scans::Window;
use crate::lanes::Lanes;
use crate::runs::Places;

/// A window in raw integers, its lanes in the order of a `Frame`. What is compared with it is at most 2^28, so its ends
/// may be moved inside of 2^30.
#[derive(Clone, Copy)]
pub struct Near {
    low: Lanes,
    high: Lanes,
}

impl Near {
    /// This window in X, Y, Z and M: any Z and M are inside.
    #[inline(always)]
    pub fn with_z_and_m(self) -> Near {
        let (low, high) = (Lanes::all_32(i32::MIN), Lanes::all_32(i32::MAX));
        Near { low: self.low.first_halves(low), high: self.high.first_halves(high) }
    }

    /// All bits of a lane where nothing from the least to the greatest number is inside, else none.
    #[inline(always)]
    fn missing(&self, least: Lanes, greatest: Lanes) -> Lanes {
        self.low.greater_32(greatest).or(least.greater_32(self.high))
    }

    /// Whether a range misses the window, in any lane.
    #[inline(always)]
    pub fn misses(&self, least: Lanes, greatest: Lanes) -> bool {
        self.missing(least, greatest).signs() != 0
    }
}

/// The window by the precision that a type byte has.
pub struct Nears([Near; 16]);

impl Nears {
    pub fn new(window: &Window) -> Nears {
        let near = |end: i64| end.clamp(-(1 << 30), 1 << 30) as i32;
        let lanes = |[x, y]: [i64; 2]| Lanes::of_32([near(x), near(y), near(x), near(y)]);
        Nears(window.raw.map(|raw| Near { low: lanes(raw.low), high: lanes(raw.high) }))
    }

    /// The window for a geometry that begins with this word.
    #[inline(always)]
    pub fn of(&self, first: u64) -> Near {
        self.0[(first >> 4 & 15) as usize]
    }
}

/// Points of `N` axes, of which one is looked for that lies in a window. They lie in a box that is true and was read
/// into lanes of 32 bits, so none wraps.
#[derive(Clone, Copy)]
pub struct Sought<const N: usize> {
    near: Near,
    last: Lanes,
    /// All bits of the lanes of a point, while none was inside.
    missed: Lanes,
}

impl<const N: usize> Sought<N> {
    #[inline(always)]
    pub fn new(near: Near) -> Sought<N> {
        Sought { near, last: Lanes::zero(), missed: Lanes::all_32(-1) }
    }

    #[inline(always)]
    pub fn is_found(&self) -> bool {
        self.missed.signs() != 15
    }
}

impl<const N: usize> Places for Sought<N> {
    #[inline(always)]
    fn last(&self) -> Lanes {
        self.last
    }

    #[inline(always)]
    fn show(&mut self, points: Lanes) {
        let axes = self.near.missing(points, points);
        let mut missed = axes.or(axes.at_32::<0b10_11_00_01>());
        if N == 4 {
            missed = missed.or(missed.at_32::<0b01_00_11_10>());
        }
        self.missed = self.missed.and(missed);
    }

    #[inline(always)]
    fn go_on(&mut self, last: Lanes) {
        self.last = last;
    }

    #[inline(always)]
    fn is_enough(&self) -> bool {
        self.is_found()
    }
}
