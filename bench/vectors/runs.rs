//! Runs of points, several at a time.
use crate::bodies::Points;
use crate::kernels::{ahead, eight, four, pairs, two, Ahead};
use crate::lanes::Lanes;
use crate::unboxed::pass;

/// What is done with points, in lanes of 32 bits: two points of X and Y, or one of X, Y, Z and M.
pub trait Places: Copy {
    /// The last point; of two axes twice.
    fn last(&self) -> Lanes;
    fn show(&mut self, points: Lanes);
    /// The next differences are from this point.
    fn go_on(&mut self, last: Lanes);

    /// Whether the points that are left needn't be shown.
    #[inline(always)]
    fn is_enough(&self) -> bool {
        false
    }
}

impl<P: Places> Points<2> for P {
    /// Not called, since points are read several at a time.
    fn step(&mut self, _: usize, _: i64) -> bool {
        false
    }

    #[inline(always)]
    fn read<'a>(&mut self, rest: &'a [u8], count: u64) -> Option<&'a [u8]> {
        run_of_two(rest, count, self)
    }
}

impl<P: Places> Points<4> for P {
    /// Not called either.
    fn step(&mut self, _: usize, _: i64) -> bool {
        false
    }

    #[inline(always)]
    fn read<'a>(&mut self, rest: &'a [u8], count: u64) -> Option<&'a [u8]> {
        run_of_four(rest, count, self)
    }
}

/// The bytes after `count` points of X and Y, if their numbers take at most four bytes each. They are read four at a
/// time where their numbers take at most two, else two at a time. The first is a place and no difference, and mostly
/// longer.
#[inline(always)]
fn run_of_two<'a>(mut rest: &'a [u8], count: u64, points: &mut impl Places) -> Option<&'a [u8]> {
    let mut left = count;
    if left > 0 {
        (rest, left) = two_points(rest, left, points)?;
    }
    while left > 0 {
        if points.is_enough() {
            return pass(rest, 2 * left);
        }
        let Some(ahead) = ahead(rest) else {
            (rest, *points) = run_at_end(rest, left, *points)?;
            return Some(rest);
        };
        let read = if left >= 4 { eight(ahead) } else { pairs(ahead, left as usize) };
        if let Some((differences, length)) = read {
            four_points(differences, points);
            (rest, left) = (&rest[length..], left.saturating_sub(4));
        } else {
            (rest, left) = two_points(rest, left, points)?;
        }
    }
    Some(rest)
}

/// A run of fewer bytes than a kernel looks at: a copy of them is read, with bytes after it that end no varint.
#[cold]
#[inline(never)]
fn run_at_end<P: Places>(rest: &[u8], count: u64, mut points: P) -> Option<(&[u8], P)> {
    let mut bytes = [255; 2 * size_of::<Ahead>()];
    bytes[..rest.len()].copy_from_slice(rest);
    let after = run_of_two(&bytes, count, &mut points)?.len();
    Some((rest.get(bytes.len() - after..)?, points))
}

/// One or two points of X and Y: the bytes after them, and how many points are left.
#[inline(always)]
fn two_points<'a>(rest: &'a [u8], left: u64, points: &mut impl Places) -> Option<(&'a [u8], u64)> {
    let ahead = ahead(rest)?;
    let (numbers, length) = if left == 1 { two(ahead) } else { four(ahead) }?;
    let shown = numbers.plus_32(numbers.moved::<8>()).plus_32(points.last());
    points.show(shown);
    points.go_on(shown.at_32::<0b11_10_11_10>());
    Some((&rest[length..], left.saturating_sub(2)))
}

/// Four points of X and Y, of differences in 16 bits, of which the sum of four fits into 16 bits too.
#[inline(always)]
fn four_points(differences: Lanes, points: &mut impl Places) {
    let sums = differences.plus_16(differences.moved::<4>());
    let sums = sums.plus_16(sums.moved::<8>());
    let (first, last) = (sums.widened().plus_32(points.last()), sums.widened_last().plus_32(points.last()));
    points.show(first);
    points.show(last);
    points.go_on(last.at_32::<0b11_10_11_10>());
}

/// The bytes after `count` points of X, Y, Z and M, if their numbers take at most four bytes each: two at a time where
/// they take at most two, else one.
#[inline(always)]
fn run_of_four<'a>(mut rest: &'a [u8], count: u64, points: &mut impl Places) -> Option<&'a [u8]> {
    let mut left = count;
    while left > 0 {
        if points.is_enough() {
            return pass(rest, 4 * left);
        }
        let ahead = ahead(rest)?;
        let read = if left >= 2 { eight(ahead) } else { None };
        if let Some((differences, length)) = read {
            let first = differences.widened().plus_32(points.last());
            let second = differences.widened_last().plus_32(first);
            points.show(first);
            points.show(second);
            points.go_on(second);
            (rest, left) = (&rest[length..], left - 2);
        } else {
            let (differences, length) = four(ahead)?;
            let point = differences.plus_32(points.last());
            points.show(point);
            points.go_on(point);
            (rest, left) = (&rest[length..], left - 1);
        }
    }
    Some(rest)
}
