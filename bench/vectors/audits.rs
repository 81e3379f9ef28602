//! The audit of a layer, and of geometries with a box.
use crate::bodies::{list, parts, Points, Sure};
use crate::fast_audits;
use crate::frames::{Frame, Inside};
use crate::headers::size;
use crate::series::series;
use crate::unboxed::Passed;
use crate::words::{unsigned, word};

/// The answer of a layer.
#[inline(never)]
pub fn check(bytes: &[u8]) -> String {
    let (mut rest, mut blobs, mut vertices) = (bytes, 0, 0);
    while !rest.is_empty() {
        let (after, passed, more) = series(rest);
        if passed > 0 {
            (rest, blobs, vertices) = (after, blobs + passed, vertices + more);
            continue;
        }
        let found = boxed(rest, 1, None).or_else(|| unboxed(rest));
        match found.map_or_else(|| fast_audits::blob(bytes, rest, true), Ok) {
            Ok((after, more)) => (rest, vertices) = (after, vertices + more),
            Err((offset, kind)) => return format!("no blob={blobs} offset={offset} kind={kind}"),
        }
        blobs += 1;
    }
    format!("ok blobs={blobs} vertices={vertices}")
}

/// A geometry of X and Y, or of X, Y, Z and M, with a box of short numbers, if it is well formed, all its claims are
/// true, and its box lies in the one over it.
#[inline(always)]
fn boxed<'a>(rest: &'a [u8], depth: u8, over: Option<&Frame>) -> Sure<'a> {
    let first = word(rest)?;
    let (kind, metadata) = (first as u8 & 15, (first >> 8) as u8);
    if metadata & 0x11 != 1 || kind == 0 || kind > 7 {
        return None;
    }
    if kind == 7 {
        return collection(rest, depth, over);
    }
    if metadata & 8 != 0 {
        return boxed_in_four(rest, kind, over);
    }
    let (size, start) = size(rest, first)?;
    let (frame, body) = Frame::of_two(start, first as u32 >> 4 & 15)?;
    let (stop, vertices) = shape::<2>(body, kind, metadata, frame.under(over)?.points())?;
    after(start, stop, metadata, size, vertices)
}

/// A body of kinds 1 to 6, if all its points lie in the box.
#[inline(always)]
fn shape<'a, const N: usize>(mut rest: &'a [u8], kind: u8, metadata: u8, mut points: Inside) -> Sure<'a>
where
    Inside: Points<N>,
{
    let mut count = 1;
    let found = if kind == 2 {
        (count, rest) = unsigned(rest)?;
        (points.read(rest, count)?, count)
    } else {
        if kind >= 4 {
            (count, rest) = list(rest, metadata & 4 != 0)?;
        }
        parts::<N>(rest, kind, count, &mut points)?
    };
    if points.is_sure() {
        Some(found)
    } else {
        None
    }
}

/// The bytes after a geometry, and the number of its vertices, if it stops where its size says, counted from `start`.
/// With a size, the next geometry is found by it, so that it doesn't wait for the body.
#[inline(always)]
fn after<'a>(start: &'a [u8], stop: &'a [u8], metadata: u8, size: u64, vertices: u64) -> Sure<'a> {
    if metadata & 2 == 0 {
        return Some((stop, vertices));
    }
    if start.len() - stop.len() == size as usize {
        Some((start.get(size as usize..)?, vertices))
    } else {
        None
    }
}

/// A geometry of X and Y that has points and no box.
#[inline(never)]
fn unboxed(rest: &[u8]) -> Sure<'_> {
    let first = word(rest)?;
    let (kind, metadata) = (first as u8 & 15, (first >> 8) as u8);
    if metadata & 0x19 != 0 || kind == 0 || kind >= 7 {
        return None;
    }
    let (size, start) = size(rest, first)?;
    let (count, body) = if kind >= 4 { list(start, metadata & 4 != 0)? } else { (1, start) };
    let (stop, vertices) = parts::<2>(body, kind, count, &mut Passed::new())?;
    after(start, stop, metadata, size, vertices)
}

/// A geometry with a box in X, Y, Z and M.
#[inline(never)]
fn boxed_in_four<'a>(rest: &'a [u8], kind: u8, over: Option<&Frame>) -> Sure<'a> {
    let first = word(rest)?;
    let (metadata, extended) = ((first >> 8) as u8, (first >> 16) as u8);
    if extended & 3 != 3 {
        return None;
    }
    let (size, start) = if metadata & 2 != 0 { unsigned(&rest[3..])? } else { (0, &rest[3..]) };
    let precisions = first as u32 >> 4 & 15 | (extended as u32) << 8;
    let (frame, body) = Frame::of_four(start, precisions)?;
    let (stop, vertices) = shape::<4>(body, kind, metadata, frame.under(over)?.points())?;
    after(start, stop, metadata, size, vertices)
}

/// A collection of X and Y with a box. Each of its members must have a box too.
#[inline(never)]
fn collection<'a>(rest: &'a [u8], depth: u8, over: Option<&Frame>) -> Sure<'a> {
    let first = word(rest)?;
    let metadata = (first >> 8) as u8;
    if metadata & 8 != 0 || depth >= 64 {
        return None;
    }
    let (size, start) = size(rest, first)?;
    let (frame, body) = Frame::of_two(start, first as u32 >> 4 & 15)?;
    let frame = frame.under(over)?;
    if !frame.is_sure() {
        return None;
    }
    let (mut left, mut stop) = list(body, metadata & 4 != 0)?;
    let mut vertices = 0;
    while left > 0 {
        let (after, more) = boxed(stop, depth + 1, Some(&frame))?;
        (stop, vertices, left) = (after, vertices + more, left - 1);
    }
    after(start, stop, metadata, size, vertices)
}
