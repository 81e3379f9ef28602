//! The quick audit, and the check of a whole layer.
use crate::bodies::{list, parts, Boxed, Skipped, Summed, Sure};
use crate::plain::{plain, Reader, Refusal};
use crate::words::{mixed_pair, unsigned, word, TOPS};

/// The answer of a layer. Where nothing is judged, each blob is read by the plain pass.
#[inline(never)]
pub fn check(bytes: &[u8], judge: bool) -> String {
    let (mut rest, mut blobs, mut vertices) = (bytes, 0, 0);
    while !rest.is_empty() {
        match blob(bytes, rest, judge) {
            Ok((after, more)) => (rest, vertices) = (after, vertices + more),
            Err((offset, kind)) => return format!("no blob={blobs} offset={offset} kind={kind}"),
        }
        blobs += 1;
    }
    format!("ok blobs={blobs} vertices={vertices}")
}

/// The bytes after the first blob of `rest`, and the number of its vertices.
#[inline(always)]
pub fn blob<'a>(bytes: &'a [u8], rest: &'a [u8], judge: bool) -> Result<(&'a [u8], u64), Refusal> {
    if let (true, Some(found)) = (judge, quick(rest, 1, None)) {
        return Ok(found);
    }
    let mut reader = Reader { bytes, place: bytes.len() - rest.len() };
    let found = plain(&mut reader, 1, judge, &mut |_, _| ())?;
    found.refused.map_or(Ok((&bytes[reader.place..], found.vertices)), Err)
}

/// A collection's box in raw integers, and the precisions and axes that they are meant at.
struct Over {
    frame: u32,
    low: [i64; 4],
    extent: [i64; 4],
}

/// Whether a range lies in the box over it, so that what lies in the range does.
#[inline(always)]
fn lies(low: i64, extent: i64, over: Option<&Over>, axis: usize) -> bool {
    let within = |over: &Over| low >= over.low[axis] && low - over.low[axis] + extent <= over.extent[axis];
    extent >= 0 && over.is_none_or(within)
}

/// A geometry, if it is well formed, all its claims are true, and all its vertices lie in the box over it.
#[inline(always)]
fn quick<'a>(rest: &'a [u8], depth: u8, over: Option<&Over>) -> Sure<'a> {
    let first = word(rest)?;
    if over.is_none() && first & 0x1f0f == 0x0201 {
        // A point with a size alone: its second end must be where the size says, and the next blob doesn't wait for it.
        let size = (first >> 16) as u8 as usize;
        let body = &rest[3..];
        let ends = !word(body)? & TOPS;
        let second = ends & ends.wrapping_sub(1);
        if ends as u32 != 0 && size.wrapping_sub(1) < 8 && second << (64 - 8 * size as u32 & 63) == 1 << 63 {
            return Some((&body[size..], 1));
        }
    }
    let (kind, metadata) = (first as u8 & 15, (first >> 8) as u8);
    let (mut frame, mut axes, mut rest) = (first as u32 >> 4 & 15, 2, &rest[2..]);
    if kind == 0 || kind > 7 {
        return None;
    }
    if metadata & 8 != 0 {
        let extended = (first >> 16) as u8;
        axes += (extended & 1) + (extended >> 1 & 1);
        frame |= (extended as u32) << 8;
        rest = &rest[1..];
    }
    let mut after = rest;
    if metadata & 2 != 0 {
        let size;
        (size, rest) = unsigned(rest)?;
        after = rest.get(size as usize..)?;
    }
    let (stop, vertices) = match (metadata & 16 != 0 || kind == 7, axes) {
        (true, _) => collection(rest, kind, metadata, frame, axes, depth, over),
        (_, 2) => shape::<2>(rest, kind, metadata, frame, over),
        (_, 3) => called_shape::<3>(rest, kind, metadata, frame, over),
        _ => called_shape::<4>(rest, kind, metadata, frame, over),
    }?;
    if metadata & 2 == 0 {
        return Some((stop, vertices));
    }
    // What comes next is found by the size, so that it doesn't wait for the body.
    if stop.len() == after.len() {
        Some((after, vertices))
    } else {
        None
    }
}

/// A geometry of kinds 1 to 6 that isn't empty, from its box on.
#[inline(always)]
fn shape<'a, const N: usize>(mut rest: &'a [u8], kind: u8, metadata: u8, frame: u32, over: Option<&Over>) -> Sure<'a> {
    let mut count = 1;
    if metadata & 1 == 0 && over.is_none() {
        if kind >= 4 {
            (count, rest) = list(rest, metadata & 4 != 0)?;
        }
        let skipped = parts::<N>(rest, kind, count, &mut Skipped::new());
        return if skipped.is_some() { skipped } else { summed::<N>(rest, kind, count) };
    }
    let mut boxed = Boxed { at: [0; N], extent: [0; N] };
    for axis in 0..N {
        let (low, extent);
        if metadata & 1 != 0 {
            (low, extent, rest) = mixed_pair(rest)?;
        } else {
            (low, extent) = (over?.low[axis], over?.extent[axis]);
        }
        if !lies(low, extent, over, axis) {
            return None;
        }
        (boxed.at[axis], boxed.extent[axis]) = (-low, extent);
    }
    if over.is_some_and(|over| over.frame != frame) {
        return None;
    }
    if kind >= 4 {
        (count, rest) = list(rest, metadata & 4 != 0)?;
    }
    parts(rest, kind, count, &mut boxed)
}

#[inline(never)]
fn called_shape<'a, const N: usize>(
    rest: &'a [u8],
    kind: u8,
    metadata: u8,
    frame: u32,
    over: Option<&Over>,
) -> Sure<'a> {
    shape::<N>(rest, kind, metadata, frame, over)
}

/// A body under no box, with too many or too great differences for `Skipped`.
#[inline(never)]
fn summed<const N: usize>(rest: &[u8], kind: u8, count: u64) -> Sure<'_> {
    parts(rest, kind, count, &mut Summed { at: [0; N] })
}

/// A collection, or an empty geometry, from its box on. Its box must lie in the one over it; then only its own counts.
#[inline(never)]
fn collection<'a>(
    mut rest: &'a [u8],
    kind: u8,
    metadata: u8,
    frame: u32,
    axes: u8,
    depth: u8,
    over: Option<&Over>,
) -> Sure<'a> {
    let mut own = Over { frame, low: [0; 4], extent: [0; 4] };
    let mut sure = kind < 7 || depth < 64;
    if metadata & 1 != 0 {
        sure &= over.is_none_or(|over| over.frame == frame);
        for axis in 0..axes as usize & 7 {
            (own.low[axis], own.extent[axis], rest) = mixed_pair(rest)?;
            sure &= metadata & 16 != 0 || lies(own.low[axis], own.extent[axis], over, axis);
        }
    }
    if !sure || metadata & 16 != 0 {
        return if sure { Some((rest, 0)) } else { None };
    }
    let over = if metadata & 1 != 0 { Some(&own) } else { over };
    let (count, mut rest) = list(rest, metadata & 4 != 0)?;
    let (mut vertices, mut member) = (0, 0);
    while member < count {
        let (after, more) = quick(rest, depth + 1, over)?;
        (vertices, rest) = (vertices + more, after);
        member += 1;
    }
    Some((rest, vertices))
}
