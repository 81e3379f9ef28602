//! The scan of a layer that is certified.
use crate::bodies::{parts, Points};
use crate::fast_scans::{self, window, Found, Window};
use crate::frames::Frame;
use crate::headers::size;
use crate::kernels::{ahead, two};
use crate::windows::{Nears, Sought};
use crate::words::{skip, unsigned, word};

/// The number of hits, and of bytes that had to be read. If `HOP` is true, geometries with a size and a box that misses
/// the window are hopped over, at any depth.
#[inline(never)]
pub fn scan_all<const HOP: bool>(bytes: &[u8], units: [i128; 4]) -> (usize, usize) {
    let window = &window(units);
    let nears = Nears::new(window);
    let (mut hits, mut hopped, mut rest) = (0, 0, bytes);
    while !rest.is_empty() {
        if let (true, Some((more, after))) = (HOP, missed(rest, &nears)) {
            (hopped, rest) = (hopped + more, after);
            continue;
        }
        let (found, more, after) = match sought::<HOP>(rest, &nears) {
            Some(found) => found,
            None => without_vectors::<HOP>(rest, window),
        };
        (hits, hopped, rest) = (hits + found as usize, hopped + more, after);
    }
    (hits, bytes.len() - hopped)
}

/// A blob with long numbers or without a box, or near the end of the bytes.
#[inline(never)]
fn without_vectors<'a, const HOP: bool>(rest: &'a [u8], window: &Window) -> Found<'a> {
    match if HOP { fast_scans::missed(rest, window) } else { None } {
        Some((hopped, after)) => (false, hopped, after),
        None => fast_scans::looked_at::<HOP>(rest, window),
    }
}

/// How many bytes are hopped over, and the bytes after the geometry, if it has a size and a box that misses the window.
#[inline(always)]
fn missed<'a>(rest: &'a [u8], nears: &Nears) -> Option<(usize, &'a [u8])> {
    let first = word(rest)?;
    if first & 0x0b00 != 0x0300 {
        return if first & 0x03_0b00 == 0x03_0b00 { missed_in_four(rest, nears) } else { None };
    }
    let (size, start) = size(rest, first)?;
    let (frame, body) = Frame::of_two(start, 0)?;
    if nears.of(first).misses(frame.low, frame.high()) {
        let after = start.get(size as usize..)?;
        return Some((body.len() - after.len(), after));
    }
    None
}

/// `missed` for a geometry with Z and M.
#[inline(never)]
fn missed_in_four<'a>(rest: &'a [u8], nears: &Nears) -> Option<(usize, &'a [u8])> {
    let first = word(rest)?;
    let (size, start) = unsigned(&rest[3..])?;
    let (frame, body) = Frame::of_four(start, 0)?;
    if nears.of(first).with_z_and_m().misses(frame.low, frame.high()) {
        let after = start.get(size as usize..)?;
        return Some((body.len() - after.len(), after));
    }
    None
}

/// Looks for a vertex in a point with a size alone, in a geometry with a box in X and Y or in X, Y, Z and M, or in a
/// collection of these.
#[inline(always)]
fn sought<'a, const HOP: bool>(rest: &'a [u8], nears: &Nears) -> Option<Found<'a>> {
    let first = word(rest)?;
    if first & 0x80_1f0f == 0x0201 {
        let (point, _) = two(ahead(&rest[3..])?)?;
        let point = point.first_halves(point);
        let after = rest.get(3 + (first >> 16) as u8 as usize..)?;
        return Some((!nears.of(first).misses(point, point), 0, after));
    }
    let (kind, metadata) = (first as u8 & 15, (first >> 8) as u8);
    if kind == 7 || metadata & 0x19 != 1 {
        return sought_further::<HOP>(rest, nears);
    }
    let (_, start) = size(rest, first)?;
    let (_, body) = Frame::of_two(start, 0)?;
    sought_in_body::<2>(body, kind, metadata, Sought::new(nears.of(first)))
}

/// `sought` for a collection, and for a geometry with Z and M.
#[inline(never)]
fn sought_further<'a, const HOP: bool>(rest: &'a [u8], nears: &Nears) -> Option<Found<'a>> {
    let first = word(rest)?;
    let (kind, metadata) = (first as u8 & 15, (first >> 8) as u8);
    if kind == 7 && metadata & 0x18 == 0 {
        let (_, start) = size(rest, first)?;
        let start = if metadata & 1 == 0 { start } else { Frame::of_two(start, 0)?.1 };
        return sought_in_members::<HOP>(start, metadata, nears);
    }
    if kind == 7 || first & 0x03_1900 != 0x03_0900 {
        return None;
    }
    let start = if metadata & 2 == 0 { &rest[3..] } else { unsigned(&rest[3..])?.1 };
    let (_, body) = Frame::of_four(start, 0)?;
    sought_in_body::<4>(body, kind, metadata, Sought::new(nears.of(first).with_z_and_m()))
}

#[inline(always)]
fn sought_in_members<'a, const HOP: bool>(rest: &'a [u8], metadata: u8, nears: &Nears) -> Option<Found<'a>> {
    let (mut left, mut rest) = list(rest, metadata)?;
    let (mut found, mut hopped) = (false, 0);
    while left > 0 {
        let (inside, more, after) = match if HOP { missed(rest, nears) } else { None } {
            Some((more, after)) => (false, more, after),
            None => sought::<HOP>(rest, nears)?,
        };
        (found, hopped, rest, left) = (found | inside, hopped + more, after, left - 1);
    }
    Some((found, hopped, rest))
}

#[inline(always)]
fn sought_in_body<'a, const N: usize>(
    mut rest: &'a [u8],
    kind: u8,
    metadata: u8,
    mut points: Sought<N>,
) -> Option<Found<'a>>
where
    Sought<N>: Points<N>,
{
    let mut count = 1;
    if kind == 2 {
        (count, rest) = unsigned(rest)?;
        rest = points.read(rest, count)?;
    } else {
        if kind >= 4 {
            (count, rest) = list(rest, metadata)?;
        }
        (rest, _) = parts::<N>(rest, kind, count, &mut points)?;
    }
    Some((points.is_found(), 0, rest))
}

/// The count of a list, and the bytes after its ids.
#[inline(always)]
fn list(rest: &[u8], metadata: u8) -> Option<(u64, &[u8])> {
    let (count, rest) = unsigned(rest)?;
    Some((count, if metadata & 4 == 0 { rest } else { skip(rest, count, true)? }))
}
