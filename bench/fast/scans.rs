//! The quick scan, of certified layers.
use crate::bodies::{parts, Points};
use crate::plain::{self, body, head, list, scale, Reader, Refusal};
use crate::words::{mixed_pair, skip, unsigned, word};

/// A window in units, and in the raw integers of each precision.
pub struct Window {
    units: [i128; 4],
    pub raw: [Raw; 16],
}

/// The window in raw integers. It is `empty` where no coordinate is inside.
#[derive(Clone, Copy, Default)]
pub struct Raw {
    pub low: [i64; 2],
    pub high: [i64; 2],
    extent: [u64; 2],
    empty: bool,
}

pub fn window(units: [i128; 4]) -> Window {
    let mut raw = [Raw::default(); 16];
    for (precision, raw) in raw.iter_mut().enumerate() {
        let scale = scale(precision as u32);
        let in_64_bits = |number: i128| number.clamp(i64::MIN as i128, i64::MAX as i128) as i64;
        for axis in 0..2 {
            let low = -(-units[2 * axis]).div_euclid(scale);
            let high = units[2 * axis + 1].div_euclid(scale);
            (raw.low[axis], raw.high[axis]) = (in_64_bits(low), in_64_bits(high));
            raw.extent[axis] = raw.high[axis].wrapping_sub(raw.low[axis]) as u64;
            raw.empty |= low > high || low > i64::MAX as i128 || high < i64::MIN as i128;
        }
    }
    Window { units, raw }
}

/// Looked for in a window, as distances from its lower ends.
struct Sought {
    at: [i64; 2],
    extent: [u64; 2],
    inside: bool,
    found: bool,
}

impl<const N: usize> Points<N> for Sought {
    #[inline(always)]
    fn step(&mut self, axis: usize, difference: i64) -> bool {
        if axis < 2 {
            self.at[axis] = self.at[axis].wrapping_add(difference);
            let inside = self.at[axis] as u64 <= self.extent[axis];
            self.inside = inside && (axis == 0 || self.inside);
            self.found |= axis == 1 && self.inside;
        }
        true
    }
}

/// Whether a vertex of a geometry is inside, how many bytes were hopped over, and the bytes after it.
pub type Found<'a> = (bool, usize, &'a [u8]);

/// The number of hits, and of bytes that had to be read. If `HOP` is true, geometries with a size and a box that misses
/// the window are hopped over, at any depth.
#[inline(never)]
pub fn scan_all<const HOP: bool>(bytes: &[u8], units: [i128; 4]) -> (usize, usize) {
    let window = &window(units);
    let (mut hits, mut hopped, mut rest) = (0, 0, bytes);
    while !rest.is_empty() {
        if let (true, Some((more, after))) = (HOP, missed(rest, window)) {
            (hopped, rest) = (hopped + more, after);
            continue;
        }
        let (found, more, after) = looked_at::<HOP>(rest, window);
        (hits, hopped, rest) = (hits + found as usize, hopped + more, after);
    }
    (hits, bytes.len() - hopped)
}

/// A blob that doesn't miss the window by a box.
#[inline(always)]
pub fn looked_at<'a, const HOP: bool>(rest: &'a [u8], window: &Window) -> Found<'a> {
    match sought::<HOP>(rest, window) {
        Some(found) => found,
        None => plain_blob(rest, window, HOP),
    }
}

/// How many bytes are hopped over, and the bytes after the geometry, if it has a size and a box that misses the window.
#[inline(always)]
pub fn missed<'a>(rest: &'a [u8], window: &Window) -> Option<(usize, &'a [u8])> {
    let first = word(rest)?;
    if first & 0x0300 != 0x0300 {
        None
    } else if first & 0x0800 != 0 {
        missed_further(rest, window)
    } else {
        missed_by_box(rest, 2, 0, window)
    }
}

/// `missed` for a geometry with an extended byte.
#[inline(never)]
fn missed_further<'a>(rest: &'a [u8], window: &Window) -> Option<(usize, &'a [u8])> {
    let first = word(rest)?;
    missed_by_box(rest, 3, (first >> 16 & 1) + (first >> 17 & 1), window)
}

/// `missed` for a geometry whose size is at `place`, and whose box has `further` axes besides X and Y. The box's ends
/// are below 2^56, so the window's ends may be moved into 64 bits.
#[inline(always)]
fn missed_by_box<'a>(rest: &'a [u8], place: usize, further: u64, window: &Window) -> Option<(usize, &'a [u8])> {
    let raw = &window.raw[(word(rest)? >> 4 & 15) as usize];
    let (size, ends) = unsigned(&rest[place..])?;
    let after = ends.get(size as usize..)?;
    let (x, width, ends) = mixed_pair(ends)?;
    if (x + width < raw.low[0]) | (raw.high[0] < x) {
        return Some((skip_any(ends, 2 + 2 * further)?.len() - after.len(), after));
    }
    let (y, height, ends) = mixed_pair(ends)?;
    if (y + height < raw.low[1]) | (raw.high[1] < y) {
        Some((skip_any(ends, 2 * further)?.len() - after.len(), after))
    } else {
        None
    }
}

/// The bytes after a given number of varints.
#[inline(always)]
fn skip_any(rest: &[u8], varints: u64) -> Option<&[u8]> {
    match skip(rest, varints, true) {
        Some(after) => Some(after),
        None => skip_long(rest, varints),
    }
}

#[inline(never)]
fn skip_long(mut rest: &[u8], varints: u64) -> Option<&[u8]> {
    for _ in 0..varints {
        (_, rest) = unsigned(rest)?;
    }
    Some(rest)
}

#[inline(always)]
fn sought<'a, const HOP: bool>(rest: &'a [u8], window: &Window) -> Option<Found<'a>> {
    let first = word(rest)?;
    let raw = &window.raw[(first >> 4 & 15) as usize];
    if first & 0x80_1f0f == 0x0201 {
        // A point with a size alone.
        let (x, y, _) = mixed_pair(&rest[3..])?;
        let inside = (raw.low[0] <= x) & (x <= raw.high[0]) & (raw.low[1] <= y) & (y <= raw.high[1]);
        return Some((inside & !raw.empty, 0, rest.get(3 + (first >> 16) as u8 as usize..)?));
    }
    let (kind, metadata) = (first as u8 & 15, (first >> 8) as u8);
    let (mut axes, mut rest, mut after) = (2, &rest[2..], None);
    if metadata & 8 != 0 {
        axes += (first >> 16 & 1) + (first >> 17 & 1);
        rest = &rest[1..];
    }
    if metadata & 2 != 0 {
        let size;
        (size, rest) = unsigned(rest)?;
        after = Some(rest.get(size as usize..)?);
    }
    if metadata & 1 != 0 {
        rest = skip(rest, 2 * axes, true)?;
    }
    if metadata & 16 != 0 {
        return Some((false, 0, rest));
    }
    let mut count = 1;
    if kind >= 4 {
        (count, rest) = unsigned(rest)?;
        if metadata & 4 != 0 {
            rest = skip(rest, count, true)?;
        }
    }
    if kind == 7 {
        return sought_in_members::<HOP>(rest, count, window);
    }
    let (found, stop) = match axes {
        2 => sought_in_body::<2>(rest, kind, count, raw),
        3 => sought_in_body::<3>(rest, kind, count, raw),
        _ => sought_in_body::<4>(rest, kind, count, raw),
    }?;
    Some((found, 0, after.unwrap_or(stop)))
}

#[inline(always)]
fn sought_in_body<'a, const N: usize>(rest: &'a [u8], kind: u8, count: u64, raw: &Raw) -> Option<(bool, &'a [u8])> {
    let at = [raw.low[0].wrapping_neg(), raw.low[1].wrapping_neg()];
    let mut points = Sought { at, extent: raw.extent, inside: false, found: false };
    let (stop, _) = parts::<N>(rest, kind, count, &mut points)?;
    Some((points.found & !raw.empty, stop))
}

#[inline(never)]
fn sought_in_members<'a, const HOP: bool>(mut rest: &'a [u8], count: u64, window: &Window) -> Option<Found<'a>> {
    let (mut found, mut hopped, mut member) = (false, 0, 0);
    while member < count {
        let (inside, more, after) = match if HOP { missed(rest, window) } else { None } {
            Some((more, after)) => (false, more, after),
            None => sought::<HOP>(rest, window)?,
        };
        (found, hopped, rest) = (found | inside, hopped + more, after);
        member += 1;
    }
    Some((found, hopped, rest))
}

#[cold]
#[inline(never)]
fn plain_blob<'a>(rest: &'a [u8], window: &Window, hop: bool) -> Found<'a> {
    let (mut reader, mut hopped) = (Reader { bytes: rest, place: 0 }, 0);
    let found = plain_scan(&mut reader, window, hop, &mut hopped).expect("a certified layer");
    (found, hopped, &rest[reader.place..])
}

#[inline(never)]
fn plain_scan(reader: &mut Reader, window: &Window, hop: bool, hopped: &mut usize) -> Result<bool, Refusal> {
    let (head, units) = (head(reader, 1)?, window.units);
    let apart = |axis: usize| head.claim[axis].1 < units[2 * axis] || units[2 * axis + 1] < head.claim[axis].0;
    if hop && head.metadata & 3 == 3 && (apart(0) || apart(1)) {
        let start = reader.place;
        reader.place = head.box_at + head.size as usize;
        *hopped += reader.place - start;
        return Ok(false);
    }
    let mut is_found = false;
    if head.metadata & 16 == 0 {
        let mut found = plain::Found::nothing();
        let count = list(reader, &head, &mut found)?;
        if head.kind == 7 {
            for _ in 0..count {
                is_found |= plain_scan(reader, window, hop, hopped)?;
            }
        } else {
            let inside = |x, y| units[0] <= x && x <= units[1] && units[2] <= y && y <= units[3];
            body(reader, &head, count, &mut |x, y| is_found |= inside(x, y), &mut found)?;
        }
    }
    Ok(is_found)
}
