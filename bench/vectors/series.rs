//! Blobs of one form, one after another, of X and Y and without a box: points with a size, and points and lines without
//! one.
use crate::kernels::load;
use crate::unboxed::pass;

/// The bytes after such blobs, how many there are, and how many vertices they have.
pub type Passed<'a> = (&'a [u8], u64, u64);

/// The blobs of one of these forms that the bytes begin with.
#[inline(always)]
pub fn series(rest: &[u8]) -> Passed<'_> {
    match rest.first_chunk().map_or(0, |&head| u16::from_le_bytes(head)) {
        head if head & 0x1f0f == SIZED_POINT => sized_points(rest),
        head if head & 0x1b0f == BARE_LINE => bare_lines(rest),
        head if head & 0x1b0f == BARE_POINT => bare_points(rest),
        _ => (rest, 0, 0),
    }
}

/// How such a blob begins, without its precision: its kind, and the flags of its metadata. The flag for ids, 4, means
/// nothing for a line or a point.
const SIZED_POINT: u16 = 0x0201;
const BARE_POINT: u16 = 0x0001;
const BARE_LINE: u16 = 0x0002;

/// Points with a size. Four at a time are found by their sizes alone, and judged together.
#[inline(never)]
fn sized_points(mut rest: &[u8]) -> Passed<'_> {
    let mut points = 0;
    while let Some(bytes) = rest.first_chunk::<{ 4 * 3 + 4 * 255 + 16 }>() {
        let first = bytes[2] as usize;
        let second = bytes[first + 5] as usize;
        let third = bytes[first + second + 8] as usize;
        let fourth = bytes[first + second + third + 11] as usize;
        let are_points = is_sized_point(bytes, 0, first)
            & is_sized_point(bytes, first + 3, second)
            & is_sized_point(bytes, first + second + 6, third)
            & is_sized_point(bytes, first + second + third + 9, fourth);
        if !are_points {
            break;
        }
        (rest, points) = (&rest[first + second + third + fourth + 12..], points + 4);
    }
    while let Some(bytes) = rest.first_chunk::<16>() {
        let size = bytes[2] as usize;
        if !is_sized_point(bytes, 0, size) {
            break;
        }
        (rest, points) = (&rest[3 + size..], points + 1);
    }
    (rest, points, points)
}

/// Whether the bytes at a place are a point of this size, of at most ten bytes: so neither number takes more than nine.
/// The second end after the header has to be where the size says.
#[inline(always)]
fn is_sized_point(bytes: &[u8], place: usize, size: usize) -> bool {
    let head = u16::from_le_bytes([bytes[place], bytes[place + 1]]);
    let ends = !load(bytes, place).tops() >> 3;
    let second = ends & ends.wrapping_sub(1);
    (head & 0x1f0f == SIZED_POINT) & (size <= 10) & (second.trailing_zeros() as usize + 1 == size)
}

/// Points without a size, of at most ten bytes after the header.
#[inline(never)]
fn bare_points(mut rest: &[u8]) -> Passed<'_> {
    let mut points = 0;
    while let Some(bytes) = rest.first_chunk::<16>() {
        let head = u16::from_le_bytes([bytes[0], bytes[1]]);
        let ends = !load(bytes, 0).tops() >> 2;
        let size = (ends & ends.wrapping_sub(1)).trailing_zeros() as usize + 1;
        if (head & 0x1b0f != BARE_POINT) | (size > 10) {
            break;
        }
        (rest, points) = (&rest[2 + size..], points + 1);
    }
    (rest, points, points)
}

/// Lines without a size, of at most 127 points.
#[inline(never)]
fn bare_lines(mut rest: &[u8]) -> Passed<'_> {
    let (mut lines, mut vertices) = (0, 0);
    while let Some(bytes) = rest.first_chunk::<3>() {
        let [kind, metadata, count] = *bytes;
        if u16::from_le_bytes([kind, metadata]) & 0x1b0f != BARE_LINE || count > 127 {
            break;
        }
        let Some(after) = pass(&rest[3..], 2 * count as u64) else { break };
        (rest, lines, vertices) = (after, lines + 1, vertices + count as u64);
    }
    (rest, lines, vertices)
}
