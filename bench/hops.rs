//! A scan of a certified layer in plain Rust, std only, written for comparison: how many blobs have a vertex inside.
//!
//! It hops, at any depth, over what has a size and a box that misses the window, reads a varint byte by byte, compares
//! in units (i128), and has everything inlined but the recursion.
//!
//! Usage: hops FILE X0 X1 Y0 Y1 [REPEATS], the window in units. The hits and the bytes that had to be read are printed,
//! and after them the best time of one repeat in nanoseconds.
use std::hint::black_box;
use std::time::Instant;

struct Reader<'a> {
    bytes: &'a [u8],
    place: usize,
    hopped: usize,
}

impl Reader<'_> {
    #[inline(always)]
    fn byte(&mut self) -> Option<u8> {
        let byte = *self.bytes.get(self.place)?;
        self.place += 1;
        Some(byte)
    }

    #[inline(always)]
    fn unsigned(&mut self) -> Option<u64> {
        let mut value = 0;
        for group in 0..10 {
            let byte = self.byte()?;
            value |= u64::from(byte & 0x7F) << (7 * group);
            if byte < 0x80 {
                return Some(value);
            }
        }
        None
    }

    #[inline(always)]
    fn signed(&mut self) -> Option<i64> {
        let value = self.unsigned()?;
        Some((value >> 1) as i64 ^ -((value & 1) as i64))
    }

    #[inline(always)]
    fn pass(&mut self, varints: u64) -> Option<()> {
        for _ in 0..varints {
            while self.byte()? > 0x7F {}
        }
        Some(())
    }
}

/// The least and the greatest value in units of X, and of Y.
type Window = [(i128, i128); 2];

#[inline(always)]
fn holds(range: (i128, i128), value: i128) -> bool {
    range.0 <= value && value <= range.1
}

/// How many units a step is, by the raw precision, which is a precision in zigzag: 0, -1, 1, -2 and so on.
const SCALES: [i128; 16] = {
    let mut scales = [0; 16];
    let mut raw = 0;
    while raw < 16 {
        scales[raw] = 10i128.pow(if raw % 2 == 0 { 7 - raw as u32 / 2 } else { 8 + raw as u32 / 2 });
        raw += 1;
    }
    scales
};

/// A body of X, Y and `further` more axes.
struct Body<'r, 'a, 'w> {
    reader: &'r mut Reader<'a>,
    window: &'w Window,
    scale: i128,
    further: u64,
    last: [i64; 2],
    is_met: bool,
}

impl Body<'_, '_, '_> {
    #[inline(always)]
    fn point(&mut self) -> Option<()> {
        let mut inside = true;
        for axis in 0..2 {
            self.last[axis] = self.last[axis].wrapping_add(self.reader.signed()?);
            inside &= holds(self.window[axis], i128::from(self.last[axis]) * self.scale);
        }
        if inside {
            self.is_met = true;
        }
        self.reader.pass(self.further)
    }

    #[inline(always)]
    fn line(&mut self) -> Option<()> {
        for _ in 0..self.reader.unsigned()? {
            self.point()?;
        }
        Some(())
    }

    #[inline(always)]
    fn part(&mut self, kind: u8) -> Option<()> {
        match kind {
            1 | 4 => self.point(),
            2 | 5 => self.line(),
            _ => {
                for _ in 0..self.reader.unsigned()? {
                    self.line()?;
                }
                Some(())
            }
        }
    }
}

/// Whether a box of X and Y misses the window; past the box.
#[inline(always)]
fn misses(reader: &mut Reader, window: &Window, scale: i128, further: u64) -> Option<bool> {
    let mut apart = false;
    for range in window {
        let low = i128::from(reader.signed()?);
        let high = low + i128::from(reader.signed()?);
        apart |= high * scale < range.0 || range.1 < low * scale;
    }
    reader.pass(2 * further)?;
    Some(apart)
}

/// Whether a vertex of the geometry is inside the window; past the geometry.
fn is_met(reader: &mut Reader, window: &Window) -> Option<bool> {
    let kind = reader.byte()?;
    let metadata = reader.byte()?;
    let scale = SCALES[usize::from(kind >> 4)];
    let further = if metadata & 8 != 0 { u64::from((reader.byte()? & 3).count_ones()) } else { 0 };
    let size = if metadata & 2 != 0 { Some(reader.unsigned()?) } else { None };
    let start = reader.place;
    if metadata & 1 != 0 && misses(reader, window, scale, further)? {
        if let Some(size) = size {
            let after = start + size as usize;
            reader.hopped += after - reader.place;
            reader.place = after;
            return Some(false);
        }
    }
    if metadata & 16 != 0 {
        return Some(false);
    }
    let mut count = 1;
    if kind & 15 >= 4 {
        count = reader.unsigned()?;
        if metadata & 4 != 0 {
            reader.pass(count)?;
        }
    }
    if kind & 15 == 7 {
        return members(reader, window, count);
    }
    let mut body = Body { reader, window, scale, further, last: [0; 2], is_met: false };
    for _ in 0..count {
        body.part(kind & 15)?;
    }
    Some(body.is_met)
}

#[inline(always)]
fn members(reader: &mut Reader, window: &Window, count: u64) -> Option<bool> {
    let mut met = false;
    for _ in 0..count {
        met |= is_met(reader, window)?;
    }
    Some(met)
}

/// The number of hits, and of bytes that had to be read.
fn scan(bytes: &[u8], window: &Window) -> Option<(usize, usize)> {
    let mut reader = Reader { bytes, place: 0, hopped: 0 };
    let mut hits = 0;
    while reader.place < bytes.len() {
        hits += usize::from(is_met(&mut reader, window)?);
    }
    Some((hits, bytes.len() - reader.hopped))
}

fn main() {
    let words: Vec<String> = std::env::args().collect();
    let bytes = std::fs::read(&words[1]).expect("a file to read");
    let mut rest = words[2..].iter().map(|word| word.parse::<i128>().expect("a number"));
    let mut next = || rest.next().expect("the four ends of a window");
    let window = [(next(), next()), (next(), next())];
    let repeats = rest.next().unwrap_or(1).max(1);
    let ((mut hits, mut read), mut best) = ((0, 0), u128::MAX);
    for _ in 0..repeats {
        let start = Instant::now();
        (hits, read) = scan(black_box(&bytes), black_box(&window)).expect("a certified layer");
        best = best.min(start.elapsed().as_nanos());
    }
    println!("hits={hits} read={read} nanoseconds={best}");
}
