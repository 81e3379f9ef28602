//! `twkb_tool check` in plain Rust, std only, written for comparison: it reads a layer whole and judges every claim.
//!
//! It is written as one would write it at first: a cursor with `?`, a loop for each varint, vertices in units (i128) as
//! they are read, and ids in a set. `plain FILE` prints the line of `twkb_tool check FILE`; `plain FILE N` judges the
//! bytes N times over and adds the best time in nanoseconds to the line.
use std::collections::HashSet;
use std::time::Instant;

#[derive(Clone, Copy)]
enum Stop {
    Cut,
    Varint,
    Kind,
    Depth,
    Range,
}

type Read<T> = Result<T, (usize, Stop)>;

struct Reader<'a> {
    bytes: &'a [u8],
    place: usize,
}

impl Reader<'_> {
    fn byte(&mut self) -> Read<u8> {
        let byte = *self.bytes.get(self.place).ok_or((self.place, Stop::Cut))?;
        self.place += 1;
        Ok(byte)
    }

    fn unsigned(&mut self) -> Read<u64> {
        let start = self.place;
        let mut value = 0u64;
        for group in 0..10 {
            let byte = self.byte().map_err(|(_, stop)| (start, stop))?;
            if group == 9 && byte > 1 {
                return Err((start, Stop::Varint));
            }
            value |= u64::from(byte & 0x7F) << (7 * group);
            if byte < 0x80 {
                return Ok(value);
            }
        }
        unreachable!()
    }

    fn signed(&mut self) -> Read<i64> {
        let value = self.unsigned()?;
        Ok((value >> 1) as i64 ^ -((value & 1) as i64))
    }
}

/// Least and greatest value in units of each of X, Y, Z and M.
type Extent = [Option<(i128, i128)>; 4];

fn add(extent: &mut Extent, axis: usize, low: i128, high: i128) {
    extent[axis] = match extent[axis] {
        Some((least, greatest)) => Some((least.min(low), greatest.max(high))),
        None => Some((low, high)),
    };
}

struct Shape<'r, 'a> {
    reader: &'r mut Reader<'a>,
    scales: [Option<i128>; 4],
    last: [i64; 4],
    extent: Extent,
    vertices: usize,
}

impl Shape<'_, '_> {
    fn point(&mut self) -> Read<()> {
        for axis in 0..4 {
            if let Some(scale) = self.scales[axis] {
                let place = self.reader.place;
                let delta = self.reader.signed()?;
                self.last[axis] = self.last[axis].checked_add(delta).ok_or((place, Stop::Range))?;
                let value = i128::from(self.last[axis]) * scale;
                add(&mut self.extent, axis, value, value);
            }
        }
        self.vertices += 1;
        Ok(())
    }

    fn line(&mut self) -> Read<()> {
        for _ in 0..self.reader.unsigned()? {
            self.point()?;
        }
        Ok(())
    }

    fn polygon(&mut self) -> Read<()> {
        for _ in 0..self.reader.unsigned()? {
            self.line()?;
        }
        Ok(())
    }
}

struct Judged {
    vertices: usize,
    extent: Extent,
    refused: Option<(usize, &'static str)>,
}

fn first(a: Option<(usize, &'static str)>, b: Option<(usize, &'static str)>) -> Option<(usize, &'static str)> {
    match (a, b) {
        (Some(a), Some(b)) => Some(if b.0 < a.0 { b } else { a }),
        (a, b) => a.or(b),
    }
}

struct Head {
    kind: u8,
    metadata: u8,
    scales: [Option<i128>; 4],
    /// The place of the size, its value, and the place after it.
    size: Option<(usize, u64, usize)>,
    bounds: Option<(usize, Extent)>,
}

#[inline(always)]
fn kind(reader: &mut Reader, depth: u8) -> Read<u8> {
    let start = reader.place;
    let byte = reader.byte()?;
    if !(1..=7).contains(&(byte & 15)) {
        return Err((start, Stop::Kind));
    }
    if byte & 15 == 7 && depth == 64 {
        return Err((start, Stop::Depth));
    }
    Ok(byte)
}

#[inline(always)]
fn head(reader: &mut Reader, depth: u8) -> Read<Head> {
    let kind_byte = kind(reader, depth)?;
    let raw = i32::from(kind_byte >> 4);
    let precision = (raw >> 1) ^ -(raw & 1);
    let metadata = reader.byte()?;
    let scale = |precision: i32| 10i128.pow((7 - precision) as u32);
    let mut scales = [Some(scale(precision)), Some(scale(precision)), None, None];
    if metadata & 8 != 0 {
        let extended = reader.byte()?;
        scales[2] = (extended & 1 != 0).then(|| scale(i32::from(extended >> 2 & 7)));
        scales[3] = (extended & 2 != 0).then(|| scale(i32::from(extended >> 5)));
    }
    let mut size = None;
    if metadata & 2 != 0 {
        let offset = reader.place;
        size = Some((offset, reader.unsigned()?, reader.place));
    }
    let mut bounds = None;
    if metadata & 1 != 0 {
        bounds = Some((reader.place, spans(reader, &scales)?));
    }
    Ok(Head { kind: kind_byte & 15, metadata, scales, size, bounds })
}

#[inline(always)]
fn spans(reader: &mut Reader, scales: &[Option<i128>; 4]) -> Read<Extent> {
    let mut spans: Extent = [None; 4];
    for axis in 0..4 {
        if let Some(scale) = scales[axis] {
            let low = i128::from(reader.signed()?);
            let high = low + i128::from(reader.signed()?);
            spans[axis] = Some((low * scale, high * scale));
        }
    }
    Ok(spans)
}

/// The count of a list, and its ids, if two are equal.
#[inline(always)]
fn list(reader: &mut Reader, metadata: u8) -> Read<(u64, Option<(usize, &'static str)>)> {
    let count = reader.unsigned()?;
    let mut refused = None;
    if metadata & 4 != 0 {
        let offset = reader.place;
        let mut ids = HashSet::new();
        for _ in 0..count {
            if !ids.insert(reader.signed()?) {
                refused = Some((offset, "ids"));
            }
        }
    }
    Ok((count, refused))
}

fn members(reader: &mut Reader, depth: u8, count: u64) -> Read<Judged> {
    let mut judged = Judged { vertices: 0, extent: [None; 4], refused: None };
    for _ in 0..count {
        let member = geometry(reader, depth + 1)?;
        judged.vertices += member.vertices;
        judged.refused = first(judged.refused, member.refused);
        for axis in 0..4 {
            if let Some((low, high)) = member.extent[axis] {
                add(&mut judged.extent, axis, low, high);
            }
        }
    }
    Ok(judged)
}

#[inline(always)]
fn shape(reader: &mut Reader, head: &Head, count: u64) -> Read<Judged> {
    let mut shape = Shape { reader, scales: head.scales, last: [0; 4], extent: [None; 4], vertices: 0 };
    for _ in 0..count {
        match head.kind {
            1 | 4 => shape.point()?,
            2 | 5 => shape.line()?,
            _ => shape.polygon()?,
        }
    }
    Ok(Judged { vertices: shape.vertices, extent: shape.extent, refused: None })
}

fn geometry(reader: &mut Reader, depth: u8) -> Read<Judged> {
    let head = head(reader, depth)?;
    let mut judged = Judged { vertices: 0, extent: [None; 4], refused: None };
    if head.metadata & 16 == 0 {
        let (count, refused) = if head.kind >= 4 { list(reader, head.metadata)? } else { (1, None) };
        judged = if head.kind == 7 { members(reader, depth, count)? } else { shape(reader, &head, count)? };
        judged.refused = first(refused, judged.refused);
    }
    if let Some((offset, spans)) = head.bounds {
        let outside = (0..4).any(|axis| match (spans[axis], judged.extent[axis]) {
            (Some((low, high)), Some((least, greatest))) => least < low || high < greatest,
            _ => false,
        });
        if outside {
            judged.refused = first(Some((offset, "box")), judged.refused);
        }
    }
    if let Some((offset, size, after)) = head.size {
        if size != (reader.place - after) as u64 {
            judged.refused = first(Some((offset, "size")), judged.refused);
        }
    }
    Ok(judged)
}

fn check(bytes: &[u8]) -> String {
    let mut reader = Reader { bytes, place: 0 };
    let (mut blobs, mut vertices) = (0, 0);
    while reader.place < bytes.len() {
        let (offset, kind) = match geometry(&mut reader, 1) {
            Ok(Judged { refused: None, vertices: more, .. }) => {
                blobs += 1;
                vertices += more;
                continue;
            }
            Ok(Judged { refused: Some(named), .. }) => named,
            Err((offset, stop)) => {
                let kind = match stop {
                    Stop::Cut => "cut",
                    Stop::Varint => "varint",
                    Stop::Kind => "type",
                    Stop::Depth => "depth",
                    Stop::Range => "range",
                };
                (offset, kind)
            }
        };
        return format!("no blob={blobs} offset={offset} kind={kind}");
    }
    format!("ok blobs={blobs} vertices={vertices}")
}

fn main() {
    let words: Vec<String> = std::env::args().collect();
    let bytes = std::fs::read(&words[1]).expect("a file to read");
    let text = check(&bytes);
    let Some(runs) = words.get(2) else {
        println!("{text}");
        return;
    };
    let runs: usize = runs.parse().expect("a number of runs");
    let best = (0..runs)
        .map(|_| {
            let start = Instant::now();
            std::hint::black_box(check(std::hint::black_box(&bytes)));
            start.elapsed().as_nanos()
        })
        .min();
    println!("{text} nanoseconds={}", best.unwrap_or(0));
}
