//! The plain pass, which decides where a quick one isn't sure, and names the first false claim.
use crate::words::unzigzag;

/// An offset, and the word for what is wrong there.
pub type Refusal = (usize, &'static str);

pub struct Reader<'a> {
    pub bytes: &'a [u8],
    pub place: usize,
}

impl Reader<'_> {
    #[inline(always)]
    fn byte(&mut self) -> Result<u8, Refusal> {
        let &byte = self.bytes.get(self.place).ok_or((self.place, "cut"))?;
        self.place += 1;
        Ok(byte)
    }

    #[inline(always)]
    fn unsigned(&mut self) -> Result<u64, Refusal> {
        let (start, mut number) = (self.place, 0);
        for group in 0..10 {
            let &byte = self.bytes.get(start + group).ok_or((start, "cut"))?;
            if group == 9 && byte > 1 {
                break;
            }
            number |= ((byte & 127) as u64) << (7 * group);
            if byte < 128 {
                self.place = start + group + 1;
                return Ok(number);
            }
        }
        Err((start, "varint"))
    }

    #[inline(always)]
    fn signed(&mut self) -> Result<i64, Refusal> {
        Ok(unzigzag(self.unsigned()?))
    }
}

type Range = (i128, i128);
const NOTHING: Range = (i128::MAX, i128::MIN);

fn both(one: Range, other: Range) -> Range {
    (one.0.min(other.0), one.1.max(other.1))
}

/// How many units a step of a raw precision is.
pub fn scale(raw: u32) -> i128 {
    10i128.pow(if raw % 2 == 0 { 7 - raw / 2 } else { 8 + raw / 2 })
}

/// The range of X, Y, Z and M in units, the vertices, and the first false claim.
pub struct Found {
    range: [Range; 4],
    pub vertices: u64,
    pub refused: Option<Refusal>,
}

impl Found {
    pub fn nothing() -> Found {
        Found { range: [NOTHING; 4], vertices: 0, refused: None }
    }

    fn refuse(&mut self, claim: Refusal) {
        self.refused = Some(self.refused.map_or(claim, |first| first.min(claim)));
    }
}

/// What a geometry begins with, and where its size and its box are.
pub struct Head {
    pub kind: u8,
    pub metadata: u8,
    axes: Axes,
    size_at: usize,
    pub size: u64,
    pub box_at: usize,
    /// The box, in units.
    pub claim: [Range; 4],
}

/// Axes that are there, X to M as 0 to 3, each with its scale.
struct Axes {
    all: [(usize, i128); 4],
    count: usize,
}

impl Axes {
    fn each(&self) -> &[(usize, i128)] {
        &self.all[..self.count]
    }
}

/// The header of a geometry.
pub fn head(reader: &mut Reader, depth: u8) -> Result<Head, Refusal> {
    let start = reader.place;
    let first = reader.byte()?;
    let kind = first & 15;
    if kind == 0 || kind > 7 || kind == 7 && depth >= 64 {
        return Err((start, if kind == 7 { "depth" } else { "type" }));
    }
    let metadata = reader.byte()?;
    let axes = axes(reader, first, metadata)?;
    let size_at = reader.place;
    let size = if metadata & 2 != 0 { reader.unsigned()? } else { 0 };
    let box_at = reader.place;
    let mut claim = [NOTHING; 4];
    for &(axis, scale) in if metadata & 1 != 0 { axes.each() } else { &[] } {
        let low = reader.signed()? as i128;
        claim[axis] = (low * scale, (low + reader.signed()? as i128) * scale);
    }
    Ok(Head { kind, metadata, axes, size_at, size, box_at, claim })
}

/// A geometry; `see` is given X and Y of each vertex.
#[inline(never)]
pub fn plain<F: FnMut(i128, i128)>(reader: &mut Reader, depth: u8, judge: bool, see: &mut F) -> Result<Found, Refusal> {
    let head = head(reader, depth)?;
    let mut found = Found::nothing();
    if head.metadata & 16 == 0 {
        let count = list(reader, &head, &mut found)?;
        if head.kind == 7 {
            members(reader, depth, count, judge, see, &mut found)?;
        } else {
            body(reader, &head, count, see, &mut found)?;
        }
    }
    if judge && head.metadata & 2 != 0 && head.size != (reader.place - head.box_at) as u64 {
        found.refuse((head.size_at, "size"));
    }
    let outside =
        |axis: usize| found.range[axis] != NOTHING && both(head.claim[axis], found.range[axis]) != head.claim[axis];
    if judge && head.metadata & 1 != 0 && head.axes.each().iter().any(|&(axis, _)| outside(axis)) {
        found.refuse((head.box_at, "box"));
    }
    Ok(found)
}

fn axes(reader: &mut Reader, first: u8, metadata: u8) -> Result<Axes, Refusal> {
    let flat = scale(first as u32 >> 4);
    let mut axes = Axes { all: [(0, flat), (1, flat), (0, 0), (0, 0)], count: 2 };
    if metadata & 8 != 0 {
        let extended = reader.byte()? as u32;
        for (bit, axis, precision) in [(1, 2, extended >> 2 & 7), (2, 3, extended >> 5)] {
            if extended & bit != 0 {
                axes.all[axes.count] = (axis, 10i128.pow(7 - precision));
                axes.count += 1;
            }
        }
    }
    Ok(axes)
}

/// The count of a list, whose ids are read too; of kinds 1 to 3, one.
pub fn list(reader: &mut Reader, head: &Head, found: &mut Found) -> Result<u64, Refusal> {
    if head.kind < 4 {
        return Ok(1);
    }
    let count = reader.unsigned()?;
    let (start, mut ids, mut place) = (reader.place, Vec::new(), 0);
    while head.metadata & 4 != 0 && place < count {
        ids.push(reader.signed()?);
        place += 1;
    }
    ids.sort_unstable();
    if ids.windows(2).any(|two| two[0] == two[1]) {
        found.refuse((start, "ids"));
    }
    Ok(count)
}

fn members<F: FnMut(i128, i128)>(
    reader: &mut Reader,
    depth: u8,
    count: u64,
    judge: bool,
    see: &mut F,
    found: &mut Found,
) -> Result<(), Refusal> {
    for _ in 0..count {
        let member = plain(reader, depth + 1, judge, see)?;
        found.range = [0, 1, 2, 3].map(|axis| both(found.range[axis], member.range[axis]));
        found.vertices += member.vertices;
        member.refused.map(|claim| found.refuse(claim));
    }
    Ok(())
}

/// A body of kinds 1 to 6; `see` is given X and Y of each vertex.
pub fn body<F: FnMut(i128, i128)>(
    reader: &mut Reader,
    head: &Head,
    count: u64,
    see: &mut F,
    found: &mut Found,
) -> Result<(), Refusal> {
    let (kind, axes, mut last) = (head.kind, head.axes.each(), [0i64; 4]);
    for _ in 0..count {
        for _ in 0..if kind % 3 == 0 { reader.unsigned()? } else { 1 } {
            for _ in 0..if kind % 3 == 1 { 1 } else { reader.unsigned()? } {
                for (sum, &(axis, scale)) in last.iter_mut().zip(axes) {
                    let place = reader.place;
                    *sum = sum.checked_add(reader.signed()?).ok_or((place, "range"))?;
                    let value = *sum as i128 * scale;
                    found.range[axis] = both(found.range[axis], (value, value));
                }
                see(last[0] as i128 * axes[0].1, last[1] as i128 * axes[1].1);
                found.vertices += 1;
            }
        }
    }
    Ok(())
}
