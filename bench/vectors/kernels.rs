//! Varints read into lanes, several at once, with no branch on their lengths.
use crate::lanes::Lanes;
use crate::tables::{KEPT, NTH, TABLES, TOO_LONG};
use crate::words::{ONES, TOPS};

/// The bytes that a kernel may look at. It loads sixteen after a length that a table gives in a byte, so whatever the
/// length is, the load is inside.
pub type Ahead = [u8; 272];

/// The bytes ahead, if there are enough of them for a kernel.
#[inline(always)]
pub fn ahead(rest: &[u8]) -> Option<&Ahead> {
    rest.first_chunk()
}

/// The sixteen bytes from a place on, which have to be there.
#[inline(always)]
pub fn load(bytes: &[u8], place: usize) -> Lanes {
    Lanes::load(bytes[place..].first_chunk().unwrap())
}

/// Groups of seven bits, in bytes, pushed together within each lane of 32 bits, and signs.
#[inline(always)]
fn signed_32(groups: Lanes) -> Lanes {
    let pairs = groups.and(Lanes::all_32(0x007f_007f)).or(groups.shifted_32::<1>().and(Lanes::all_32(0x3f80_3f80)));
    let zigzag = pairs.and(Lanes::all_32(0x3fff)).or(pairs.shifted_32::<2>().and(Lanes::all_32(0x0fff_c000)));
    zigzag.shifted_32::<1>().xor(Lanes::zero().minus_32(zigzag.and(Lanes::all_32(1))))
}

/// Groups of seven bits, in bytes, pushed together within each lane of 16 bits, and signs.
#[inline(always)]
fn signed_16(groups: Lanes) -> Lanes {
    let zigzag = groups.and(Lanes::all_16(0x7f)).or(groups.shifted_16::<1>().and(Lanes::all_16(0x3f80)));
    zigzag.shifted_16::<1>().xor(Lanes::zero().minus_16(zigzag.and(Lanes::all_16(1))))
}

/// Two varints of at most four bytes each as lanes of 32 bits, with two lanes of zero after them, and their length, if
/// neither is longer.
#[inline(always)]
pub fn two(bytes: &Ahead) -> Option<(Lanes, usize)> {
    let first = load(bytes, 0);
    let tops = (first.tops() & 255) as usize;
    let groups = first.at(Lanes::load_half(&TABLES.two[tops]));
    fitting(signed_32(groups.first_half()), TABLES.two_length[tops] as usize)
}

/// Four varints of at most four bytes each as lanes of 32 bits, and their length, if none is longer.
#[inline(always)]
pub fn four(bytes: &Ahead) -> Option<(Lanes, usize)> {
    let first = load(bytes, 0);
    let tops = first.tops();
    let these = (tops & 255) as usize;
    let length = TABLES.two_length[these];
    let those = (tops >> (length & 31) & 255) as usize;
    let low = first.at(Lanes::load_half(&TABLES.two[these]));
    let high = load(bytes, length as usize).at(Lanes::load_half(&TABLES.two[those]));
    fitting(signed_32(low.first_halves(high)), length as usize + TABLES.two_length[those] as usize)
}

#[inline(always)]
fn fitting(lanes: Lanes, length: usize) -> Option<(Lanes, usize)> {
    if length < TOO_LONG as usize {
        Some((lanes, length))
    } else {
        None
    }
}

/// Eight varints of at most two bytes each as lanes of 16 bits, and their length, if none is longer.
#[inline(always)]
pub fn eight(bytes: &Ahead) -> Option<(Lanes, usize)> {
    let (lanes, these, those) = halves(bytes);
    fitting(lanes, TABLES.lengths[2][these] as usize + TABLES.lengths[2][those] as usize)
}

/// `count` pairs of varints of at most two bytes each, four pairs at most, with lanes of zero after them, and their
/// length, if none is longer.
#[inline(always)]
pub fn pairs(bytes: &Ahead, count: usize) -> Option<(Lanes, usize)> {
    let (lanes, these, those) = halves(bytes);
    let (of_these, of_those) = (count.min(2), count.saturating_sub(2));
    let length = TABLES.lengths[of_these][these] as usize + TABLES.lengths[of_those][those] as usize;
    fitting(lanes.and(Lanes::load(&KEPT[count])), length)
}

/// Twice four varints as lanes of 16 bits, and the top bits by which the tables know them.
#[inline(always)]
fn halves(bytes: &Ahead) -> (Lanes, usize, usize) {
    let first = load(bytes, 0);
    let tops = first.tops();
    let these = (tops & 255) as usize;
    let length = TABLES.lengths[2][these];
    let those = (tops >> (length & 31) & 255) as usize;
    let low = first.at(Lanes::load_half(&TABLES.four[these]));
    let high = load(bytes, length as usize).at(Lanes::load_half(&TABLES.four[those]));
    (signed_16(low.first_halves(high)), these, those)
}

/// Which of 64 bytes end a varint, the first one's bit lowest.
#[inline(always)]
pub fn ends(bytes: &[u8; 64]) -> u64 {
    let tops = |place| load(bytes, place).tops() as u64;
    !(tops(0) | tops(16) << 16 | tops(32) << 32 | tops(48) << 48)
}

/// Whether each four bytes, counted from the first, have an end: then no varint takes more than seven bytes.
#[inline(always)]
pub fn each_four_end(ends: u64) -> bool {
    let pairs = ends | ends >> 1;
    !(pairs | pairs >> 2) & 0x1111_1111_1111_1111 == 0
}

/// Which byte ends the varint of this number, from 1 on. There must be as many ends.
#[inline(always)]
pub fn end_of(varint: u64, ends: u64) -> usize {
    let pairs = ends - (ends >> 1 & 0x5555_5555_5555_5555);
    let fours = (pairs & 0x3333_3333_3333_3333) + (pairs >> 2 & 0x3333_3333_3333_3333);
    // In each byte the number of ends up to there.
    let ended = (fours + (fours >> 4) & 0x0f0f_0f0f_0f0f_0f0f).wrapping_mul(ONES);
    // The bits before the first byte that has as many.
    let before = (((ended | TOPS) - varint * ONES) & TOPS).trailing_zeros() & 56;
    let left = varint - (ended << 8 >> before & 255);
    before as usize + NTH[(ends >> before & 255) as usize][(left - 1 & 7) as usize] as usize
}
