//! Words and varints. A reader is the slice that is left.

/// The top bit of each byte: set where a varint goes on.
pub const TOPS: u64 = 0x8080_8080_8080_8080;
pub const ONES: u64 = 0x0101_0101_0101_0101;

/// The next eight bytes, the first one lowest.
#[inline(always)]
pub fn word(rest: &[u8]) -> Option<u64> {
    Some(u64::from_le_bytes(*rest.first_chunk::<8>()?))
}

#[inline(always)]
pub fn unzigzag(number: u64) -> i64 {
    (number >> 1) as i64 ^ -((number & 1) as i64)
}

/// Groups of seven bits, in bytes, pushed together within each half of the word.
#[inline(always)]
fn packed(groups: u64) -> u64 {
    let pairs = (groups & 0x007f_007f_007f_007f) | (groups >> 1 & 0x3f80_3f80_3f80_3f80);
    (pairs & 0x0000_3fff_0000_3fff) | (pairs >> 2 & 0x0fff_c000_0fff_c000)
}

/// The next unsigned varint, of at most eight bytes, and the bytes after it.
#[inline(always)]
pub fn unsigned(rest: &[u8]) -> Option<(u64, &[u8])> {
    let (&first, after) = rest.split_first()?;
    if first < 128 {
        return Some((first as u64, after));
    }
    let (&second, after) = after.split_first()?;
    if second < 128 {
        return Some(((first & 127) as u64 | (second as u64) << 7, after));
    }
    long_unsigned(rest)
}

#[inline(never)]
fn long_unsigned(rest: &[u8]) -> Option<(u64, &[u8])> {
    let mut bytes = [255; 8];
    let there = rest.len().min(8);
    bytes[..there].copy_from_slice(&rest[..there]);
    let word = u64::from_le_bytes(bytes);
    let ends = !word & TOPS;
    let value = packed(word & (ends ^ ends.wrapping_sub(1)));
    let after = rest.get((ends.trailing_zeros() >> 3) as usize + 1..)?;
    if ends == 0 {
        return None;
    }
    Some((value & 0x0fff_ffff | value >> 4 & 0x00ff_ffff_f000_0000, after))
}

/// The next two signed varints, of at most eight bytes each. One comparison tells twice two bytes and twice one byte.
#[inline(always)]
pub fn pair(rest: &[u8]) -> Option<(i64, i64, &[u8])> {
    let word = word(rest).unwrap_or(TOPS);
    if word & 0x8080_8080 == 0x0080_0080 {
        let both = (word & 0x007f_007f) | (word >> 1 & 0x3f80_3f80);
        return Some((unzigzag(both & 0x3fff), unzigzag(both >> 16), &rest[4..]));
    }
    if word & 0x8080 == 0 {
        return Some((unzigzag(word & 127), unzigzag(word >> 8 & 127), &rest[2..]));
    }
    mixed_pair(rest)
}

/// `pair` without its comparison. With at most four bytes each, both are read at once, with no branch on their lengths.
#[inline(always)]
pub fn mixed_pair(rest: &[u8]) -> Option<(i64, i64, &[u8])> {
    if let Some(word) = word(rest) {
        let ends = !word & TOPS;
        if ends as u32 != 0 {
            // The first in the lower half, the second in the upper one, each cut after its end.
            let shift = (ends as u32).trailing_zeros() + 1;
            let halves = word as u32 as u64 | (word >> (shift & 63)) << 32;
            let stops = !halves & TOPS;
            let second = ends & ends.wrapping_sub(1);
            if stops >> 32 != 0 && second != 0 {
                let both = packed(halves & (stops ^ stops.wrapping_sub(0x0000_0001_0000_0001)));
                let odd = both & 0x0000_0001_0000_0001;
                let both = ((both ^ odd) >> 1) ^ (odd << 32).wrapping_sub(odd);
                // The end of the second doesn't wait for the length of the first.
                let after = &rest[(second.trailing_zeros() >> 3) as usize + 1..];
                return Some((both as i32 as i64, both as i64 >> 32, after));
            }
        }
    }
    long_pair(rest)
}

#[inline(never)]
fn long_pair(rest: &[u8]) -> Option<(i64, i64, &[u8])> {
    let (x, rest) = unsigned(rest)?;
    let (y, rest) = unsigned(rest)?;
    Some((unzigzag(x), unzigzag(y), rest))
}

/// The bytes after a given number of varints, of at most seven bytes each, or eight in the first word of a body. Their
/// ends are counted, a word at a time: nothing waits for the length of a varint.
#[inline(always)]
pub fn skip(mut rest: &[u8], mut varints: u64, first: bool) -> Option<&[u8]> {
    // Each word has an end among its first four bytes (the first word: five), and one among its last four.
    let mut low = if first { TOPS >> 24 } else { TOPS >> 32 };
    while varints > 0 {
        let ends = !word(rest)? & TOPS;
        // In each byte the number of varints that end up to there.
        let ended = (ends >> 7).wrapping_mul(ONES);
        if ends & low == 0 {
            return None;
        }
        if ended >> 56 >= varints {
            let there = ((ended | TOPS) - varints * ONES) & TOPS;
            return rest.get((there.trailing_zeros() >> 3) as usize + 1..);
        }
        if ends >> 32 == 0 {
            return None;
        }
        varints -= ended >> 56;
        low = TOPS >> 32;
        rest = &rest[8..];
    }
    Some(rest)
}
