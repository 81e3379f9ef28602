//! Where the varints in eight bytes are, by the top bits of these bytes.

/// A length that says that a varint is too long for its lane. It is the top bit of a byte, and no sum of two lengths
/// below it has this bit.
pub const TOO_LONG: u8 = 128;
/// A place that gives a byte of zero.
const NOWHERE: u8 = 255;

/// For each pattern of top bits, two varints as lanes of 32 bits, or four as lanes of 16 bits.
pub struct Tables {
    /// The places of the bytes of two varints of at most four bytes each, four for each varint.
    pub two: [[u8; 8]; 256],
    /// How long both are together, or `TOO_LONG`.
    pub two_length: [u8; 256],
    /// The places of the bytes of four varints of at most two bytes each, two for each varint.
    pub four: [[u8; 8]; 256],
    /// How long none of these are, the first two, and all four, or `TOO_LONG`.
    pub lengths: [[u8; 256]; 3],
}

pub static TABLES: Tables = tables();

const fn tables() -> Tables {
    let mut tables = Tables {
        two: [[NOWHERE; 8]; 256],
        two_length: [TOO_LONG; 256],
        four: [[NOWHERE; 8]; 256],
        lengths: [[0; 256], [TOO_LONG; 256], [TOO_LONG; 256]],
    };
    let mut tops = 0;
    while tops < 256 {
        let (two, [_, length]) = varints::<2>(tops);
        (tables.two[tops], tables.two_length[tops]) = (two, length);
        let (four, [half, length]) = varints::<4>(tops);
        (tables.four[tops], tables.lengths[1][tops], tables.lengths[2][tops]) = (four, half, length);
        tops += 1;
    }
    tables
}

/// The places of the bytes of `COUNT` varints, as far as they fit, and how long the first half and all of them are.
const fn varints<const COUNT: usize>(tops: usize) -> ([u8; 8], [u8; 2]) {
    let (room, mut places, mut lengths) = (8 / COUNT, [NOWHERE; 8], [TOO_LONG; 2]);
    let (mut start, mut varint) = (0, 0);
    while varint < COUNT {
        let mut end = start;
        while end < 8 && tops >> end & 1 == 1 {
            end += 1;
        }
        if end == 8 || end - start >= room {
            return (places, lengths);
        }
        let mut byte = start;
        while byte <= end {
            places[room * varint + byte - start] = byte as u8;
            byte += 1;
        }
        (start, varint) = (end + 1, varint + 1);
        if varint == COUNT / 2 {
            lengths[0] = start as u8;
        }
    }
    lengths[1] = start as u8;
    (places, lengths)
}

/// By a count of at most four: a mask that keeps that many lanes of 32 bits, and makes the rest zero.
pub static KEPT: [[u8; 16]; 5] = kept();

const fn kept() -> [[u8; 16]; 5] {
    let mut kept = [[0; 16]; 5];
    let mut place = 0;
    while place < 5 * 16 {
        let (count, byte) = (place / 16, place % 16);
        if byte < 4 * count {
            kept[count][byte] = 255;
        }
        place += 1;
    }
    kept
}

/// Which bit of a byte is the first, the second and so on that is set.
pub static NTH: [[u8; 8]; 256] = nth();

const fn nth() -> [[u8; 8]; 256] {
    let mut nth = [[0; 8]; 256];
    let mut byte = 0;
    while byte < 256 {
        let (mut bit, mut set) = (0, 0);
        while bit < 8 {
            if byte >> bit & 1 == 1 {
                nth[byte][set] = bit as u8;
                set += 1;
            }
            bit += 1;
        }
        byte += 1;
    }
    nth
}
