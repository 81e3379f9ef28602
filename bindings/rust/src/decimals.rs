//! The exact decimal texts of floats.

use std::fmt::{self, Write};

/// The longest text of a float: the least one has 1,074 decimals, and the greatest one 309 digits.
const LONGEST: usize = "-0.".len() + 1074;

/// The exact text of a float, in place.
pub(crate) struct Text {
    bytes: [u8; LONGEST],
    len: usize,
}

impl Text {
    /// The text of just this number, with all its decimals. What isn't finite has none.
    pub(crate) fn of(number: f64) -> Option<Text> {
        let mut text = Text { bytes: [0; LONGEST], len: 0 };
        if !number.is_finite() {
            return None;
        }
        write!(text, "{number:.*}", decimals(number)).ok()?;
        Some(text)
    }

    pub(crate) fn as_bytes(&self) -> &[u8] {
        &self.bytes[..self.len]
    }
}

impl Write for Text {
    fn write_str(&mut self, piece: &str) -> fmt::Result {
        let room = self.bytes[self.len..].get_mut(..piece.len()).ok_or(fmt::Error)?;
        room.copy_from_slice(piece.as_bytes());
        self.len += piece.len();
        Ok(())
    }
}

/// How many decimals a number has: as many as it takes halvings to get from 1 to its lowest bit.
fn decimals(number: f64) -> usize {
    const FRACTION: u32 = f64::MANTISSA_DIGITS - 1;
    let bits = number.to_bits();
    let exponent = (bits >> FRACTION & 0x7ff) as i32;
    let fraction = bits & ((1 << FRACTION) - 1);
    // The number is whole * 2^power. Numbers of the least exponent have no leading 1.
    let (whole, power) = match exponent {
        0 => (fraction, 1),
        _ => (fraction | 1 << FRACTION, exponent),
    };
    if whole == 0 {
        return 0;
    }
    let lowest = power - 1023 - FRACTION as i32 + whole.trailing_zeros() as i32;
    (-lowest).max(0) as usize
}

#[cfg(test)]
mod tests {
    use super::{decimals, Text};

    fn text(number: f64) -> String {
        String::from_utf8(Text::of(number).unwrap().as_bytes().to_vec()).unwrap()
    }

    #[test]
    fn texts_are_exact() {
        let known = [
            (0.0, "0"),
            (-0.0, "-0"),
            (1.5, "1.5"),
            (-0.25, "-0.25"),
            (1e23, "99999999999999991611392"),
            (0.1, "0.1000000000000000055511151231257827021181583404541015625"),
            (0.1 + 0.2, "0.3000000000000000444089209850062616169452667236328125"),
        ];
        for (number, wanted) in known {
            assert_eq!(text(number), wanted);
        }
        assert_eq!(text(f64::MAX).len(), 309);
        assert!(text(-5e-324).starts_with("-0.000") && text(-5e-324).ends_with("447265625"));
        assert_eq!((text(-5e-324).len(), decimals(f64::MIN_POSITIVE)), (1077, 1022));
    }

    #[test]
    fn what_is_not_finite_has_no_text() {
        for number in [f64::NAN, f64::INFINITY, f64::NEG_INFINITY] {
            assert!(Text::of(number).is_none());
        }
    }

    #[test]
    fn no_decimal_is_left_out_or_added() {
        let mut number = 1.0e-320;
        while number < 1e300 {
            let text = text(number);
            assert_eq!(text.parse(), Ok(number));
            if let Some((_, decimals)) = text.split_once('.') {
                // The lowest bit is a power of a half, whose last decimal is a five.
                assert!(decimals.ends_with('5'), "{text}");
            }
            number *= 1.7;
        }
    }
}
