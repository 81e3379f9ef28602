//! Sixteen bytes in a vector register, and what a processor of x86-64-v2 does with them in one or two instructions. No
//! other file has intrinsics.
use std::arch::x86_64::*;

#[cfg(not(all(target_feature = "ssse3", target_feature = "sse4.1", target_feature = "popcnt")))]
compile_error!("compile this for x86-64-v2: rustc -C target-cpu=x86-64-v2");

/// An intrinsic. Rust calls all of them unsafe, since a processor may lack the instruction. The program isn't compiled
/// for a processor that does (see above). None of those that are called by this macro touches memory.
macro_rules! instruction {
    ($name:ident $(::<$number:tt>)? ($($argument:expr),*)) => {
        unsafe { $name $(::<$number>)? ($($argument),*) }
    };
}

/// Sixteen bytes, eight numbers of 16 bits, or four of 32. Sums and differences wrap.
#[derive(Clone, Copy)]
pub struct Lanes(__m128i);

/// Where bytes come from.
impl Lanes {
    #[inline(always)]
    pub fn load(bytes: &[u8; 16]) -> Lanes {
        // SAFETY: the sixteen bytes are there, and the load needs no alignment.
        Lanes(unsafe { _mm_loadu_si128(bytes.as_ptr().cast()) })
    }

    /// Eight bytes, and eight zeros after them.
    #[inline(always)]
    pub fn load_half(bytes: &[u8; 8]) -> Lanes {
        // SAFETY: the eight bytes are there, and the load needs no alignment.
        Lanes(unsafe { _mm_loadl_epi64(bytes.as_ptr().cast()) })
    }

    #[inline(always)]
    pub fn of_32(numbers: [i32; 4]) -> Lanes {
        let [first, second, third, fourth] = numbers;
        Lanes(instruction!(_mm_setr_epi32(first, second, third, fourth)))
    }

    #[inline(always)]
    pub fn all_32(number: i32) -> Lanes {
        Lanes(instruction!(_mm_set1_epi32(number)))
    }

    #[inline(always)]
    pub fn all_16(number: i16) -> Lanes {
        Lanes(instruction!(_mm_set1_epi16(number)))
    }

    #[inline(always)]
    pub fn zero() -> Lanes {
        Lanes(instruction!(_mm_setzero_si128()))
    }
}

/// Bits.
impl Lanes {
    #[inline(always)]
    pub fn and(self, other: Lanes) -> Lanes {
        Lanes(instruction!(_mm_and_si128(self.0, other.0)))
    }

    #[inline(always)]
    pub fn or(self, other: Lanes) -> Lanes {
        Lanes(instruction!(_mm_or_si128(self.0, other.0)))
    }

    #[inline(always)]
    pub fn xor(self, other: Lanes) -> Lanes {
        Lanes(instruction!(_mm_xor_si128(self.0, other.0)))
    }

    /// Each number shifted to the right, with zeros in front.
    #[inline(always)]
    pub fn shifted_32<const BITS: i32>(self) -> Lanes {
        Lanes(instruction!(_mm_srli_epi32::<BITS>(self.0)))
    }

    #[inline(always)]
    pub fn shifted_16<const BITS: i32>(self) -> Lanes {
        Lanes(instruction!(_mm_srli_epi16::<BITS>(self.0)))
    }

    /// The top bit of each byte, the first byte's lowest.
    #[inline(always)]
    pub fn tops(self) -> u32 {
        instruction!(_mm_movemask_epi8(self.0)) as u32
    }

    /// The sign of each number of 32 bits: set where it is negative.
    #[inline(always)]
    pub fn signs(self) -> u32 {
        let numbers = instruction!(_mm_castsi128_ps(self.0));
        instruction!(_mm_movemask_ps(numbers)) as u32
    }
}

/// Numbers.
impl Lanes {
    #[inline(always)]
    pub fn plus_32(self, other: Lanes) -> Lanes {
        Lanes(instruction!(_mm_add_epi32(self.0, other.0)))
    }

    #[inline(always)]
    pub fn plus_16(self, other: Lanes) -> Lanes {
        Lanes(instruction!(_mm_add_epi16(self.0, other.0)))
    }

    #[inline(always)]
    pub fn minus_32(self, other: Lanes) -> Lanes {
        Lanes(instruction!(_mm_sub_epi32(self.0, other.0)))
    }

    #[inline(always)]
    pub fn minus_16(self, other: Lanes) -> Lanes {
        Lanes(instruction!(_mm_sub_epi16(self.0, other.0)))
    }

    /// All bits of a number where it is greater than the other's, else none.
    #[inline(always)]
    pub fn greater_32(self, other: Lanes) -> Lanes {
        Lanes(instruction!(_mm_cmpgt_epi32(self.0, other.0)))
    }

    /// The first four numbers of 16 bits, in 32 bits.
    #[inline(always)]
    pub fn widened(self) -> Lanes {
        Lanes(instruction!(_mm_cvtepi16_epi32(self.0)))
    }

    /// The last four numbers of 16 bits, in 32 bits.
    #[inline(always)]
    pub fn widened_last(self) -> Lanes {
        let twice = instruction!(_mm_unpackhi_epi16(self.0, self.0));
        Lanes(instruction!(_mm_srai_epi32::<16>(twice)))
    }
}

/// Places.
impl Lanes {
    /// The bytes at these places; zero where a place is 128 or more.
    #[inline(always)]
    pub fn at(self, places: Lanes) -> Lanes {
        Lanes(instruction!(_mm_shuffle_epi8(self.0, places.0)))
    }

    /// The numbers of 32 bits at these places, each of two bits, the first one's lowest.
    #[inline(always)]
    pub fn at_32<const PLACES: i32>(self) -> Lanes {
        Lanes(instruction!(_mm_shuffle_epi32::<PLACES>(self.0)))
    }

    /// Two numbers of 32 bits from here, and then two from the other.
    #[inline(always)]
    pub fn at_32_of_both<const PLACES: i32>(self, other: Lanes) -> Lanes {
        let (these, those) = (instruction!(_mm_castsi128_ps(self.0)), instruction!(_mm_castsi128_ps(other.0)));
        let picked = instruction!(_mm_shuffle_ps::<PLACES>(these, those));
        Lanes(instruction!(_mm_castps_si128(picked)))
    }

    /// The first half, and then the first half of the other.
    #[inline(always)]
    pub fn first_halves(self, other: Lanes) -> Lanes {
        Lanes(instruction!(_mm_unpacklo_epi64(self.0, other.0)))
    }

    /// The first half, and zeros after it.
    #[inline(always)]
    pub fn first_half(self) -> Lanes {
        Lanes(instruction!(_mm_move_epi64(self.0)))
    }

    /// `BYTES` zeros, and then the first bytes, as many as still fit.
    #[inline(always)]
    pub fn moved<const BYTES: i32>(self) -> Lanes {
        Lanes(instruction!(_mm_slli_si128::<BYTES>(self.0)))
    }
}
