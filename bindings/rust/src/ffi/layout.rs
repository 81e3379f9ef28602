//! Sizes and places of what crosses the border, the same as in `bindings/c/layout.c`. Compiled, never run.
// Older compilers don't see that constants use what is here.
#![allow(dead_code)]

use super::{Layer, Slot, Span, Units, Verdict, Window};
use crate::{Hit, Kind, Row, Scanned};
use std::mem::{align_of, size_of};

/// The bytes of a value from a place on, read as another type.
///
/// # Safety
///
/// There has to be such a value there. As these are constants, the compiler refuses any other.
const unsafe fn at<T, F: Copy>(value: &T, place: usize) -> F {
    // Sound: it is what the caller owes.
    unsafe { *(value as *const T).cast::<u8>().add(place).cast::<F>() }
}

/// Asserts a struct's size and alignment in bytes and, by a value whose fields differ, the place of each field.
macro_rules! laid_out {
    ($size:literal, $type:ident $value:tt, $($field:ty: $place:literal is $holds:literal),+) => {
        const _: () = {
            assert!(size_of::<$type>() == $size && align_of::<$type>() == 8);
            const VALUE: $type = $type $value;
            // Sound, as each place is tried while this is compiled.
            $(assert!(unsafe { at::<$type, $field>(&VALUE, $place) } == $holds);)+
        };
    };
}

const KIND: Kind = Kind::Polygon;

const fn units(low: u64) -> Units {
    Units { low, high: low as i64 + 1 }
}

const fn span(low: u64) -> Span {
    Span { lo: units(low), hi: units(low + 2) }
}

laid_out!(40, Verdict { answer: 1, kind: 2, blobs: 3, vertices: 4, blob: 5, offset: 6 },
    u32: 0 is 1, u32: 4 is 2, usize: 8 is 3, usize: 16 is 4, usize: 24 is 5, usize: 32 is 6);
laid_out!(32, Layer { bytes: std::ptr::null(), len: 1, blobs: 2, vertices: 3 },
    usize: 8 is 1, usize: 16 is 2, usize: 24 is 3);
laid_out!(40, Row {
        blob: 1, offset: 2, bytes: 3, vertices: 4, kind: KIND, precision: -8, has_size: true, has_box: false
    },
    usize: 0 is 1, usize: 8 is 2, usize: 16 is 3, usize: 24 is 4, u8: 32 is 3, i8: 33 is -8, u8: 34 is 1, u8: 35 is 0);
laid_out!(16, Units { low: 1, high: -2 }, u64: 0 is 1, i64: 8 is -2);
laid_out!(32, Span { lo: units(1), hi: units(3) }, u64: 0 is 1, i64: 8 is 2, u64: 16 is 3, i64: 24 is 4);
laid_out!(136, Window { x: span(1), y: span(5), z: span(9), m: span(13), has_z: true, has_m: false },
    u64: 0 is 1, u64: 32 is 5, u64: 64 is 9, u64: 96 is 13, u8: 128 is 1, u8: 129 is 0);
laid_out!(24, Hit { blob: 1, offset: 2, bytes: 3 }, usize: 0 is 1, usize: 8 is 2, usize: 16 is 3);
laid_out!(24, Slot { word: 1, first: 2, second: 3 }, u64: 0 is 1, u64: 8 is 2, u64: 16 is 3);
laid_out!(16, Scanned { hits: 1, bytes_read: 2 }, usize: 0 is 1, u64: 8 is 2);
