//! The border to the proved library, as `bindings/c/twkb.h` says it.

use crate::{Hit, Row, Scanned};
use std::os::raw::c_char;

mod layout;

pub(crate) const CERTIFIED: u32 = 0;
pub(crate) const REFUSED: u32 = 1;
pub(crate) const NO_MEMORY: u32 = 2;

pub(crate) const READ: u32 = 0;
pub(crate) const BAD_FORM: u32 = 1;
pub(crate) const BAD_ORDER: u32 = 2;

#[repr(C)]
#[derive(Clone, Copy)]
pub(crate) struct Verdict {
    pub(crate) answer: u32,
    pub(crate) kind: u32,
    pub(crate) blobs: usize,
    pub(crate) vertices: usize,
    pub(crate) blob: usize,
    pub(crate) offset: usize,
}

#[repr(C)]
#[derive(Clone, Copy)]
pub(crate) struct Layer {
    pub(crate) bytes: *const u8,
    pub(crate) len: usize,
    pub(crate) blobs: usize,
    pub(crate) vertices: usize,
}

#[repr(C)]
#[derive(Clone, Copy)]
pub(crate) struct Units {
    pub(crate) low: u64,
    pub(crate) high: i64,
}

#[repr(C)]
#[derive(Clone, Copy)]
pub(crate) struct Span {
    pub(crate) lo: Units,
    pub(crate) hi: Units,
}

#[repr(C)]
#[derive(Clone, Copy)]
pub(crate) struct Window {
    pub(crate) x: Span,
    pub(crate) y: Span,
    pub(crate) z: Span,
    pub(crate) m: Span,
    pub(crate) has_z: bool,
    pub(crate) has_m: bool,
}

#[repr(C)]
#[derive(Clone, Copy)]
pub(crate) struct Slot {
    pub(crate) word: u64,
    pub(crate) first: u64,
    pub(crate) second: u64,
}

/// How many slots a blob has at most: `TWKB_MOST_SLOTS` of the header.
pub(crate) const MOST_SLOTS: usize = 4;

extern "C" {
    pub(crate) fn twkb_certify(bytes: *const u8, len: usize) -> Verdict;
    pub(crate) fn twkb_certify_tight(bytes: *const u8, len: usize) -> Verdict;
    pub(crate) fn twkb_list(layer: *const Layer, rows: *mut Row, room: usize) -> usize;
    pub(crate) fn twkb_window_parse(text: *const c_char, len: usize, window: *mut Window) -> u32;
    pub(crate) fn twkb_span_of_decimals(
        lo: *const c_char,
        lo_len: usize,
        hi: *const c_char,
        hi_len: usize,
        span: *mut Span,
    ) -> u32;
    pub(crate) fn twkb_scan(layer: *const Layer, window: *const Window, hits: *mut Hit, room: usize) -> Scanned;
    pub(crate) fn twkb_directory_build(layer: *const Layer, slots: *mut Slot, room: usize) -> usize;
    pub(crate) fn twkb_directory_scan(
        layer: *const Layer,
        slots: *const Slot,
        count: usize,
        window: *const Window,
        hits: *mut Hit,
        room: usize,
    ) -> Scanned;
    pub(crate) fn twkb_directory_scan_many(
        layer: *const Layer,
        slots: *const Slot,
        count: usize,
        windows: *const Window,
        many: usize,
        scanned: *mut Scanned,
        results: usize,
        hits: *mut Hit,
        room: usize,
    ) -> usize;
}
