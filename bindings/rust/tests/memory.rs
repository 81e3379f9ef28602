//! Memory that is refused: what takes it says so, and what takes none goes on.

// Clippy of Rust 1.63, Debian's, says that of the constant in what `thread_local` makes.
#![allow(clippy::declare_interior_mutable_const)]

use dozhemik::{Hit, Layer, OwnedLayer, Span, Window};
use std::alloc::{GlobalAlloc, Layout, System};
use std::cell::Cell;
use std::ptr;
use std::str::FromStr;

/// A text of no window, with more than an error keeps.
const LONG: &str = "x=10..9,y=000000000000000000000000000000000000000000000000000000000000000000000000000000000000000000000000000000000000000000000000000000000000";

/// The system's memory, of which a thread may be refused all calls but the first few.
struct Refusing;

thread_local! {
    static LEFT: Cell<usize> = const { Cell::new(usize::MAX) };
}

/// Takes one from the calls that are left, where there is one.
fn is_left() -> bool {
    LEFT.with(|left| {
        let calls = left.get();
        left.set(calls.saturating_sub(1));
        calls > 0
    })
}

// Sound: it gives what the system gives, or nothing.
unsafe impl GlobalAlloc for Refusing {
    unsafe fn alloc(&self, layout: Layout) -> *mut u8 {
        if is_left() {
            System.alloc(layout)
        } else {
            ptr::null_mut()
        }
    }

    unsafe fn dealloc(&self, place: *mut u8, layout: Layout) {
        System.dealloc(place, layout);
    }
}

#[global_allocator]
static MEMORY: Refusing = Refusing;

/// What a call answers that is given memory `times` times, and then no more.
fn given<T>(times: usize, call: impl FnOnce() -> T) -> T {
    LEFT.with(|left| left.set(times));
    let answer = call();
    LEFT.with(|left| left.set(usize::MAX));
    answer
}

/// Points at 1 2.
fn points(count: usize) -> Vec<u8> {
    [1, 0, 2, 4].repeat(count)
}

#[test]
fn a_list_takes_memory_once() {
    let bytes = points(10);
    let layer = Layer::certify(&bytes).unwrap();
    assert!(given(0, || layer.list()).is_err());
    assert_eq!(given(1, || layer.list()).unwrap().len(), 10);
}

#[test]
fn a_scan_says_that_memory_is_refused() {
    let bytes = points(10);
    let layer = Layer::certify(&bytes).unwrap();
    let window = "x=0..9,y=0..9".parse().unwrap();
    // The first room is too small for ten hits.
    assert!(given(0, || layer.scan(&window)).is_err());
    assert!(given(1, || layer.scan(&window)).is_err());
    assert_eq!(given(2, || layer.scan(&window)).unwrap().hits.len(), 10);
    let nothing = "x=5..9,y=0..9".parse().unwrap();
    assert_eq!(given(1, || layer.scan(&nothing)).unwrap().hits, []);
}

#[test]
fn a_directory_takes_memory_once() {
    let bytes = points(10);
    let layer = Layer::certify(&bytes).unwrap();
    assert!(given(0, || layer.directory()).is_err());
    let directory = given(1, || layer.directory()).unwrap();
    let window = "x=0..9,y=0..9".parse().unwrap();
    assert!(given(1, || directory.scan(&window)).is_err());
    assert_eq!(given(2, || directory.scan(&window)).unwrap().hits.len(), 10);
    let mut room = [Hit::default(); 10];
    assert_eq!(given(0, || directory.scan_into(&window, &mut room)).hits, 10);
}

#[test]
fn scans_for_many_windows_say_that_memory_is_refused() {
    let bytes = points(10);
    let directory = Layer::certify(&bytes).unwrap().directory().unwrap();
    let windows =
        ["x=0..9,y=0..9".parse().unwrap(), "x=5..9,y=0..9".parse().unwrap(), "x=0..9,y=0..9".parse().unwrap()];
    let wanted: Vec<_> = windows.iter().map(|window| directory.scan(window).unwrap()).collect();
    // Four times for what is known of the windows and for the first room, once for a larger one, and twice for hits.
    for times in 0..7 {
        assert!(given(times, || directory.scan_many(&windows)).is_err(), "{times}");
    }
    assert_eq!(given(7, || directory.scan_many(&windows)).unwrap(), wanted);
    assert_eq!(given(1, || directory.scan_many(&[])).unwrap(), []);
}

#[test]
fn holding_bytes_takes_no_memory() {
    let bytes = points(10);
    let layer = given(0, || OwnedLayer::certify(bytes)).unwrap();
    let window = "x=0..9,y=0..9".parse().unwrap();
    let directory = given(1, || layer.into_directory()).unwrap();
    let mut room = [Hit::default(); 10];
    assert_eq!(given(0, || directory.scan_into(&window, &mut room)).hits, 10);
    assert!(given(0, || directory.scan(&window)).is_err());
    let layer = given(0, || directory.into_layer());
    assert!(given(0, || layer.into_directory()).is_err());
}

#[test]
fn the_rest_takes_no_memory() {
    let bytes = points(10);
    let mut room = [Hit::default(); 10];
    given(0, || {
        let layer = Layer::certify(&bytes).unwrap();
        assert_eq!(Layer::certify_tight(&bytes).unwrap().blobs(), 10);
        assert_eq!(layer.scan_into(&"x=0..9,y=0..9".parse().unwrap(), &mut room).hits, 10);
        let span = Span::from_coordinates(0.5..=9.25).unwrap();
        assert_eq!(layer.scan_into(&Window::new(span, span), &mut []).hits, 10);
        assert!(Span::from_coordinates(-f64::MAX..=5e-324).is_ok());
        assert!(Span::from_decimals("0.1", "0.12345678901234567890").is_ok());
        // Nor does an error, whose text is kept in place.
        assert!(Window::from_bbox([0.0, 0.0, -1.0, f64::NAN]).is_err());
        assert!(Window::from_str(LONG).is_err() && Span::from_decimals(LONG, LONG).is_err());
        assert_eq!(layer.blob(room[9]), Some(&[1, 0, 2, 4][..]));
        let empty = Layer::certify(&[]).unwrap();
        assert!(empty.list().unwrap().is_empty());
    });
}
