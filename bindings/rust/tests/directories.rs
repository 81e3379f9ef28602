//! Directories: what they find, and how much they read.

use dozhemik::{Hit, Layer, Scanned, Window};
use std::thread;

/// A line from 1 1 to 5 5 that has a size and a box, and a point at 10 10 that has a box.
const TWO: [u8; 20] = [2, 3, 9, 2, 8, 2, 8, 2, 2, 2, 8, 8, 1, 1, 20, 0, 20, 0, 20, 20];
const NO_HIT: Hit = Hit { blob: usize::MAX, offset: usize::MAX, bytes: usize::MAX };
const WINDOWS: [&str; 5] = [
    "x=-1000..1000,y=-1000..1000",
    "x=9.5..12,y=10..10",
    "x=0..2,y=0..2",
    "x=200..300,y=0..1",
    "x=0..20,y=0..20,z=0..9",
];

fn window(text: &str) -> Window {
    text.parse().expect("a window")
}

/// The two blobs and points without a box, over and over.
fn many() -> Vec<u8> {
    (0..100).flat_map(|at| [&TWO[..], &[1, 0, at, at]].concat()).collect()
}

#[test]
fn finds_what_layers_find_and_reads_no_more() {
    for bytes in [vec![], TWO.to_vec(), many(), [1, 0, 0, 0].repeat(50)] {
        let layer = Layer::certify(&bytes).unwrap();
        let directory = layer.directory().unwrap();
        for text in WINDOWS {
            let (wanted, scan) = (layer.scan(&window(text)).unwrap(), directory.scan(&window(text)).unwrap());
            assert_eq!(scan.hits, wanted.hits, "{text}");
            assert!(scan.bytes_read <= wanted.bytes_read, "{text}");
        }
    }
}

#[test]
fn reads_nothing_where_boxes_miss() {
    let layer = Layer::certify(&TWO).unwrap();
    let scan = layer.directory().unwrap().scan(&window("x=200..300,y=0..1")).unwrap();
    assert_eq!((scan.hits.len(), scan.bytes_read), (0, 0));
}

#[test]
fn fills_rooms_as_far_as_they_go() {
    let bytes = many();
    let directory = Layer::certify(&bytes).unwrap().directory().unwrap();
    for text in WINDOWS {
        let all = directory.scan(&window(text)).unwrap();
        for room in [0, 1, 2, 150, 300, 303] {
            let mut hits = vec![NO_HIT; room];
            let scanned = directory.scan_into(&window(text), &mut hits);
            assert_eq!(scanned, Scanned { hits: all.hits.len(), bytes_read: all.bytes_read });
            let fit = room.min(all.hits.len());
            assert_eq!(hits[..fit], all.hits[..fit]);
            assert!(hits[fit..].iter().all(|hit| *hit == NO_HIT));
        }
    }
}

#[test]
fn many_windows_get_what_each_alone_gets() {
    let all: Vec<Window> = WINDOWS.iter().map(|text| window(text)).collect();
    // Twice, so that the windows have more hits together than the layer has blobs; and so few points that no hit fits at first.
    let twice = [&all[..], &all[..]].concat();
    for bytes in [vec![], TWO.to_vec(), many(), [1, 0, 0, 0].repeat(50)] {
        let directory = Layer::certify(&bytes).unwrap().directory().unwrap();
        for windows in [&twice[..], &all[..], &all[..1], &[]] {
            let wanted: Vec<_> = windows.iter().map(|window| directory.scan(window).unwrap()).collect();
            assert_eq!(directory.scan_many(windows).unwrap(), wanted);
        }
    }
}

#[test]
fn a_clone_finds_the_same() {
    let bytes = many();
    let directory = Layer::certify(&bytes).unwrap().directory().unwrap();
    let copy = directory.clone();
    let scans: Vec<_> = WINDOWS.iter().map(|text| directory.scan(&window(text)).unwrap()).collect();
    drop(directory);
    for (text, wanted) in WINDOWS.iter().zip(scans) {
        assert_eq!(copy.scan(&window(text)).unwrap(), wanted);
    }
}

#[test]
fn is_shared_by_threads_and_outlives_its_layer() {
    let bytes = many();
    let directory = Layer::certify(&bytes).unwrap().directory().unwrap();
    assert_eq!(directory.layer().blobs(), 300);
    let wanted = directory.scan(&window(WINDOWS[1])).unwrap();
    thread::scope(|scope| {
        for _ in 0..8 {
            scope.spawn(|| assert_eq!(directory.scan(&window(WINDOWS[1])).unwrap(), wanted));
        }
    });
    assert!(format!("{directory:?}").starts_with("Directory { layer: Layer { bytes: [..; 2400], blobs: 300"));
}
