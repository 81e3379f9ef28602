//! Layers: certified and refused, listed, and scanned into rooms of all sizes.

use dozhemik::{CertifyError, Hit, Kind, Layer, Refusal, RefusalKind, Row, Scanned, Span, Window};
use std::error::Error;
use std::mem::size_of;
use std::ops::RangeInclusive;
use std::thread;

/// A line from 1 1 to 5 5 that has a size and a box, and a point at 10 10 that has a box.
const TWO: [u8; 20] = [2, 3, 9, 2, 8, 2, 8, 2, 2, 2, 8, 8, 1, 1, 20, 0, 20, 0, 20, 20];
/// The first of them alone.
const LINE: usize = 12;
const NO_HIT: Hit = Hit { blob: usize::MAX, offset: usize::MAX, bytes: usize::MAX };

fn window(text: &str) -> Window {
    text.parse().expect("a window")
}

fn refused(bytes: &[u8]) -> Refusal {
    match Layer::certify(bytes) {
        Err(CertifyError::Refused(refusal)) => refusal,
        other => panic!("{other:?}"),
    }
}

/// The line with one of its bytes changed.
fn changed(place: usize, byte: u8) -> Vec<u8> {
    let mut bytes = TWO[..LINE].to_vec();
    bytes[place] = byte;
    bytes
}

/// Points without a size or a box, at 0 0, 1 1 and so on.
fn points(count: u8) -> Vec<u8> {
    (0..count).flat_map(|at| [1, 0, 2 * at, 2 * at]).collect()
}

#[test]
fn certifies_two_blobs() {
    let layer = Layer::certify(&TWO).unwrap();
    assert_eq!((layer.blobs(), layer.vertices(), layer.bytes()), (2, 3, &TWO[..]));
    assert_eq!(format!("{layer:?}"), "Layer { bytes: [..; 20], blobs: 2, vertices: 3 }");
}

#[test]
fn no_bytes_are_a_layer() {
    for certify in [Layer::certify, Layer::certify_tight] {
        let layer = certify(&[]).unwrap();
        assert_eq!((layer.blobs(), layer.vertices(), layer.bytes().len()), (0, 0, 0));
        assert_eq!(layer.list().unwrap(), []);
        let everything = window("x=-1000..1000,y=-1000..1000");
        assert_eq!(layer.scan(&everything).unwrap().hits, []);
        assert_eq!(layer.scan_into(&everything, &mut []), Scanned { hits: 0, bytes_read: 0 });
        assert_eq!(layer.scan_into(&everything, &mut [NO_HIT]), Scanned { hits: 0, bytes_read: 0 });
    }
}

#[test]
fn names_what_is_wrong() {
    let cases = [
        (changed(0, 0x0b), 0, RefusalKind::Type, "type"),
        (changed(1, 0x01), 12, RefusalKind::Cut, "cut"),
        (changed(2, 0x0a), 2, RefusalKind::Size, "size"),
        (changed(11, 0x0a), 3, RefusalKind::Box, "box"),
        (vec![1, 0, 0x80, 0x80, 0x80, 0x80, 0x80, 0x80, 0x80, 0x80, 0x80, 2], 2, RefusalKind::Varint, "varint"),
        ([7, 0, 1].repeat(64), 189, RefusalKind::Depth, "depth"),
        (vec![4, 4, 2, 2, 2, 0, 0, 0, 0], 3, RefusalKind::Ids, "ids"),
    ];
    for (bytes, offset, kind, word) in cases {
        let refusal = refused(&bytes);
        assert_eq!((refusal.offset, refusal.kind), (offset, kind), "{bytes:?}");
        assert_eq!((refusal.kind.as_str(), refusal.kind.to_string().as_str()), (word, word));
        assert_eq!(Layer::certify_tight(&bytes).unwrap_err(), CertifyError::Refused(refusal));
    }
}

#[test]
fn a_coordinate_of_more_than_64_bits_is_out_of_range() {
    // A line from 2^63 - 1, and on by 1.
    let mut bytes = vec![2, 0, 2, 0xfe];
    bytes.extend([0xff; 8]);
    bytes.extend([1, 0, 2, 0]);
    assert_eq!(refused(&bytes).kind, RefusalKind::Range);
}

#[test]
fn names_the_first_blob_that_is_wrong() {
    let mut bytes = TWO;
    bytes[19] = 22;
    let refusal = refused(&bytes);
    assert_eq!(refusal, Refusal { blob: 1, offset: 14, kind: RefusalKind::Box });
    assert_eq!(refusal.to_string(), "blob=1 offset=14 kind=box");
    assert_eq!(Layer::certify(&bytes).unwrap_err().to_string(), "refused: blob=1 offset=14 kind=box");
}

#[test]
fn every_front_is_certified_or_cut() {
    for len in 0..=TWO.len() {
        match Layer::certify(&TWO[..len]) {
            Ok(layer) => assert!(matches!((len, layer.blobs()), (0, 0) | (LINE, 1) | (20, 2))),
            Err(CertifyError::Refused(refusal)) => assert_eq!(refusal.kind, RefusalKind::Cut),
            Err(other) => panic!("no list is there: {other}"),
        }
    }
}

#[test]
fn only_tight_checking_refuses_loose_boxes() {
    // The line's box from 0, and not from 1.
    let loose = [2, 1, 0, 10, 2, 8, 2, 2, 2, 8, 8];
    assert_eq!(Layer::certify(&loose).unwrap().vertices(), 2);
    let error = Layer::certify_tight(&loose).unwrap_err();
    assert_eq!(error, CertifyError::Refused(Refusal { blob: 0, offset: 2, kind: RefusalKind::Loose }));
    assert_eq!(error.to_string(), "refused: blob=0 offset=2 kind=loose");
    assert_eq!(Layer::certify_tight(&TWO).unwrap().vertices(), 3);
}

#[test]
fn errors_can_be_boxed() {
    fn fails() -> Result<(), Box<dyn Error + Send + Sync>> {
        Layer::certify(&[0])?;
        Ok(())
    }
    assert_eq!(fails().unwrap_err().to_string(), "refused: blob=0 offset=0 kind=type");
    assert_eq!(CertifyError::NoMemory.to_string(), "out of memory");
}

#[test]
fn lists_each_blob() {
    let line = Row {
        blob: 0,
        offset: 0,
        bytes: 12,
        vertices: 2,
        kind: Kind::LineString,
        precision: 0,
        has_size: true,
        has_box: true,
    };
    let point = Row {
        blob: 1,
        offset: 12,
        bytes: 8,
        vertices: 1,
        kind: Kind::Point,
        precision: 0,
        has_size: false,
        has_box: true,
    };
    assert_eq!(Layer::certify(&TWO).unwrap().list().unwrap(), [line, point]);
}

#[test]
fn lists_every_type_and_precision() {
    let words = [
        (Kind::Point, "point"),
        (Kind::LineString, "linestring"),
        (Kind::Polygon, "polygon"),
        (Kind::MultiPoint, "multipoint"),
        (Kind::MultiLineString, "multilinestring"),
        (Kind::MultiPolygon, "multipolygon"),
        (Kind::GeometryCollection, "geometrycollection"),
    ];
    for (number, (kind, word)) in (1..).zip(words) {
        for (zigzag, precision) in [(0, 0), (1, -1), (2, 1), (14, 7), (15, -8)] {
            // Empty geometries.
            let rows = Layer::certify(&[zigzag << 4 | number, 16]).unwrap().list().unwrap();
            assert_eq!((rows.len(), rows[0].kind, rows[0].precision, rows[0].vertices), (1, kind, precision, 0));
            assert_eq!((kind.as_str(), format!("{kind:>20}")), (word, format!("{word:>20}")));
        }
    }
}

#[test]
fn scans_hop() {
    let layer = Layer::certify(&TWO).unwrap();
    let scan = layer.scan(&window("x=10..10,y=10..10")).unwrap();
    assert_eq!((&scan.hits[..], scan.bytes_read), (&[Hit { blob: 1, offset: 12, bytes: 8 }][..], 15));
    let all = layer.scan(&window("x=0..10,y=0..10")).unwrap();
    assert_eq!(all.hits, [Hit { blob: 0, offset: 0, bytes: 12 }, Hit { blob: 1, offset: 12, bytes: 8 }]);
    assert_eq!((&all).into_iter().map(|hit| hit.blob).collect::<Vec<_>>(), [0, 1]);
    assert_eq!(all.into_iter().map(|hit| hit.offset).collect::<Vec<_>>(), [0, 12]);
    assert_eq!(layer.scan(&window("x=2..3,y=2..3")).unwrap().hits, []);
}

#[test]
fn scans_look_at_z_and_m() {
    // A point with Z and M at 1 2 3 4.
    let layer = Layer::certify(&[1, 8, 3, 2, 4, 6, 8]).unwrap();
    let hits = |text| layer.scan(&window(text)).unwrap().hits.len();
    assert_eq!(hits("x=1..1,y=2..2"), 1);
    assert_eq!(hits("x=1..1,y=2..2,z=3..3,m=4..4"), 1);
    assert_eq!(hits("x=1..1,y=2..2,z=4..4"), 0);
    assert_eq!(hits("x=1..1,y=2..2,m=3..3"), 0);
    // What has no Z is in no range of it.
    assert_eq!(Layer::certify(&TWO).unwrap().scan(&window("x=0..10,y=0..10,z=0..0")).unwrap().hits, []);
}

#[test]
fn units_of_more_than_64_bits_are_compared_to_the_last() {
    // A point at 10^14 10^14.
    let layer = Layer::certify(&[0xf1, 0, 0x80, 0x89, 0x7a, 0x80, 0x89, 0x7a]).unwrap();
    let at = 10_i128.pow(21);
    let hits = |x: RangeInclusive<i128>, y: RangeInclusive<i128>| {
        let window = Window::new(Span::from_units(x).unwrap(), Span::from_units(y).unwrap());
        layer.scan(&window).unwrap().hits.len()
    };
    assert_eq!(hits(at..=at, at..=at), 1);
    assert_eq!(hits(i128::MIN..=i128::MAX, -at..=at), 1);
    assert_eq!(hits(at + 1..=2 * at, 0..=2 * at), 0);
    assert_eq!(hits(0..=at - 1, 0..=2 * at), 0);
    assert_eq!(hits(0..=2 * at, at + 1..=i128::MAX), 0);
    assert_eq!(hits(0..=2 * at, i128::MIN..=at - 1), 0);
}

#[test]
fn rooms_are_filled_as_far_as_they_go() {
    let bytes = points(9);
    let layer = Layer::certify(&bytes).unwrap();
    let window = window("x=2..7,y=0..9");
    let all = layer.scan(&window).unwrap();
    assert_eq!(all.hits.len(), 6);
    for size in 0..10 {
        let mut room = vec![NO_HIT; size];
        let scanned = layer.scan_into(&window, &mut room);
        assert_eq!(scanned, Scanned { hits: 6, bytes_read: all.bytes_read });
        let fit = size.min(6);
        assert_eq!(room[..fit], all.hits[..fit]);
        assert!(room[fit..].iter().all(|hit| *hit == NO_HIT));
    }
}

#[test]
fn more_hits_than_bytes_for_them_are_found_all() {
    // A hit takes more memory than a blob.
    assert!(size_of::<Hit>() > 4);
    let bytes = points(60);
    let layer = Layer::certify(&bytes).unwrap();
    let scan = layer.scan(&window("x=0..100,y=0..100")).unwrap();
    assert_eq!(scan.hits, (0..60).map(|blob| Hit { blob, offset: 4 * blob, bytes: 4 }).collect::<Vec<_>>());
    assert_eq!(scan.bytes_read, 240);
    assert_eq!(scan.hits.capacity(), 60);
}

#[test]
fn a_layer_goes_to_other_threads() {
    fn is_shared<T: Send + Sync + Copy + 'static>() {}
    is_shared::<Layer<'static>>();
    is_shared::<Window>();
    is_shared::<CertifyError>();
    let bytes = points(50);
    let layer = Layer::certify(&bytes).unwrap();
    let window = window("x=10..29,y=0..100");
    thread::scope(|scope| {
        for _ in 0..8 {
            scope.spawn(|| {
                for _ in 0..100 {
                    assert_eq!(layer.scan(&window).unwrap().hits.len(), 20);
                    assert_eq!(layer.list().unwrap().len(), 50);
                }
            });
        }
    });
}

#[test]
fn blobs_are_cut_out_by_hits_and_rows() {
    let layer = Layer::certify(&TWO).unwrap();
    let rows = layer.list().unwrap();
    let hits = layer.scan(&window("x=0..10,y=0..10")).unwrap().hits;
    assert_eq!(hits, rows.iter().map(Hit::from).collect::<Vec<_>>());
    for (hit, row) in hits.iter().zip(&rows) {
        assert_eq!(layer.blob(hit), Some(&TWO[row.offset..row.offset + row.bytes]));
        assert_eq!((layer.blob(*hit), layer.blob(*row)), (layer.blob(row), layer.blob(row)));
    }
    // Hits of another layer.
    for (offset, bytes) in [(0, 21), (20, 1), (21, 0), (1, usize::MAX), (usize::MAX, 1), (usize::MAX, usize::MAX)] {
        assert_eq!(layer.blob(Hit { blob: 0, offset, bytes }), None);
    }
}

#[test]
fn bytes_may_be_leaked() {
    let layer: Layer<'static> = Layer::certify(Vec::leak(points(3))).unwrap();
    assert_eq!(thread::spawn(move || layer.list().unwrap().len()).join().unwrap(), 3);
}
