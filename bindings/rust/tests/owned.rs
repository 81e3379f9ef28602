//! Layers and directories that hold their bytes.

use dozhemik::{CertifyError, FixedBytes, Layer, OwnedDirectory, OwnedLayer, RefusalKind, Vouched, Window};
use std::rc::Rc;
use std::sync::Arc;
use std::thread;

/// A line from 1 1 to 5 5 that has a size and a box, and a point at 10 10 that has a box.
const TWO: [u8; 20] = [2, 3, 9, 2, 8, 2, 8, 2, 2, 2, 8, 8, 1, 1, 20, 0, 20, 0, 20, 20];
const WINDOWS: [&str; 3] = ["x=-1000..1000,y=-1000..1000", "x=9.5..12,y=10..10", "x=200..300,y=0..1"];

fn window(text: &str) -> Window {
    text.parse().expect("a window")
}

/// Whatever holds the bytes, an owned layer answers as the borrowed one does.
fn answers_alike<B: FixedBytes + Clone>(bytes: B) {
    let data = bytes.as_ref().to_vec();
    let wanted = Layer::certify(&data).unwrap();
    let owned = OwnedLayer::certify(bytes.clone()).unwrap();
    let layer = owned.layer();
    assert_eq!((layer.blobs(), layer.vertices(), layer.bytes()), (2, 3, wanted.bytes()));
    assert_eq!(layer.list().unwrap(), wanted.list().unwrap());
    assert_eq!(OwnedLayer::certify_tight(bytes).unwrap().layer().blobs(), 2);
    let directory = owned.clone().into_directory().unwrap();
    for text in WINDOWS {
        let scan = directory.scan(&window(text)).unwrap();
        assert_eq!(scan, wanted.directory().unwrap().scan(&window(text)).unwrap());
        assert_eq!(owned.layer().scan(&window(text)).unwrap(), wanted.scan(&window(text)).unwrap());
        for hit in &scan {
            assert_eq!(directory.layer().blob(hit), wanted.blob(hit));
        }
    }
    let windows = WINDOWS.map(window);
    let scans = directory.scan_many(&windows).unwrap();
    assert_eq!(scans, wanted.directory().unwrap().scan_many(&windows).unwrap());
    assert_eq!(directory.into_layer().into_bytes().as_ref(), data);
}

#[test]
fn all_kinds_of_bytes_are_held() {
    let map = Map(TWO.to_vec());
    answers_alike(TWO.to_vec());
    answers_alike(TWO.to_vec().into_boxed_slice());
    answers_alike::<Arc<[u8]>>(Arc::from(TWO));
    answers_alike::<Rc<[u8]>>(Rc::from(TWO));
    answers_alike(&TWO[..]);
    // Sound: nobody has another way to these bytes.
    answers_alike(unsafe { Vouched::new(map) });
}

/// What gives out bytes, as a memory map does.
#[derive(Clone)]
struct Map(Vec<u8>);

impl AsRef<[u8]> for Map {
    fn as_ref(&self) -> &[u8] {
        &self.0
    }
}

#[test]
fn what_is_refused_is_not_held() {
    let mut bytes = TWO.to_vec();
    bytes[11] = 10;
    let refused = |error| matches!(error, CertifyError::Refused(refusal) if refusal.kind == RefusalKind::Box);
    let shared: Arc<[u8]> = Arc::from(bytes);
    assert!(refused(OwnedLayer::certify(shared.clone()).unwrap_err()));
    assert!(refused(OwnedLayer::certify_tight(shared.clone()).unwrap_err()));
    assert_eq!((Arc::strong_count(&shared), shared[11]), (1, 10));
    let loose = vec![2, 1, 0, 10, 2, 8, 2, 2, 2, 8, 8];
    assert_eq!(OwnedLayer::certify(loose.clone()).unwrap().layer().blobs(), 1);
    assert!(OwnedLayer::certify_tight(loose).is_err());
}

#[test]
fn no_bytes_are_held() {
    let directory = OwnedLayer::certify(Vec::new()).unwrap().into_directory().unwrap();
    assert_eq!((directory.layer().blobs(), directory.scan(&window(WINDOWS[0])).unwrap().hits.len()), (0, 0));
}

#[test]
fn a_service_keeps_them_for_its_threads() {
    fn is_sent<T: Send + Sync + 'static>() {}
    is_sent::<OwnedLayer<Vec<u8>>>();
    is_sent::<OwnedDirectory<Arc<[u8]>>>();
    let directory = Arc::new(OwnedLayer::certify(TWO.repeat(100)).unwrap().into_directory().unwrap());
    let threads: Vec<_> = (0..8)
        .map(|_| {
            let directory = Arc::clone(&directory);
            thread::spawn(move || directory.scan(&window(WINDOWS[1])).unwrap().hits.len())
        })
        .collect();
    for thread in threads {
        assert_eq!(thread.join().unwrap(), 100);
    }
}

#[test]
fn debug_shows_numbers() {
    let layer = OwnedLayer::certify(TWO.to_vec()).unwrap();
    assert_eq!(format!("{layer:?}"), "OwnedLayer { blobs: 2, vertices: 3 }");
    let directory = layer.into_directory().unwrap();
    let shown = format!("{directory:?}");
    assert!(shown.starts_with("OwnedDirectory { layer: OwnedLayer { blobs: 2, vertices: 3 }, slots: [..; "), "{shown}");
    // Sound: nobody has another way to these bytes.
    assert_eq!(format!("{:?}", unsafe { Vouched::new(TWO) }), "Vouched([..; 20])");
}
