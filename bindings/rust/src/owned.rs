//! Layers and directories that hold their bytes.

use crate::directory::Slots;
use crate::{CertifyError, FixedBytes, Hit, Layer, Scan, Scanned, Window};
use std::collections::TryReserveError;
use std::fmt;

/// A certified layer that holds its bytes, for programs that keep layers.
///
/// ```
/// # use dozhemik::{OwnedLayer, Window};
/// # use std::sync::Arc;
/// # fn main() -> Result<(), Box<dyn std::error::Error>> {
/// fn read() -> Vec<u8> {
///     vec![1, 0, 2, 4]
/// }
/// let layer = Arc::new(OwnedLayer::certify(read())?);
/// let window: Window = "x=0..1,y=0..2".parse()?;
/// let shared = layer.clone();
/// let hits = std::thread::spawn(move || shared.layer().scan(&window)).join().unwrap()?.hits;
/// assert_eq!(layer.layer().blob(&hits[0]), Some(&[1, 0, 2, 4][..]));
/// # Ok(())
/// # }
/// ```
#[derive(Clone)]
pub struct OwnedLayer<B> {
    bytes: B,
    blobs: usize,
    vertices: usize,
}

impl<B: FixedBytes> OwnedLayer<B> {
    /// Certifies bytes as [`Layer::certify`] does, and holds them.
    ///
    /// # Errors
    ///
    /// As for [`Layer::certify`]. The bytes are dropped then: hold them in an `Arc<[u8]>` to keep them.
    pub fn certify(bytes: B) -> Result<OwnedLayer<B>, CertifyError> {
        let layer = Layer::certify(bytes.as_ref())?;
        let (blobs, vertices) = (layer.blobs(), layer.vertices());
        Ok(OwnedLayer { bytes, blobs, vertices })
    }

    /// Certifies bytes as [`Layer::certify_tight`] does, and holds them.
    ///
    /// # Errors
    ///
    /// As for [`Layer::certify_tight`]. The bytes are dropped then.
    pub fn certify_tight(bytes: B) -> Result<OwnedLayer<B>, CertifyError> {
        let layer = Layer::certify_tight(bytes.as_ref())?;
        let (blobs, vertices) = (layer.blobs(), layer.vertices());
        Ok(OwnedLayer { bytes, blobs, vertices })
    }

    /// The layer, which has the scans and the list. It can't outlive this one:
    ///
    /// ```compile_fail,E0505
    /// # use dozhemik::OwnedLayer;
    /// let owned = OwnedLayer::certify(vec![1, 0, 2, 4]).unwrap();
    /// let layer = owned.layer();
    /// drop(owned);
    /// layer.list().unwrap();
    /// ```
    pub fn layer(&self) -> Layer<'_> {
        // Sound: these bytes were certified with these numbers, and are unchanged.
        unsafe { Layer::certified(self.bytes.as_ref(), self.blobs, self.vertices) }
    }

    /// A directory, which holds this layer.
    ///
    /// # Errors
    ///
    /// If there is no memory for it: it takes 96 bytes for each blob. The layer is then dropped.
    pub fn into_directory(self) -> Result<OwnedDirectory<B>, TryReserveError> {
        let slots = Slots::of(&self.layer())?;
        Ok(OwnedDirectory { layer: self, slots })
    }

    /// The bytes.
    pub fn into_bytes(self) -> B {
        self.bytes
    }
}

impl<B> fmt::Debug for OwnedLayer<B> {
    /// Its numbers, and none of its bytes.
    fn fmt(&self, f: &mut fmt::Formatter<'_>) -> fmt::Result {
        write!(f, "OwnedLayer {{ blobs: {}, vertices: {} }}", self.blobs, self.vertices)
    }
}

/// A directory that holds its layer. [`OwnedLayer::into_directory`] makes it.
///
/// Its scans return what scans by a [`Directory`](crate::Directory) return. A clone has slots of its own; like a clone of a
/// `Vec`, it ends the program if there is no memory for them.
///
/// ```
/// # use dozhemik::OwnedLayer;
/// # fn main() -> Result<(), Box<dyn std::error::Error>> {
/// let directory = OwnedLayer::certify(vec![1, 0, 2, 4])?.into_directory()?;
/// let scan = directory.scan(&"x=0..1,y=0..2".parse()?)?;
/// assert_eq!(scan.hits.len(), 1);
/// # Ok(())
/// # }
/// ```
#[derive(Clone)]
pub struct OwnedDirectory<B> {
    layer: OwnedLayer<B>,
    slots: Slots,
}

impl<B: FixedBytes> OwnedDirectory<B> {
    /// The layer of this directory.
    pub fn layer(&self) -> Layer<'_> {
        self.layer.layer()
    }

    /// Finds what [`Layer::scan`] finds, and reads as many bytes as if the blobs whose box misses the window weren't there.
    ///
    /// # Errors
    ///
    /// As for [`Layer::scan`].
    pub fn scan(&self, window: &Window) -> Result<Scan, TryReserveError> {
        // Sound: the slots were built for this layer.
        unsafe { self.slots.scan(&self.layer(), window) }
    }

    /// A scan for each window, as [`Directory::scan_many`](crate::Directory::scan_many) makes them.
    ///
    /// # Errors
    ///
    /// As for [`Directory::scan_many`](crate::Directory::scan_many).
    pub fn scan_many(&self, windows: &[Window]) -> Result<Vec<Scan>, TryReserveError> {
        // Sound: the slots were built for this layer.
        unsafe { self.slots.scan_many(&self.layer(), windows) }
    }

    /// Writes what [`scan`](OwnedDirectory::scan) finds to `room`, as [`Layer::scan_into`] does. It allocates no memory and
    /// can't fail.
    pub fn scan_into(&self, window: &Window, room: &mut [Hit]) -> Scanned {
        // Sound: the slots were built for this layer.
        unsafe { self.slots.scan_into(&self.layer(), window, room) }
    }

    /// The layer without the directory.
    pub fn into_layer(self) -> OwnedLayer<B> {
        self.layer
    }
}

impl<B> fmt::Debug for OwnedDirectory<B> {
    /// Its layer, and how many slots it has.
    fn fmt(&self, f: &mut fmt::Formatter<'_>) -> fmt::Result {
        write!(f, "OwnedDirectory {{ layer: {:?}, slots: [..; {}] }}", self.layer, self.slots.len())
    }
}
