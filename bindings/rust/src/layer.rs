//! A certified layer.

use crate::{ffi, CertifyError, Directory, Hit, Refusal, RefusalKind, Row, Scan, Scanned, Window};
use std::collections::TryReserveError;
use std::fmt;
use std::mem::{size_of, MaybeUninit};

/// A certified layer. It borrows its bytes, and is as small as a slice and two numbers.
///
/// A layer is only made from bytes that were certified, and the borrow keeps them unchanged. So every result is about
/// the certified bytes. A layer may be copied, and used by many threads at once. An [`OwnedLayer`](crate::OwnedLayer)
/// holds its bytes.
///
/// It can't outlive its bytes:
///
/// ```compile_fail,E0597
/// # use dozhemik::Layer;
/// let layer = {
///     let bytes = vec![1, 0, 2, 4];
///     Layer::certify(&bytes).unwrap()
/// };
/// layer.list().unwrap();
/// ```
///
/// While the layer is used, nobody can write its bytes:
///
/// ```compile_fail,E0506
/// # use dozhemik::Layer;
/// let mut bytes = [1, 0, 2, 4];
/// let layer = Layer::certify(&bytes).unwrap();
/// bytes[0] = 2;
/// layer.list().unwrap();
/// ```
///
/// Don't pass a mapped file that another process may write to: it isn't a valid `&[u8]`.
#[derive(Clone, Copy)]
pub struct Layer<'a> {
    bytes: &'a [u8],
    blobs: usize,
    vertices: usize,
}

impl<'a> Layer<'a> {
    /// Certifies bytes as a layer: every size is the number of bytes of its geometry after it, every box holds all
    /// vertices of its geometry, and the ids of each list differ.
    ///
    /// # Errors
    ///
    /// [`CertifyError::Refused`] names the first blob that is malformed or has a false claim, the offset and the kind.
    /// [`CertifyError::NoMemory`] is returned only if there is no memory for a list of more than sixteen ids.
    pub fn certify(bytes: &'a [u8]) -> Result<Layer<'a>, CertifyError> {
        // Sound: a slice's pointer is good for its length and isn't null, and nobody writes what is borrowed.
        let verdict = unsafe { ffi::twkb_certify(bytes.as_ptr(), bytes.len()) };
        Layer::judged(bytes, verdict)
    }

    /// Certifies as [`certify`](Layer::certify) does, and also refuses boxes that are true and larger than they have to
    /// be.
    ///
    /// Such a box is *loose*. Scans rarely skip it, but find the same hits.
    ///
    /// # Errors
    ///
    /// As for [`certify`](Layer::certify), with [`RefusalKind::Loose`] among the kinds.
    pub fn certify_tight(bytes: &'a [u8]) -> Result<Layer<'a>, CertifyError> {
        // Sound: a slice's pointer is good for its length and isn't null, and nobody writes what is borrowed.
        let verdict = unsafe { ffi::twkb_certify_tight(bytes.as_ptr(), bytes.len()) };
        Layer::judged(bytes, verdict)
    }

    fn judged(bytes: &'a [u8], verdict: ffi::Verdict) -> Result<Layer<'a>, CertifyError> {
        match verdict.answer {
            ffi::CERTIFIED => Ok(Layer { bytes, blobs: verdict.blobs, vertices: verdict.vertices }),
            ffi::REFUSED => Err(CertifyError::Refused(Refusal {
                blob: verdict.blob,
                offset: verdict.offset,
                kind: RefusalKind::numbered(verdict.kind),
            })),
            ffi::NO_MEMORY => Err(CertifyError::NoMemory),
            _ => unreachable!("the library has three answers"),
        }
    }

    /// A layer of bytes that were certified before.
    ///
    /// # Safety
    ///
    /// These bytes were certified with these numbers.
    pub(crate) const unsafe fn certified(bytes: &'a [u8], blobs: usize, vertices: usize) -> Layer<'a> {
        Layer { bytes, blobs, vertices }
    }

    /// The bytes that were certified.
    pub const fn bytes(&self) -> &'a [u8] {
        self.bytes
    }

    /// How many blobs there are.
    pub const fn blobs(&self) -> usize {
        self.blobs
    }

    /// How many vertices the blobs have, at all depths.
    pub const fn vertices(&self) -> usize {
        self.vertices
    }

    /// A row for each blob, in the order of the layer.
    ///
    /// # Errors
    ///
    /// If there is no memory for the rows, which take 40 bytes each.
    pub fn list(&self) -> Result<Vec<Row>, TryReserveError> {
        let mut rows = Vec::new();
        rows.try_reserve_exact(self.blobs)?;
        let room: &mut [MaybeUninit<Row>] = rows.spare_capacity_mut();
        // Sound: the layer is certified, and the room is the vector's own; it is written and never read.
        let blobs = unsafe { ffi::twkb_list(&self.lent(), room.as_mut_ptr().cast(), room.len()) };
        let written = blobs.min(room.len());
        // Sound: the library has written a row for each blob, as many as fit.
        unsafe { rows.set_len(written) };
        Ok(rows)
    }

    /// The blobs that have a vertex inside the window, in the order of the layer, and how many bytes were read to find
    /// them.
    ///
    /// ```
    /// # use dozhemik::{Layer, Window};
    /// # fn main() -> Result<(), Box<dyn std::error::Error>> {
    /// let layer = Layer::certify(&[1, 0, 2, 4])?;
    /// for hit in layer.scan(&"x=0..1,y=0..2".parse()?)? {
    ///     println!("blob {} begins at {}", hit.blob, hit.offset);
    /// }
    /// # Ok(())
    /// # }
    /// ```
    ///
    /// It first allocates as many bytes for hits as the layer has. If there are more hits, it scans again.
    ///
    /// # Errors
    ///
    /// If there is no memory for the hits, which take 24 bytes each, or for the first allocation.
    pub fn scan(&self, window: &Window) -> Result<Scan, TryReserveError> {
        scan_growing(self, |room| self.scan_spare(window, room))
    }

    /// The bytes of a blob, by a [`Hit`] or a [`Row`] of this layer. Returns `None` if it extends beyond the layer.
    ///
    /// ```
    /// # use dozhemik::Layer;
    /// # fn main() -> Result<(), Box<dyn std::error::Error>> {
    /// let layer = Layer::certify(&[1, 0, 2, 4, 1, 0, 6, 8])?;
    /// let scan = layer.scan(&"x=3..3,y=0..9".parse()?)?;
    /// assert_eq!(layer.blob(&scan.hits[0]), Some(&[1, 0, 6, 8][..]));
    /// assert_eq!(layer.blob(&layer.list()?[0]), Some(&[1, 0, 2, 4][..]));
    /// # Ok(())
    /// # }
    /// ```
    pub fn blob(&self, hit: impl Into<Hit>) -> Option<&'a [u8]> {
        let hit = hit.into();
        self.bytes.get(hit.offset..hit.offset.checked_add(hit.bytes)?)
    }

    /// A directory, whose scans read as many bytes as if the blobs whose box misses the window weren't there.
    ///
    /// # Errors
    ///
    /// If there is no memory for it: it takes 96 bytes for each blob.
    pub fn directory(&self) -> Result<Directory<'a>, TryReserveError> {
        Directory::of(*self)
    }

    /// Writes the blobs that have a vertex inside the window to `room`, from its start on, in the order of the layer,
    /// as many as fit. It allocates no memory and can't fail.
    ///
    /// ```
    /// # use dozhemik::{Hit, Layer, Window};
    /// # fn main() -> Result<(), Box<dyn std::error::Error>> {
    /// let layer = Layer::certify(&[1, 0, 2, 4])?;
    /// // A room that is kept for all windows, and has a place for each blob.
    /// let mut room = vec![Hit::default(); layer.blobs()];
    /// let scanned = layer.scan_into(&"x=0..1,y=0..2".parse()?, &mut room);
    /// assert_eq!(&room[..scanned.hits], [Hit { blob: 0, offset: 0, bytes: 4 }]);
    /// # Ok(())
    /// # }
    /// ```
    ///
    /// The number of hits may be greater than the length of `room`. The places after the hits are unchanged.
    pub fn scan_into(&self, window: &Window, room: &mut [Hit]) -> Scanned {
        let window = window.lent();
        // Sound: the layer is certified, the window is this function's, and the room is borrowed by it alone.
        unsafe { ffi::twkb_scan(&self.lent(), &window, room.as_mut_ptr(), room.len()) }
    }

    fn scan_spare(&self, window: &Window, room: &mut [MaybeUninit<Hit>]) -> Scanned {
        let window = window.lent();
        // Sound: the same, and the library writes the room and never reads it.
        unsafe { ffi::twkb_scan(&self.lent(), &window, room.as_mut_ptr().cast(), room.len()) }
    }

    /// The layer as the library takes it, for as long as a call.
    pub(crate) fn lent(&self) -> ffi::Layer {
        ffi::Layer { bytes: self.bytes.as_ptr(), len: self.bytes.len(), blobs: self.blobs, vertices: self.vertices }
    }
}

impl fmt::Debug for Layer<'_> {
    /// Its numbers, and not its bytes.
    fn fmt(&self, f: &mut fmt::Formatter<'_>) -> fmt::Result {
        let len = self.bytes.len();
        write!(f, "Layer {{ bytes: [..; {len}], blobs: {}, vertices: {} }}", self.blobs, self.vertices)
    }
}

/// Scans into as much memory as the layer itself takes, and again where there are more hits. The scan writes as many
/// hits as it answers, or as many as fit.
pub(crate) fn scan_growing<F>(layer: &Layer<'_>, scan: F) -> Result<Scan, TryReserveError>
where
    F: Fn(&mut [MaybeUninit<Hit>]) -> Scanned,
{
    let mut room = first_room(layer);
    loop {
        let mut hits = Vec::new();
        hits.try_reserve_exact(room)?;
        let scanned = scan(hits.spare_capacity_mut());
        if scanned.hits <= hits.capacity() {
            // Sound: the library has written as many hits as it answers, as they fit.
            unsafe { hits.set_len(scanned.hits) };
            return Ok(Scan { hits: fitted(hits)?, bytes_read: scanned.bytes_read });
        }
        room = scanned.hits;
    }
}

/// How many hits there is room for at first: they take as many bytes as the layer has, or fewer.
pub(crate) fn first_room(layer: &Layer<'_>) -> usize {
    layer.blobs.min(layer.bytes.len() / size_of::<Hit>() + 1)
}

/// The hits, moved to memory of their own size.
fn fitted(hits: Vec<Hit>) -> Result<Vec<Hit>, TryReserveError> {
    if hits.len() == hits.capacity() {
        return Ok(hits);
    }
    copied(&hits)
}

/// The hits, in memory of their own size.
pub(crate) fn copied(hits: &[Hit]) -> Result<Vec<Hit>, TryReserveError> {
    let mut copy = Vec::new();
    copy.try_reserve_exact(hits.len())?;
    copy.extend_from_slice(hits);
    Ok(copy)
}
