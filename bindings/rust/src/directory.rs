//! A directory of a layer.

use crate::layer::{copied, first_room, scan_growing};
use crate::{ffi, Hit, Layer, Scan, Scanned, Window};
use std::collections::TryReserveError;
use std::fmt;
use std::mem::MaybeUninit;

/// The offsets and boxes of a layer's blobs. Its scans read as many bytes as if the blobs whose box misses the window
/// weren't there.
///
/// [`Layer::directory`] makes it. It holds its layer, so it can't be used with another one or outlive the bytes:
///
/// ```compile_fail,E0597
/// # use dozhemik::Layer;
/// let directory = {
///     let bytes = vec![1, 0, 2, 4];
///     Layer::certify(&bytes).unwrap().directory().unwrap()
/// };
/// directory.scan(&"x=0..1,y=0..2".parse().unwrap()).unwrap();
/// ```
///
/// It may be used by many threads at once. An [`OwnedDirectory`](crate::OwnedDirectory) holds its bytes too. A clone has
/// slots of its own; like a clone of a `Vec`, it ends the program if there is no memory for them.
#[derive(Clone)]
pub struct Directory<'a> {
    layer: Layer<'a>,
    slots: Slots,
}

impl<'a> Directory<'a> {
    pub(crate) fn of(layer: Layer<'a>) -> Result<Directory<'a>, TryReserveError> {
        Ok(Directory { layer, slots: Slots::of(&layer)? })
    }

    /// The layer of this directory.
    pub const fn layer(&self) -> Layer<'a> {
        self.layer
    }

    /// Finds what [`Layer::scan`] finds, and reads as many bytes as if the blobs whose box misses the window weren't there.
    ///
    /// ```
    /// # use dozhemik::{Hit, Layer};
    /// # fn main() -> Result<(), Box<dyn std::error::Error>> {
    /// // Two points that have a box, at 1 1 and at 10 10.
    /// let layer = Layer::certify(&[1, 1, 2, 0, 2, 0, 2, 2, 1, 1, 20, 0, 20, 0, 20, 20])?;
    /// let directory = layer.directory()?;
    /// let window = "x=9..12,y=9..12".parse()?;
    /// let scan = directory.scan(&window)?;
    /// assert_eq!(scan.hits, [Hit { blob: 1, offset: 8, bytes: 8 }]);
    /// assert!(scan.bytes_read < layer.scan(&window)?.bytes_read);
    /// # Ok(())
    /// # }
    /// ```
    ///
    /// # Errors
    ///
    /// As for [`Layer::scan`].
    pub fn scan(&self, window: &Window) -> Result<Scan, TryReserveError> {
        // Sound: the slots were built for this layer.
        unsafe { self.slots.scan(&self.layer, window) }
    }

    /// A [`scan`](Directory::scan) for each window, in one call of the library, or a few if there are many hits.
    ///
    /// ```
    /// # use dozhemik::Layer;
    /// # fn main() -> Result<(), Box<dyn std::error::Error>> {
    /// let layer = Layer::certify(&[1, 1, 2, 0, 2, 0, 2, 2, 1, 1, 20, 0, 20, 0, 20, 20])?;
    /// let directory = layer.directory()?;
    /// let windows = ["x=9..12,y=9..12".parse()?, "x=0..12,y=0..12".parse()?];
    /// let scans = directory.scan_many(&windows)?;
    /// assert_eq!((scans[0].hits.len(), scans[1].hits.len()), (1, 2));
    /// # Ok(())
    /// # }
    /// ```
    ///
    /// It first allocates as many bytes for hits as the layer has. When these are full, it moves the hits to their scans,
    /// and goes on from the first window whose hits didn't fit.
    ///
    /// # Errors
    ///
    /// If there is no memory for the hits, which take 24 bytes each, for the first allocation, or for what is known of each
    /// window.
    pub fn scan_many(&self, windows: &[Window]) -> Result<Vec<Scan>, TryReserveError> {
        // Sound: the slots were built for this layer.
        unsafe { self.slots.scan_many(&self.layer, windows) }
    }

    /// Writes what [`scan`](Directory::scan) finds to `room`, as [`Layer::scan_into`] does. It allocates no memory and
    /// can't fail.
    pub fn scan_into(&self, window: &Window, room: &mut [Hit]) -> Scanned {
        // Sound: the slots were built for this layer.
        unsafe { self.slots.scan_into(&self.layer, window, room) }
    }
}

impl fmt::Debug for Directory<'_> {
    /// Its layer, and how many slots it has.
    fn fmt(&self, f: &mut fmt::Formatter<'_>) -> fmt::Result {
        write!(f, "Directory {{ layer: {:?}, slots: [..; {}] }}", self.layer, self.slots.len())
    }
}

/// The slots of a directory, apart from its layer.
#[derive(Clone)]
pub(crate) struct Slots(Vec<ffi::Slot>);

impl Slots {
    pub(crate) fn of(layer: &Layer<'_>) -> Result<Slots, TryReserveError> {
        let mut slots = Vec::new();
        // A blob takes two bytes at least, and no slice has more than 2^63 - 1: so this doesn't overflow.
        slots.try_reserve_exact(ffi::MOST_SLOTS * layer.blobs())?;
        let room: &mut [MaybeUninit<ffi::Slot>] = slots.spare_capacity_mut();
        // Sound: the layer is certified, and the room is the vector's own; it is written and never read.
        let count = unsafe { ffi::twkb_directory_build(&layer.lent(), room.as_mut_ptr().cast(), room.len()) };
        assert!(count <= room.len(), "the room is for the most that blobs can take");
        // Sound: the library has written as many slots as it answers, as there was room for them.
        unsafe { slots.set_len(count) };
        Ok(Slots(slots))
    }

    pub(crate) fn len(&self) -> usize {
        self.0.len()
    }

    /// # Safety
    ///
    /// The slots were built for this layer.
    pub(crate) unsafe fn scan(&self, layer: &Layer<'_>, window: &Window) -> Result<Scan, TryReserveError> {
        scan_growing(layer, |room: &mut [MaybeUninit<Hit>]| {
            // Sound: the library writes the room and never reads it. The rest is the caller's.
            unsafe { self.scan_raw(layer, window, room.as_mut_ptr().cast(), room.len()) }
        })
    }

    /// # Safety
    ///
    /// The slots were built for this layer.
    pub(crate) unsafe fn scan_into(&self, layer: &Layer<'_>, window: &Window, room: &mut [Hit]) -> Scanned {
        // Sound: the room is borrowed by this call alone, and hits are written as hits. The rest is the caller's.
        unsafe { self.scan_raw(layer, window, room.as_mut_ptr(), room.len()) }
    }

    /// # Safety
    ///
    /// The slots were built for this layer. `hits` is valid for `room` hits, and nobody else uses it during the call.
    unsafe fn scan_raw(&self, layer: &Layer<'_>, window: &Window, hits: *mut Hit, room: usize) -> Scanned {
        let (layer, window) = (layer.lent(), window.lent());
        // Sound: the layer is certified, and nobody can write its bytes or the slots. The rest is the caller's.
        unsafe { ffi::twkb_directory_scan(&layer, self.0.as_ptr(), self.len(), &window, hits, room) }
    }

    /// # Safety
    ///
    /// The slots were built for this layer.
    pub(crate) unsafe fn scan_many(&self, layer: &Layer<'_>, windows: &[Window]) -> Result<Vec<Scan>, TryReserveError> {
        let (mut lent, mut said) = (with_room(windows.len())?, with_room(windows.len())?);
        let (mut scans, mut hits) = (with_room(windows.len())?, with_room(first_room(layer))?);
        lent.extend(windows.iter().map(Window::lent));
        while scans.len() < lent.len() {
            // Sound: the caller guarantees the same, and there is room for what is said of each window.
            let answered = unsafe { self.scan_more(layer, &lent[scans.len()..], &mut said, &mut hits) };
            let mut start = 0;
            for scanned in &said[..answered] {
                let end = start + scanned.hits;
                scans.push(Scan { hits: copied(&hits[start..end])?, bytes_read: scanned.bytes_read });
                start = end;
            }
            if answered == 0 {
                // The window has more hits than there was room for.
                hits.try_reserve_exact(said[0].hits)?;
            }
        }
        Ok(scans)
    }

    /// Scans for windows, one at least, until the hits of one don't fit. Returns how many it answered, and leaves what is
    /// said of them, and of the one that it didn't answer, and their hits.
    ///
    /// # Safety
    ///
    /// The slots were built for this layer, and `said` has room for as many as there are windows.
    unsafe fn scan_more(
        &self,
        layer: &Layer<'_>,
        windows: &[ffi::Window],
        said: &mut Vec<Scanned>,
        hits: &mut Vec<Hit>,
    ) -> usize {
        said.clear();
        hits.clear();
        let (layer, many) = (layer.lent(), windows.len());
        // Sound: the layer is certified, and nobody can write its bytes or the slots. What is written is the vectors' own, and
        // is never read. The rest is the caller's.
        let answered = unsafe {
            ffi::twkb_directory_scan_many(
                &layer,
                self.0.as_ptr(),
                self.len(),
                windows.as_ptr(),
                many,
                said.as_mut_ptr(),
                many,
                hits.as_mut_ptr(),
                hits.capacity(),
            )
        };
        // Sound: something is said of each window that is answered, and of the one after them, if there is one.
        unsafe { said.set_len(many.min(answered + 1)) };
        // Sound: all hits of the windows that are answered are written.
        unsafe { hits.set_len(said[..answered].iter().map(|scanned| scanned.hits).sum()) };
        answered
    }
}

/// An empty vector with room for `count` values.
fn with_room<T>(count: usize) -> Result<Vec<T>, TryReserveError> {
    let mut vector = Vec::new();
    vector.try_reserve_exact(count)?;
    Ok(vector)
}
