//! Bytes that a layer can hold.

use std::fmt;
use std::rc::Rc;
use std::sync::Arc;

/// Bytes that don't change, so that an [`OwnedLayer`](crate::OwnedLayer) can hold them.
///
/// It is implemented for `Vec<u8>`, `Box<[u8]>`, `Arc<[u8]>`, `Rc<[u8]>` and `&[u8]`. For anything else, such as a
/// memory map, a caller [vouches](Vouched).
///
/// # Safety
///
/// As long as a value lives, even if it is moved, each call of `as_ref` returns the same bytes, and nobody writes to them.
/// A clone of it has the same bytes.
pub unsafe trait FixedBytes: AsRef<[u8]> {}

// Sound: the bytes can only be written through a `&mut` of the value, and a layer lends none.
unsafe impl FixedBytes for Vec<u8> {}
unsafe impl FixedBytes for Box<[u8]> {}
// Sound: as long as the value lives, `get_mut` of another one that shares the bytes returns `None`.
unsafe impl FixedBytes for Arc<[u8]> {}
unsafe impl FixedBytes for Rc<[u8]> {}
// Sound: nobody writes to borrowed bytes.
unsafe impl FixedBytes for &[u8] {}

/// Bytes that don't change, as the caller promises, such as a memory map's.
///
/// ```
/// # use dozhemik::{OwnedLayer, Vouched};
/// # fn mapped() -> Vec<u8> { vec![1, 0, 2, 4] }
/// # fn main() -> Result<(), dozhemik::CertifyError> {
/// let map = mapped(); // memmap2::Mmap, for one
/// // Nobody writes to the file or truncates it while it is mapped.
/// let layer = OwnedLayer::certify(unsafe { Vouched::new(map) })?;
/// assert_eq!(layer.layer().blobs(), 1);
/// # Ok(())
/// # }
/// ```
#[derive(Clone)]
pub struct Vouched<B>(B);

impl<B: AsRef<[u8]>> Vouched<B> {
    /// Vouches for the bytes.
    ///
    /// # Safety
    ///
    /// As for [`FixedBytes`]. While a file is mapped, no process may write to it or truncate it.
    pub const unsafe fn new(bytes: B) -> Vouched<B> {
        Vouched(bytes)
    }
}

impl<B> Vouched<B> {
    /// The value that was vouched for.
    pub fn into_inner(self) -> B {
        self.0
    }
}

impl<B: AsRef<[u8]>> AsRef<[u8]> for Vouched<B> {
    fn as_ref(&self) -> &[u8] {
        self.0.as_ref()
    }
}

// Sound: its maker has vouched for the bytes.
unsafe impl<B: AsRef<[u8]>> FixedBytes for Vouched<B> {}

impl<B: AsRef<[u8]>> fmt::Debug for Vouched<B> {
    /// How many bytes there are, and not which.
    fn fmt(&self, f: &mut fmt::Formatter<'_>) -> fmt::Result {
        write!(f, "Vouched([..; {}])", self.as_ref().len())
    }
}
