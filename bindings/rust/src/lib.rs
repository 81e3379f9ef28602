//! Layers of TWKB geometries: certified once, then scanned and listed, by a proved library.
//!
//! TWKB (Tiny Well-Known Binary) is a compact encoding of geometries by integers. A layer is a file of such geometries,
//! one after another; each of them is a blob. A blob may have a size and a bounding box, and a scan skips it if the box
//! misses the window. [`Layer::certify`] reads a whole layer and checks that each size is true, that each box holds the
//! vertices of its geometry, and that the ids of each list differ. Otherwise it names the first blob that is wrong, and
//! the offset and the kind of the error. A certified layer can be [listed](Layer::list), and [scanned](Layer::scan) for
//! the blobs that have a vertex inside a [`Window`].
//!
//! Certifying, listing, scanning and the parsing of windows are proved, in Rattle, and linked as `libtwkb.a`. What this
//! crate adds is trusted: one `extern` block, and types that guarantee what the library requires of its callers.
//!
//! # Example
//!
//! ```
//! use dozhemik::{CertifyError, Hit, Layer, RefusalKind, Window};
//!
//! # fn main() -> Result<(), Box<dyn std::error::Error>> {
//! // A line from 1 1 to 5 5 that has a size and a box, and a point at 10 10 that has a box.
//! let mut bytes = *b"\x02\x03\x09\x02\x08\x02\x08\x02\x02\x02\x08\x08\x01\x01\x14\x00\x14\x00\x14\x14";
//!
//! let layer = Layer::certify(&bytes)?;
//! assert_eq!((layer.blobs(), layer.vertices()), (2, 3));
//!
//! // The line is skipped after its header: fifteen of twenty bytes are read.
//! let window: Window = "x=9.5..12,y=10..10".parse()?;
//! let scan = layer.scan(&window)?;
//! assert_eq!(scan.hits, [Hit { blob: 1, offset: 12, bytes: 8 }]);
//! assert_eq!(scan.bytes_read, 15);
//!
//! // With its last vertex at 5 6 the line isn't in its box any more.
//! bytes[11] = 0x0a;
//! let error = Layer::certify(&bytes).unwrap_err();
//! assert_eq!(error.to_string(), "refused: blob=0 offset=3 kind=box");
//! assert!(matches!(error, CertifyError::Refused(refusal) if refusal.kind == RefusalKind::Box));
//! # Ok(())
//! # }
//! ```
//!
//! # Numbers
//!
//! Coordinates are compared in *units* of 10^-7. See [`Span`] for how a window's bounds are converted to units.
//!
//! # Memory and time
//!
//! Certifying takes time in proportion to the bytes, and memory only for a list of more than sixteen ids, while it
//! reads it. A scan reads the header of each blob, and the rest of those that it can't skip. For many windows, build a
//! [`Directory`]: it takes 96 bytes for each blob, and its scans read as many bytes as if the blobs whose box misses the
//! window weren't there. [`Layer::scan_into`] takes no memory at all. If there is no memory, a call returns an error. Only
//! a clone that copies bytes, slots or hits ends the program then, as the clone of a `Vec` does.
//!
//! # Building
//!
//! The environment variable `TWKB_LIB` names the folder of `libtwkb.a`, which `make library` builds in the repository. If
//! it isn't set, the build script asks `pkg-config` for the library that `make install-library` installs. The library
//! needs a processor of the level x86-64-v2.
#![warn(missing_docs, missing_debug_implementations, unreachable_pub, rust_2018_idioms)]
#![deny(unsafe_op_in_unsafe_fn)]

mod bad_window;
mod bytes;
mod decimals;
mod directory;
mod ffi;
mod layer;
mod owned;
mod refusal;
mod row;
mod scan;
mod window;

pub use bad_window::{BadWindow, BadWindowKind};
pub use bytes::{FixedBytes, Vouched};
pub use directory::Directory;
pub use layer::Layer;
pub use owned::{OwnedDirectory, OwnedLayer};
pub use refusal::{CertifyError, Refusal, RefusalKind};
pub use row::{Kind, Row};
pub use scan::{Hit, Scan, Scanned};
pub use window::{Span, Window};

// The example of the README is compiled with the tests.
#[cfg(doctest)]
#[doc = include_str!("../README.md")]
struct Readme;
