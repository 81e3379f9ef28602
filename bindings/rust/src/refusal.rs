//! Why bytes aren't a certified layer.

use std::error::Error;
use std::fmt;

/// Why [`Layer::certify`](crate::Layer::certify) returns no layer.
#[derive(Clone, Copy, Debug, PartialEq, Eq, Hash)]
#[non_exhaustive]
pub enum CertifyError {
    /// The bytes aren't a certified layer.
    Refused(Refusal),
    /// There is no memory for a list of more than sixteen ids. Nothing is known about the bytes.
    NoMemory,
}

/// The first blob that is malformed or has a false claim, and where and why.
///
/// Given bytes have at most one refusal. The blobs before it are a certified layer.
#[derive(Clone, Copy, Debug, PartialEq, Eq, Hash)]
pub struct Refusal {
    /// The number of the blob, from 0.
    pub blob: usize,
    /// The offset of what is wrong in the bytes.
    pub offset: usize,
    /// Why it is wrong.
    pub kind: RefusalKind,
}

/// Why a blob is refused. It is displayed as the program's word: `cut`, `varint` and so on.
#[derive(Clone, Copy, Debug, PartialEq, Eq, Hash)]
#[non_exhaustive]
pub enum RefusalKind {
    /// The bytes end within the blob.
    Cut,
    /// A number exceeds 64 bits.
    Varint,
    /// No geometry has this type.
    Type,
    /// Collections nest too deep.
    Depth,
    /// A coordinate doesn't fit 64 bits.
    Range,
    /// A size isn't the number of bytes of its geometry after it.
    Size,
    /// A box doesn't hold a vertex of its geometry.
    Box,
    /// Two ids of a list are equal.
    Ids,
    /// A box is true, and larger than it has to be. Only
    /// [`Layer::certify_tight`](crate::Layer::certify_tight) refuses it.
    Loose,
}

impl RefusalKind {
    /// The kind for a number that the library returns.
    pub(crate) fn numbered(number: u32) -> RefusalKind {
        match number {
            1 => RefusalKind::Cut,
            2 => RefusalKind::Varint,
            3 => RefusalKind::Type,
            4 => RefusalKind::Depth,
            5 => RefusalKind::Range,
            6 => RefusalKind::Size,
            7 => RefusalKind::Box,
            8 => RefusalKind::Ids,
            9 => RefusalKind::Loose,
            _ => unreachable!("the library has nine kinds of refusals"),
        }
    }

    /// The program's word for it.
    pub const fn as_str(self) -> &'static str {
        match self {
            RefusalKind::Cut => "cut",
            RefusalKind::Varint => "varint",
            RefusalKind::Type => "type",
            RefusalKind::Depth => "depth",
            RefusalKind::Range => "range",
            RefusalKind::Size => "size",
            RefusalKind::Box => "box",
            RefusalKind::Ids => "ids",
            RefusalKind::Loose => "loose",
        }
    }
}

impl fmt::Display for RefusalKind {
    fn fmt(&self, f: &mut fmt::Formatter<'_>) -> fmt::Result {
        f.pad(self.as_str())
    }
}

impl fmt::Display for Refusal {
    fn fmt(&self, f: &mut fmt::Formatter<'_>) -> fmt::Result {
        write!(f, "blob={} offset={} kind={}", self.blob, self.offset, self.kind)
    }
}

impl fmt::Display for CertifyError {
    fn fmt(&self, f: &mut fmt::Formatter<'_>) -> fmt::Result {
        match self {
            CertifyError::Refused(refusal) => write!(f, "refused: {refusal}"),
            CertifyError::NoMemory => f.write_str("out of memory"),
        }
    }
}

impl Error for CertifyError {}
