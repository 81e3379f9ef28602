//! What a scan finds.

use crate::Row;

/// A blob with a vertex inside a window.
#[repr(C)]
#[derive(Clone, Copy, Debug, Default, PartialEq, Eq, Hash)]
pub struct Hit {
    /// Its number, from 0.
    pub blob: usize,
    /// Its offset.
    pub offset: usize,
    /// Its length in bytes.
    pub bytes: usize,
}

impl From<&Hit> for Hit {
    fn from(hit: &Hit) -> Hit {
        *hit
    }
}

impl From<&Row> for Hit {
    fn from(row: &Row) -> Hit {
        Hit { blob: row.blob, offset: row.offset, bytes: row.bytes }
    }
}

impl From<Row> for Hit {
    fn from(row: Row) -> Hit {
        Hit::from(&row)
    }
}

/// What [`Layer::scan`](crate::Layer::scan) finds: the blobs with a vertex inside the window, in the order of the
/// layer.
///
/// Iterating over it gives the hits.
#[derive(Clone, Debug, PartialEq, Eq, Hash)]
pub struct Scan {
    /// The blobs with a vertex inside.
    pub hits: Vec<Hit>,
    /// How many bytes of the layer were read to find them.
    pub bytes_read: u64,
}

impl IntoIterator for Scan {
    type Item = Hit;
    type IntoIter = std::vec::IntoIter<Hit>;

    fn into_iter(self) -> Self::IntoIter {
        self.hits.into_iter()
    }
}

impl<'s> IntoIterator for &'s Scan {
    type Item = &'s Hit;
    type IntoIter = std::slice::Iter<'s, Hit>;

    fn into_iter(self) -> Self::IntoIter {
        self.hits.iter()
    }
}

/// What [`Layer::scan_into`](crate::Layer::scan_into) returns.
#[repr(C)]
#[derive(Clone, Copy, Debug, PartialEq, Eq, Hash)]
pub struct Scanned {
    /// How many blobs have a vertex inside, which may be more than there was room for.
    pub hits: usize,
    /// How many bytes of the layer were read to find them.
    pub bytes_read: u64,
}
