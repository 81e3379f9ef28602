//! The rows of a list.

use std::fmt;

/// A row of a [list](crate::Layer::list): one blob.
#[repr(C)]
#[derive(Clone, Copy, Debug, PartialEq, Eq, Hash)]
pub struct Row {
    /// Its number, from 0.
    pub blob: usize,
    /// Its offset.
    pub offset: usize,
    /// Its length in bytes.
    pub bytes: usize,
    /// How many vertices it has, at all depths.
    pub vertices: usize,
    /// Its type.
    pub kind: Kind,
    /// The precision of X and Y, from -8 to 7: how many decimals they have.
    pub precision: i8,
    /// Whether it has a size.
    pub has_size: bool,
    /// Whether it has a box.
    pub has_box: bool,
}

/// The type of a geometry. It is displayed as the program's word: `point`, `linestring` and so on.
// The numbers are TWKB's, which the library writes.
#[repr(u8)]
#[derive(Clone, Copy, Debug, PartialEq, Eq, Hash)]
pub enum Kind {
    /// A point.
    Point = 1,
    /// A line.
    LineString = 2,
    /// A polygon.
    Polygon = 3,
    /// Several points.
    MultiPoint = 4,
    /// Several lines.
    MultiLineString = 5,
    /// Several polygons.
    MultiPolygon = 6,
    /// A collection of geometries of any types.
    GeometryCollection = 7,
}

impl Kind {
    /// The program's word for it.
    pub const fn as_str(self) -> &'static str {
        match self {
            Kind::Point => "point",
            Kind::LineString => "linestring",
            Kind::Polygon => "polygon",
            Kind::MultiPoint => "multipoint",
            Kind::MultiLineString => "multilinestring",
            Kind::MultiPolygon => "multipolygon",
            Kind::GeometryCollection => "geometrycollection",
        }
    }
}

impl fmt::Display for Kind {
    fn fmt(&self, f: &mut fmt::Formatter<'_>) -> fmt::Result {
        f.pad(self.as_str())
    }
}
