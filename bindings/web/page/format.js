// The numbers and names of the format, each here alone.
export const TYPES = ["", "point", "linestring", "polygon", "multipoint", "multilinestring", "multipolygon", "collection"];
export const POINT = 1, LINESTRING = 2, POLYGON = 3, MULTIPOINT = 4, MULTILINESTRING = 5, COLLECTION = 7;
// The bits of metadata.
export const BOX = 1, SIZE = 2, IDS = 4, EXTENDED = 8, EMPTY = 16;
export const AXES = "XYZM";
// Scans compare coordinates in units: a unit is the step of the highest precision.
export const UNIT_DIGITS = 7;
export const UNITS = 10 ** UNIT_DIGITS;
// How a part of a geometry is drawn.
export const POINTS = 0, LINE = 1, RING = 2;
// A verdict's answers, and the kinds of false claims after which a blob's end is known.
export const CERTIFIED = 0, REFUSED = 1;
export const FALSE_SIZE = 6, FALSE_BOX = 7, EQUAL_IDS = 8;
