"""What calls on a layer return: refusals, rows, hits and scans, and the layouts of their tables."""
from typing import Any, Callable, Iterator, NamedTuple, Sequence, Tuple, Union, overload

from . import _library

KINDS = ("", "cut", "varint", "type", "depth", "range", "size", "box", "ids", "loose")

# The words for the types of geometries, by their numbers in a table of rows.
TYPES = (
    "",
    "point",
    "linestring",
    "polygon",
    "multipoint",
    "multilinestring",
    "multipolygon",
    "geometrycollection",
)

# The dtypes of a table of rows and of a table of hits, for numpy.frombuffer.
ROW_DTYPE: Any = {
    "names": ["blob", "offset", "bytes", "vertices", "type", "precision", "has_size", "has_box"],
    "formats": ["u8", "u8", "u8", "u8", "u1", "i1", "?", "?"],
    "offsets": [0, 8, 16, 24, 32, 33, 34, 35],
    "itemsize": _library.ROW.size,
}
HIT_DTYPE: Any = {
    "names": ["blob", "offset", "bytes"],
    "formats": ["u8", "u8", "u8"],
    "offsets": [0, 8, 16],
    "itemsize": _library.HIT.size,
}


class Refused(ValueError):
    """Bytes that aren't a certified layer: the first wrong blob, the offset of what is wrong in it, and its kind.

    A kind is "cut", "varint", "type", "depth", "range", "size", "box" or "ids", and with tight=True also
    "loose". docs/USAGE.md says what to repair for each.
    """

    def __init__(self, blob: int, offset: int, kind: str) -> None:
        super().__init__(blob, offset, kind)
        self.blob, self.offset, self.kind = blob, offset, kind

    def __str__(self) -> str:
        return f"blob={self.blob} offset={self.offset} kind={self.kind}"


class Row(NamedTuple):
    """A row of a list: a blob's number from 0, its offset, its length, its vertex count at all depths, and its type."""

    blob: int
    offset: int
    bytes: int
    vertices: int
    type: str
    precision: int
    has_size: bool
    has_box: bool

    @property
    def kind(self) -> str:
        """The type, by its earlier name. Version 2.0 won't have this property."""
        return self.type

    def __str__(self) -> str:
        size, box = ("yes" if has else "no" for has in (self.has_size, self.has_box))
        place = f"blob={self.blob} offset={self.offset} bytes={self.bytes}"
        return f"{place} type={self.type} precision={self.precision} vertices={self.vertices} size={size} box={box}"


class Hit(NamedTuple):
    """A blob with a vertex inside a window: its number from 0, its offset, and its length in bytes."""

    blob: int
    offset: int
    bytes: int

    def __str__(self) -> str:
        return f"blob={self.blob} offset={self.offset}"


class Scan(Sequence[Hit]):
    """The hits of a window in the order of the layer, and how many of the layer's bytes were read to find them.

    Scans are equal if both are. A scan can be pickled, and used as a key.
    """

    __slots__ = ("_table", "bytes_read")

    def __init__(self, table: memoryview, bytes_read: int) -> None:
        self._table, self.bytes_read = table, bytes_read

    def table(self) -> memoryview:
        """The hits as read-only bytes, 24 for each: its blob, its offset and its length, of eight bytes each.

        `numpy.frombuffer(scan.table(), dozhemik.HIT_DTYPE)` is an array of them, which `pandas.DataFrame` takes.
        """
        return self._table

    def __len__(self) -> int:
        return len(self._table) // _library.HIT.size

    @overload
    def __getitem__(self, place: int) -> Hit: ...

    @overload
    def __getitem__(self, place: slice) -> Tuple[Hit, ...]: ...

    def __getitem__(self, place: Union[int, slice]) -> Union[Hit, Tuple[Hit, ...]]:
        try:
            # A range converts an index or a slice to places.
            places = range(len(self))[place]
        except IndexError:
            raise IndexError(f"there is no hit {place} in a scan of {len(self)} hits") from None
        except TypeError:
            raise TypeError(f"a hit of a scan has an int or a slice as its index, not {place!r:.80}") from None
        return self._at(places) if isinstance(places, int) else tuple(map(self._at, places))

    def __iter__(self) -> Iterator[Hit]:
        return map(Hit._make, _library.HIT.iter_unpack(self._table))

    def _at(self, place: int) -> Hit:
        return Hit._make(_library.HIT.unpack_from(self._table, place * _library.HIT.size))

    def __eq__(self, other: object) -> bool:
        if not isinstance(other, Scan):
            return NotImplemented
        return self.bytes_read == other.bytes_read and self._table == other._table

    def __hash__(self) -> int:
        return hash((bytes(self._table), self.bytes_read))

    def __reduce__(self) -> Tuple[Callable[..., "Scan"], Tuple[bytes, int]]:
        return _of_bytes, (bytes(self._table), self.bytes_read)

    def __repr__(self) -> str:
        return f"<Scan of {len(self)} hits, {self.bytes_read} bytes read>"


def _of_bytes(table: bytes, bytes_read: int) -> Scan:
    """A scan of what `__reduce__` answers, for pickle and copy."""
    return Scan(memoryview(table), bytes_read)
