"""Certified layers, and directories of them."""
import ctypes
import mmap
from typing import Iterable, List, NoReturn, Optional, Tuple, Union, overload

from . import _library
from ._answers import KINDS, TYPES, Hit, Refused, Row, Scan
from ._bytes import Data, address_of, held
from ._library import library
from ._window import Box, Range, Window

# A scan with more hits than this is run a second time, with as much room as it wants.
_FIRST_ROOM = 4096
# A call for many windows has room for as many hits as they can have, or for this many if that is fewer.
_ROOM = 1 << 22


class Layer:
    """A certified layer, which holds its bytes. Only `certify` makes it. Any number of threads may use it at once.

    `close` releases the bytes, and so does the end of a `with`. After that every use but `close` raises ValueError.
    """

    __slots__ = ("_held",)
    _held: Optional[_library.Layer]

    def __init__(self) -> None:
        raise TypeError("a layer is made by certify")

    def __reduce__(self) -> NoReturn:
        raise TypeError("a layer can't be pickled or copied: pass its bytes, and certify them again")

    @property
    def _open(self) -> _library.Layer:
        # Read once: another thread may close the layer. Who calls the library keeps the struct, and it keeps the bytes.
        held = self._held
        if held is None:
            raise ValueError("the layer is closed")
        return held

    @property
    def blobs(self) -> int:
        """How many blobs it has."""
        return int(self._open.blobs)

    @property
    def vertices(self) -> int:
        """How many vertices its blobs have, at all depths."""
        return int(self._open.vertices)

    @property
    def size(self) -> int:
        """How many bytes it has."""
        return int(self._open.len)

    def __len__(self) -> int:
        return self.blobs

    def __bool__(self) -> bool:
        """True, also if it has no blob: it is certified."""
        self._open
        return True

    def list(self) -> List[Row]:
        """A row for each blob, in order."""
        return [
            Row(blob, offset, size, vertices, TYPES[number], *rest)
            for blob, offset, size, vertices, number, *rest in _library.ROW.iter_unpack(self.table())
        ]

    def table(self) -> memoryview:
        """The rows of `list` as read-only bytes, 40 for each, in the layout of the C struct twkb_row.

        `numpy.frombuffer(layer.table(), dozhemik.ROW_DTYPE)` is an array of them, which `pandas.DataFrame` takes. Their
        types are numbers there: `dozhemik.TYPES` has the words.
        """
        layer = self._open
        room = (_library.Row * layer.blobs)()
        library.twkb_list(ctypes.byref(layer), room, len(room))
        return memoryview(room).cast("B").toreadonly()

    def blob(self, hit: Union[Hit, Row]) -> bytes:
        """The bytes of a blob, by a hit or a row of this layer."""
        layer = self._open
        if not isinstance(hit, (Hit, Row)):
            raise TypeError(f"a blob is named by a Hit or a Row, not by {type(hit).__name__}")
        if not 0 <= hit.offset <= hit.offset + hit.bytes <= layer.len:
            raise ValueError(f"the layer has {layer.len} bytes, and this is of another: {hit!r}")
        return bytes(layer.view[hit.offset : hit.offset + hit.bytes])

    @overload
    def scan(self, window: Union[Window, str]) -> Scan: ...

    @overload
    def scan(self, *, x: Range, y: Range, z: Optional[Range] = None, m: Optional[Range] = None) -> Scan: ...

    @overload
    def scan(self, *, bbox: Box, z: Optional[Range] = None, m: Optional[Range] = None) -> Scan: ...

    def scan(
        self,
        window: Union[Window, str, None] = None,
        *,
        x: Optional[Range] = None,
        y: Optional[Range] = None,
        z: Optional[Range] = None,
        m: Optional[Range] = None,
        bbox: Optional[Box] = None,
    ) -> Scan:
        """The blobs with a vertex inside a window, which is a Window, or its text, or its ranges, or its bbox."""
        return _scan(self._open, _window(window, x, y, z, m, bbox))

    def scan_many(self, windows: Iterable[Union[Window, str]]) -> List[Scan]:
        """A scan for each window, by a directory that is made for this call. Keep `directory()` for more windows."""
        return self.directory().scan_many(windows)

    def directory(self) -> "Directory":
        """A directory, which takes 96 bytes a blob. Its scans read as many bytes as if the blobs whose box misses the window
        weren't there."""
        layer = self._open
        slots = (_library.Slot * (_library.MOST_SLOTS * layer.blobs))()
        count = library.twkb_directory_build(ctypes.byref(layer), slots, len(slots))
        made = Directory.__new__(Directory)
        made._layer, made._slots, made._count = self, slots, count
        return made

    def close(self) -> None:
        """Releases the bytes. A second call does nothing."""
        self._held = None

    def __enter__(self) -> "Layer":
        self._open
        return self

    def __exit__(self, *_: object) -> None:
        self.close()

    def __repr__(self) -> str:
        held = self._held
        return "<Layer, closed>" if held is None else f"<Layer of {held.blobs} blobs, {held.vertices} vertices>"


class Directory:
    """The offsets and boxes of a layer's blobs. Only `Layer.directory` makes it.

    Any number of threads may use it at once. It holds its layer. If that is closed, a scan raises ValueError.
    """

    __slots__ = ("_count", "_layer", "_slots")
    _count: int
    _layer: Layer
    _slots: "ctypes.Array[_library.Slot]"

    def __init__(self) -> None:
        raise TypeError("a directory is made by Layer.directory")

    def __reduce__(self) -> NoReturn:
        raise TypeError("a directory can't be pickled or copied: make it of its layer again")

    @overload
    def scan(self, window: Union[Window, str]) -> Scan: ...

    @overload
    def scan(self, *, x: Range, y: Range, z: Optional[Range] = None, m: Optional[Range] = None) -> Scan: ...

    @overload
    def scan(self, *, bbox: Box, z: Optional[Range] = None, m: Optional[Range] = None) -> Scan: ...

    def scan(
        self,
        window: Union[Window, str, None] = None,
        *,
        x: Optional[Range] = None,
        y: Optional[Range] = None,
        z: Optional[Range] = None,
        m: Optional[Range] = None,
        bbox: Optional[Box] = None,
    ) -> Scan:
        """Finds what `Layer.scan` finds. It reads as many bytes as if the blobs whose box misses the window weren't there."""
        return _scan(self._layer._open, _window(window, x, y, z, m, bbox), self)

    def scan_many(self, windows: Iterable[Union[Window, str]]) -> List[Scan]:
        """A scan for each window, by one call of the library, or a few if there are more than four million hits.

        While it runs, other threads can run Python. The scans share memory, which is freed with the last of them.
        """
        layer = self._layer._open
        if isinstance(windows, (str, Window)):
            raise TypeError("several windows are wanted, as a list of them")
        wanted = [_one_window(window)._struct for window in windows]
        scans: List[Scan] = []
        hits = 0
        while len(scans) < len(wanted):
            hits = self._scan_more(layer, wanted[len(scans) :], scans, hits)
        return scans

    def _scan_more(
        self, layer: _library.Layer, windows: List[_library.Window], scans: List[Scan], hits: int
    ) -> int:
        """Adds a scan for each window until there is no room for the hits of one. Returns how many that one has.

        `hits` is how many the first window has, where a call before this one said so.
        """
        many = len(windows)
        said = (_library.Scanned * many)()
        room = _room_for(max(hits, min(many * layer.blobs, _ROOM)))
        slots, wanted = (self._slots, self._count), (_library.Window * many)(*windows)
        answered = library.twkb_directory_scan_many(
            ctypes.byref(layer), *slots, wanted, many, said, many, room, len(room)
        )
        table, end = memoryview(room).cast("B").toreadonly(), 0
        for scanned in said[:answered]:
            start, end = end, end + scanned.hits * _library.HIT.size
            scans.append(Scan(table[start:end], scanned.bytes_read))
        return int(said[answered].hits) if answered < many else 0

    def __repr__(self) -> str:
        return f"<Directory of {self._layer!r}>"


def certify(data: Data, *, tight: bool = False) -> Layer:
    """Certifies bytes as a layer. Raises Refused if they aren't one, and with `tight` also if a box is loose.

    `data` is bytes, or the path of a file (str or os.PathLike), which is read whole, or a read-only buffer of bytes: a file
    mapped with access=mmap.ACCESS_READ, a memoryview of bytes, or a NumPy array of uint8 that isn't writeable. The
    layer holds it. If a mapped file changes while the layer is used, a later call may crash.
    """
    view = held(data)
    address = address_of(view)
    verdict = (library.twkb_certify_tight if tight else library.twkb_certify)(address, len(view))
    if verdict.answer == _library.REFUSED:
        raise Refused(verdict.blob, verdict.offset, KINDS[verdict.kind])
    if verdict.answer != _library.CERTIFIED:
        raise MemoryError("there is no memory for a list of ids")
    layer = Layer.__new__(Layer)
    layer._held = _library.Layer(address, len(view), verdict.blobs, verdict.vertices)
    layer._held.view = view
    return layer


def _one_window(window: Union[Window, str]) -> Window:
    return window if isinstance(window, Window) else Window.parse(window)


def _window(
    window: Union[Window, str, None],
    x: Optional[Range],
    y: Optional[Range],
    z: Optional[Range],
    m: Optional[Range],
    bbox: Optional[Box],
) -> _library.Window:
    ranges: Tuple[object, ...] = (x, y, z, m, bbox)
    if window is not None:
        if any(one is not None for one in ranges):
            raise TypeError("a window is wanted, or ranges, or a bbox, and only one of them")
        return _one_window(window)._struct
    if bbox is not None:
        if x is not None or y is not None:
            raise TypeError("a bbox is wanted, or the ranges of x and y, not both")
        return Window.from_bbox(bbox, z=z, m=m)._struct
    if x is None or y is None:
        raise TypeError("a window is wanted, or the ranges of x and y, or a bbox")
    return Window(x, y, z, m)._struct


def _scan(layer: _library.Layer, window: _library.Window, directory: Optional[Directory] = None) -> Scan:
    room = (_library.Hit * min(layer.blobs, _FIRST_ROOM))()
    scanned = _scan_into(layer, window, directory, room)
    if scanned.hits > len(room):
        room = (_library.Hit * scanned.hits)()
        scanned = _scan_into(layer, window, directory, room)
    # A copy, so that a scan takes no more memory than its hits.
    filled = bytes(memoryview(room).cast("B")[: scanned.hits * _library.HIT.size])
    return Scan(memoryview(filled), scanned.bytes_read)


def _scan_into(
    layer: _library.Layer,
    window: _library.Window,
    directory: Optional[Directory],
    room: "ctypes.Array[_library.Hit]",
) -> _library.Scanned:
    held, wanted = ctypes.byref(layer), ctypes.byref(window)
    scanned: _library.Scanned
    if directory is None:
        scanned = library.twkb_scan(held, wanted, room, len(room))
    else:
        scanned = library.twkb_directory_scan(held, directory._slots, directory._count, wanted, room, len(room))
    return scanned


def _room_for(hits: int) -> "ctypes.Array[_library.Hit]":
    """Room for the given number of hits. It takes memory only where hits are written."""
    count = max(hits, 1)
    try:
        pages = mmap.mmap(-1, count * _library.HIT.size, flags=mmap.MAP_PRIVATE | mmap.MAP_ANONYMOUS)
    except OSError as why:
        raise MemoryError(f"there is no memory for {count} hits") from why
    return (_library.Hit * count).from_buffer(pages)
