"""Windows, and the exact texts of coordinates."""
import ctypes
import re
from decimal import Context, Decimal, InvalidOperation
from numbers import Integral, Real
from typing import Any, Callable, Iterable, Iterator, List, Optional, Protocol, Tuple, Union

from . import _library
from ._library import library

Coordinate = Union[int, float, Decimal, str]
Range = Tuple[Coordinate, Coordinate]
# The two ends of a range in units, or None.
Ends = Optional[Tuple[int, int]]

# The digits of a number whose text is made here. Only one of an extreme exponent has more.
_MOST_DIGITS = 2_000_000
# A text with an exponent, as repr(5e-05) and JavaScript write it. The library takes none.
_WITH_EXPONENT = re.compile(r"-?[0-9]+(\.[0-9]+)?[eE][-+]?[0-9]+")
# Says so where an exponent is beyond what a Decimal has, whatever the thread's context says.
_STRICT = Context(traps=[InvalidOperation])


class Box(Protocol):
    """Four coordinates, (xmin, ymin, xmax, ymax): a tuple, a list, or an array such as GeoPandas' total_bounds."""

    def __len__(self) -> int: ...

    def __iter__(self) -> Iterator[Any]: ...

    def __getitem__(self, place: int, /) -> Any: ...


class BadWindow(ValueError):
    """A text or coordinates that don't make a window. The message says why in one line."""


class Window:
    """A range of X and of Y, and of Z and M if they are bounded, both ends included.

    A bound is an int, a float, a Decimal or a decimal in a string, of any number of digits, and is taken exactly: the
    float 0.1 is a little more than a tenth, and Decimal("0.1") or "0.1" is a tenth, and "1e-1" too. Coordinates are whole numbers of
    10^-7, called units. So the library rounds a range inward to units, the lower bound up and the upper bound down,
    which changes no hit. A range that contains no unit has no vertices.
    """

    __slots__ = ("_struct",)
    _struct: _library.Window

    def __init__(self, x: Range, y: Range, z: Optional[Range] = None, m: Optional[Range] = None) -> None:
        struct = _library.Window(has_z=z is not None, has_m=m is not None)
        struct.x, struct.y = _span_of("x", x), _span_of("y", y)
        if z is not None:
            struct.z = _span_of("z", z)
        if m is not None:
            struct.m = _span_of("m", m)
        self._struct = struct

    @classmethod
    def from_bbox(cls, bbox: Box, *, z: Optional[Range] = None, m: Optional[Range] = None) -> "Window":
        """The window of a box (xmin, ymin, xmax, ymax), in the order of GeoJSON and most libraries."""
        if not _is_sequence(bbox) or len(bbox) != 4:
            raise TypeError(f"a bbox is (xmin, ymin, xmax, ymax), not {_shown(bbox)}")
        xmin, ymin, xmax, ymax = bbox
        return cls((xmin, xmax), (ymin, ymax), z, m)

    @classmethod
    def from_bboxes(cls, bboxes: Iterable[Box], *, z: Optional[Range] = None, m: Optional[Range] = None) -> "List[Window]":
        """A window for each box, as `from_bbox` makes it: of an array with four columns, or of any boxes."""
        # The numbers of an array as Python's own, which are read faster.
        rows: Iterable[Box] = getattr(bboxes, "tolist", lambda: bboxes)()
        windows: List[Window] = []
        for bbox in rows:
            try:
                windows.append(cls.from_bbox(bbox, z=z, m=m))
            except (BadWindow, TypeError) as why:
                raise type(why)(f"box {len(windows)}: {why}") from None
        return windows

    @classmethod
    def parse(cls, text: str) -> "Window":
        """Parses a text of the form x=A..B,y=C..D[,z=E..F][,m=G..H], with up to seven decimals."""
        if not isinstance(text, str):
            raise TypeError(f"the text of a window is a str, not {type(text).__name__}")
        struct, data = _library.Window(), _ascii(text)
        answer = library.twkb_window_parse(data, len(data), ctypes.byref(struct))
        if answer == _library.BAD_FORM:
            raise BadWindow(f"{_shown(text)} is not of the form x=A..B,y=C..D[,z=E..F][,m=G..H]")
        if answer == _library.BAD_ORDER:
            raise BadWindow(f"{_shown(text)} has a lower bound above its upper bound")
        window = cls.__new__(cls)
        window._struct = struct
        return window

    @property
    def x(self) -> Tuple[Decimal, Decimal]:
        """The range of X, rounded inward to units. If it has none, the lower end is above the upper one."""
        return _decimals(self._struct.x)

    @property
    def y(self) -> Tuple[Decimal, Decimal]:
        """The range of Y, as for `x`."""
        return _decimals(self._struct.y)

    @property
    def z(self) -> Optional[Tuple[Decimal, Decimal]]:
        """The range of Z, or None if it isn't bounded."""
        return _decimals(self._struct.z) if self._struct.has_z else None

    @property
    def m(self) -> Optional[Tuple[Decimal, Decimal]]:
        """The range of M, or None if it isn't bounded."""
        return _decimals(self._struct.m) if self._struct.has_m else None

    def _key(self) -> Tuple[Ends, Ends, Ends, Ends]:
        struct = self._struct
        z = _ends(struct.z) if struct.has_z else None
        return _ends(struct.x), _ends(struct.y), z, _ends(struct.m) if struct.has_m else None

    def __eq__(self, other: object) -> bool:
        if not isinstance(other, Window):
            return NotImplemented
        return self._key() == other._key()

    def __hash__(self) -> int:
        return hash(self._key())

    def __str__(self) -> str:
        named = (("x", self.x), ("y", self.y), ("z", self.z), ("m", self.m))
        return ",".join(f"{axis}={ends[0]:f}..{ends[1]:f}" for axis, ends in named if ends)

    def __repr__(self) -> str:
        return f"<Window {self}>"

    def __reduce__(self) -> Tuple[Callable[..., "Window"], Tuple[Ends, Ends, Ends, Ends]]:
        return _of_units, self._key()


def _of_units(x: Tuple[int, int], y: Tuple[int, int], z: Ends, m: Ends) -> Window:
    """A window of what `_key` answers, for pickle and copy."""
    window = Window.__new__(Window)
    window._struct = _library.Window(
        _span(x), _span(y), _span(z or (0, 0)), _span(m or (0, 0)), z is not None, m is not None
    )
    return window


def _span(ends: Tuple[int, int]) -> _library.Span:
    lo, hi = ((number & (1 << 64) - 1, number >> 64) for number in ends)
    return _library.Span(lo, hi)


def _ends(span: _library.Span) -> Tuple[int, int]:
    lo, hi = (number.high << 64 | number.low for number in (span.lo, span.hi))
    return lo, hi


def _decimals(span: _library.Span) -> Tuple[Decimal, Decimal]:
    lo, hi = map(_decimal, _ends(span))
    return lo, hi


def _decimal(units: int) -> Decimal:
    """Units as a coordinate, without zeros at its end. No arithmetic of Decimal is used, since that may round."""
    text = f"{abs(units):08}"
    fraction = text[-7:].rstrip("0")
    return Decimal("-" * (units < 0) + text[:-7] + ("." + fraction if fraction else ""))


def _span_of(axis: str, ends: object) -> _library.Span:
    """The range of two coordinates, which the library parses and rounds inward."""
    # A str of two characters would unpack as well.
    if not isinstance(ends, (tuple, list)) or len(ends) != 2:
        raise TypeError(f"the range of {axis} is a pair (lo, hi), not {ends!r}")
    lo, hi = (_ascii(_number_text(axis, end)) for end in ends)
    span = _library.Span()
    answer = library.twkb_span_of_decimals(lo, len(lo), hi, len(hi), ctypes.byref(span))
    if answer == _library.BAD_FORM:
        raise BadWindow(f"{axis}={_shown(ends[0])}..{_shown(ends[1])}: an end is no decimal such as -12.5 or 1e-7")
    if answer == _library.BAD_ORDER:
        raise BadWindow(f"{axis}={_shown(ends[0])}..{_shown(ends[1])}: the lower bound is above the upper bound")
    return span


def _ascii(text: str) -> bytes:
    # What isn't ASCII becomes a question mark, which is in no number and no window.
    return str.encode(text, "ascii", "replace")


def _shown(value: object) -> str:
    """A value in one line, and not too long."""
    text = repr(value).replace("\n", " ")
    return text if len(text) <= 80 else f"{text[:80]}.."


def _is_sequence(value: object) -> bool:
    """Whether its items have places. A text, which has too, is no sequence of numbers."""
    return hasattr(value, "__getitem__") and hasattr(value, "__len__") and not isinstance(value, (str, bytes, dict))


def _number_text(axis: str, value: object) -> str:
    """The exact text of a number, without an exponent."""
    if isinstance(value, str) and not _WITH_EXPONENT.fullmatch(value):
        return value
    try:
        exact = Decimal(value, _STRICT) if isinstance(value, str) else _exact(value)
    except InvalidOperation:
        raise _too_long(axis) from None
    if not exact.is_finite():
        raise BadWindow(f"an end of the range of {axis} is {exact}, which is no number")
    text = str(exact)
    # Of most floats this is the text. A context may want the exponent in small letters.
    if "E" not in text and "e" not in text:
        return text
    if exact and max(exact.adjusted(), -int(exact.as_tuple().exponent)) >= _MOST_DIGITS:
        raise _too_long(axis)
    return format(exact, "f") if exact else "0"


def _too_long(axis: str) -> BadWindow:
    return BadWindow(f"an end of the range of {axis} has more than {_MOST_DIGITS:,} digits on a side of the point")


def _exact(value: object) -> Decimal:
    """The exact number. Decimal takes an int, a float or a Decimal exactly, in every context."""
    if isinstance(value, (int, float, Decimal)) and not isinstance(value, bool):
        return Decimal(value)
    # The numbers of NumPy, for instance. A float32 is a float.
    if isinstance(value, Real) and not isinstance(value, bool):
        number: Union[int, float] = int(value) if isinstance(value, Integral) else float(value)
        if number == value or number != number:
            return Decimal(number)
    raise TypeError(f"a coordinate is an int, a float, a Decimal or a str, not {_shown(value)}")
