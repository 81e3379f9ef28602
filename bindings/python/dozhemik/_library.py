"""The structs and the calls of libtwkb.so, as bindings/c/twkb.h declares them, and the loading of it."""
import ctypes
import os
import struct
from ctypes import POINTER, c_bool, c_char_p, c_int8, c_int64, c_size_t, c_uint8, c_uint32, c_uint64, c_void_p

# Of the package. Only a library of the same version is known to have the structs and the slots that are declared here.
VERSION = "1.1.0"
CERTIFIED, REFUSED, NO_MEMORY = 0, 1, 2
WINDOW, BAD_FORM, BAD_ORDER = 0, 1, 2


class WrongVersion(ImportError):
    """The library that is found has another version than the package."""


class Verdict(ctypes.Structure):
    _fields_ = [
        ("answer", c_uint32),
        ("kind", c_uint32),
        ("blobs", c_size_t),
        ("vertices", c_size_t),
        ("blob", c_size_t),
        ("offset", c_size_t),
    ]


class Layer(ctypes.Structure):
    _fields_ = [("bytes", c_void_p), ("len", c_size_t), ("blobs", c_size_t), ("vertices", c_size_t)]
    # The bytes that the address is of, kept for as long as the struct is.
    view: memoryview


class Row(ctypes.Structure):
    _fields_ = [
        ("blob", c_size_t),
        ("offset", c_size_t),
        ("bytes", c_size_t),
        ("vertices", c_size_t),
        ("type", c_uint8),
        ("precision", c_int8),
        ("has_size", c_bool),
        ("has_box", c_bool),
    ]


class Units(ctypes.Structure):
    _fields_ = [("low", c_uint64), ("high", c_int64)]


class Span(ctypes.Structure):
    _fields_ = [("lo", Units), ("hi", Units)]


class Window(ctypes.Structure):
    _fields_ = [("x", Span), ("y", Span), ("z", Span), ("m", Span), ("has_z", c_bool), ("has_m", c_bool)]


class Hit(ctypes.Structure):
    _fields_ = [("blob", c_size_t), ("offset", c_size_t), ("bytes", c_size_t)]


class Scanned(ctypes.Structure):
    _fields_ = [("hits", c_size_t), ("bytes_read", c_uint64)]


class Slot(ctypes.Structure):
    _fields_ = [("word", c_uint64), ("first", c_uint64), ("second", c_uint64)]


# How many slots a blob has at most: TWKB_MOST_SLOTS of the header.
MOST_SLOTS = 4


# The numbers of a row and of a hit, for reading many of them at once.
ROW, HIT = struct.Struct("@NNNNBb??4x"), struct.Struct("@NNN")

# The sizes of the header's structs in bytes.
_SIZES = (
    (Verdict, 40),
    (Layer, 32),
    (Row, 40),
    (Units, 16),
    (Span, 32),
    (Window, 136),
    (Hit, 24),
    (Scanned, 16),
    (Slot, 24),
)

_BYTES, _TEXT, _HITS = (c_void_p, c_size_t), (c_char_p, c_size_t), (POINTER(Hit), c_size_t)
_DIRECTORY = (POINTER(Layer), POINTER(Slot), c_size_t)
# What each call takes, and what it answers.
_CALLS = (
    ("twkb_certify", _BYTES, Verdict),
    ("twkb_certify_tight", _BYTES, Verdict),
    ("twkb_list", (POINTER(Layer), POINTER(Row), c_size_t), c_size_t),
    ("twkb_window_parse", (*_TEXT, POINTER(Window)), c_uint32),
    ("twkb_span_of_decimals", (*_TEXT, *_TEXT, POINTER(Span)), c_uint32),
    ("twkb_scan", (POINTER(Layer), POINTER(Window), *_HITS), Scanned),
    ("twkb_directory_build", (POINTER(Layer), POINTER(Slot), c_size_t), c_size_t),
    ("twkb_directory_scan", (*_DIRECTORY, POINTER(Window), *_HITS), Scanned),
    (
        "twkb_directory_scan_many",
        (*_DIRECTORY, POINTER(Window), c_size_t, POINTER(Scanned), c_size_t, *_HITS),
        c_size_t,
    ),
)


def _place() -> str:
    """What the environment names, or what a wheel has beside the modules, or what the loader finds by this name."""
    beside = os.path.join(os.path.dirname(os.path.abspath(__file__)), "libtwkb.so")
    return os.environ.get("TWKB_LIBRARY") or (beside if os.path.exists(beside) else "libtwkb.so.0")


def _loaded() -> ctypes.CDLL:
    for kind, size in _SIZES:
        if ctypes.sizeof(kind) != size:
            raise ImportError(f"a {kind.__name__} has {ctypes.sizeof(kind)} bytes here, and {size} in libtwkb.so")
    if (ROW.size, HIT.size) != (40, 24):
        raise ImportError(f"a row and a hit have {ROW.size} and {HIT.size} bytes here, and 40 and 24 in libtwkb.so")
    place = _place()
    try:
        found = ctypes.CDLL(place)
        found.twkb_version.restype = c_char_p
        version = found.twkb_version().decode()
        if version != VERSION:
            raise WrongVersion(f"{place} has version {version}, and this package {VERSION}: install the two of one release")
        for name, takes, answers in _CALLS:
            call = getattr(found, name)
            call.argtypes, call.restype = takes, answers
    except (OSError, AttributeError) as why:
        told = "`make library` builds libtwkb.so, `make install-library` installs it, and TWKB_LIBRARY names it"
        raise ImportError(f"{why}. {told}") from why
    return found


library = _loaded()
