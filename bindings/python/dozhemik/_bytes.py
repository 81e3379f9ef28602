"""The bytes of a layer: which objects are accepted, and where the bytes are in memory."""
import ctypes
import mmap
import os
from ctypes import POINTER, c_char_p, c_int, c_ssize_t, c_void_p, py_object
from typing import Any, Protocol, Union


class Array(Protocol):
    """An object that lends its memory and has a number of bytes: a memoryview, a NumPy array."""

    @property
    def nbytes(self) -> int: ...


Data = Union[bytes, mmap.mmap, Array, str, "os.PathLike[str]", "os.PathLike[bytes]"]

_HOW = (
    "pass bytes(..) of it, a file mapped with access=mmap.ACCESS_READ, or an array of one byte an item whose memory is"
    " its own, with flags.writeable = False"
)


class _Buffer(ctypes.Structure):
    """Py_buffer of CPython."""

    _fields_ = [
        ("buf", c_void_p),
        ("obj", c_void_p),
        ("len", c_ssize_t),
        ("itemsize", c_ssize_t),
        ("readonly", c_int),
        ("ndim", c_int),
        ("format", c_char_p),
        ("shape", c_void_p),
        ("strides", c_void_p),
        ("suboffsets", c_void_p),
        ("internal", c_void_p),
    ]


_get_buffer = ctypes.pythonapi.PyObject_GetBuffer
_get_buffer.argtypes, _get_buffer.restype = (py_object, POINTER(_Buffer), c_int), c_int
_release_buffer = ctypes.pythonapi.PyBuffer_Release
_release_buffer.argtypes, _release_buffer.restype = (POINTER(_Buffer),), None


def held(data: Data) -> memoryview:
    """A view of the bytes of a layer, which keeps them. Raises TypeError if they are writable, or aren't bytes."""
    if type(data) is bytes:
        return memoryview(data)
    if isinstance(data, (str, os.PathLike)):
        with open(data, "rb") as file:
            data = file.read()
    lent: Any = data
    try:
        view = memoryview(lent)
    except TypeError:
        told = f"a layer is made of bytes, or of a path or a buffer of bytes, not of {type(data).__name__}"
        raise TypeError(told) from None
    if not _is_fixed(view):
        raise TypeError(f"the bytes of a {type(data).__name__} may be written while the library reads them: {_HOW}")
    if not view.nbytes:
        # A view of no bytes may have no address, and be of any shape.
        return memoryview(b"")
    if view.itemsize != 1 or not view.c_contiguous:
        raise TypeError(f"the bytes of a {type(data).__name__} don't follow one another as single bytes: {_HOW}")
    return view.cast("B")


def _is_fixed(view: memoryview) -> bool:
    """Whether nobody can write to it, neither through it nor through what it is a view of."""
    owner: Any = view
    while owner is not None:
        try:
            if not memoryview(owner).readonly:
                return False
        except TypeError:
            # An owner that lends no buffer, so nobody writes through it.
            return True
        owner = owner.obj if isinstance(owner, memoryview) else getattr(owner, "base", None)
    return True


def address_of(view: memoryview) -> int:
    """The address of the bytes of a view, as long as the view is kept."""
    buffer = _Buffer()
    _get_buffer(view, ctypes.byref(buffer), 0)
    # The view holds the same memory, so it stays where it is.
    address = buffer.buf
    _release_buffer(ctypes.byref(buffer))
    return int(address)
