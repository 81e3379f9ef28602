"""Certifies layers of TWKB geometries, lists them and scans them for windows, by the proved library libtwkb.so.

A layer is the bytes of TWKB geometries (blobs), one after another. It is certified if each size is the number of bytes
of its geometry after it, each box holds all vertices of its geometry, and the ids of each list differ. Only a certified
layer can be listed and scanned:

    from dozhemik import Refused, certify

    try:
        layer = certify("coast.twkb")
    except Refused as why:
        print(why.blob, why.offset, why.kind)
    else:
        scan = layer.scan(x=(10, 30), y=(35, 45.5))
        print(len(scan), "hits,", scan.bytes_read, "of", layer.size, "bytes read")
        for hit in scan:
            print(hit.blob, hit.offset, layer.blob(hit).hex())

The library is proved. This package isn't: it passes the bytes, and converts the results to Python values. It loads the
file that the environment variable TWKB_LIBRARY names, or libtwkb.so beside its modules, or else the system's
libtwkb.so.0. If that has another version than the package, importing raises WrongVersion, which is an ImportError.
"""
from ._answers import HIT_DTYPE, ROW_DTYPE, TYPES, Hit, Refused, Row, Scan
from ._bytes import Data
from ._layer import Directory, Layer, certify
from ._library import VERSION as __version__
from ._window import BadWindow, Box, Coordinate, Range, Window

__all__ = [
    "BadWindow",
    "Box",
    "Coordinate",
    "Data",
    "Directory",
    "HIT_DTYPE",
    "Hit",
    "Layer",
    "ROW_DTYPE",
    "Range",
    "Refused",
    "Row",
    "Scan",
    "TYPES",
    "Window",
    "__version__",
    "certify",
]
