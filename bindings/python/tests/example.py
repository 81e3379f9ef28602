"""What the tests share: the package in reach, the layers of the repository, and packages that may be missing."""
import importlib
import os
import sys
from typing import Any

HERE = os.path.dirname(os.path.abspath(__file__))
PACKAGE = os.path.dirname(HERE)
TOP = os.path.dirname(os.path.dirname(PACKAGE))
if PACKAGE not in sys.path:
    sys.path.insert(0, PACKAGE)

POINT = bytes.fromhex("01000204")
EXAMPLES = ("points_sized", "coast_lines_sized", "coast_collections", "coast_z")


def path_of(name: str) -> str:
    return os.path.join(TOP, "examples", f"{name}.twkb")


def example(name: str) -> bytes:
    with open(path_of(name), "rb") as file:
        return file.read()


def package(name: str) -> Any:
    """A package, or None where it is missing."""
    try:
        return importlib.import_module(name)
    except ImportError:
        return None
