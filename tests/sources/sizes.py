"""Counts the lines of each crate, empty ones included, and its wrong bodies and twins."""
import os
import re

from .edits import APART, GATE, TWINS
from .files import CRATES, TOP, all_crates, files, text_of

# The columns of the table of sizes: a name, a folder, and a pattern for the paths of files in the folder.
KINDS = (
    ("Source", "src", r"(?!(.*/)?tests[./]).*\.rt"),
    ("Tests", "src", r"(.*/)?tests[./](.*\.)?rt"),
    ("Definitions", "specs", r"(?!Devices[./]|Shared[./]).*\.antt"),
    ("Auxiliary", "specs", r"(Devices|Shared)[./](.*\.)?antt"),
    ("Proofs", "proofs", r".*\.antt"),
    ("Mutants at the gate", GATE, r".*\.edit"),
    ("Other mutants", APART, r".*\.edit"),
    ("Controls", TWINS, r".*\.edit"),
)


def size(top, crate, folder, pattern):
    """Counts the lines of the files that match a pattern. Of edits it counts the files."""
    root = os.path.join(top, "crates", crate, folder)
    paths = [path for path in files(top, crate, folder, "") if re.fullmatch(pattern, os.path.relpath(path, root))]
    return sum(1 if path.endswith(".edit") else text_of(path).count("\n") for path in paths)


def all_sizes(top=TOP):
    """Returns the name and the sizes of each crate: first those in CRATES, and then all others."""
    crates = (*CRATES, *(crate for crate in all_crates(top) if crate not in CRATES))
    return [(crate, [size(top, crate, folder, pattern) for _, folder, pattern in KINDS]) for crate in crates]
