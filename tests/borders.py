#!/usr/bin/env python3
"""Checks that each library re-exports the types of lower libraries that its public signatures name.

usage: tests/borders.py   (prints each missing type, and then the number of types; the exit status is 1 if a type is missing)

So a caller of a library doesn't need the lower ones. Signatures are the heads of public functions and methods, the public fields of
structs, the variants of enums and the functions of traits. A library that re-exports a trait also has to re-export the types in its
functions, because every implementation names them.
"""
import re
import sys

from sources.files import TOP
from sources.public import public_items, read

LIBRARIES = ("twkb_num", "twkb_head", "twkb_body", "twkb_layer", "twkb_call")


def imported(code, libraries, only_public=False):
    """Maps the names that a file imports, or re-exports, from these libraries to the library."""
    return {name: path for path, names in code.uses(only_public) if path in libraries for name in names}


def named(top, crate, libraries):
    """Yields the types in the public signatures of a crate: the item, the type, and the library that the type is imported from."""
    own = {item.name: crate for _, item in public_items(top, crate) if item.name[:1].isupper()}
    for code, item in public_items(top, crate):
        types = own | imported(code, libraries)
        for signature in item.signatures():
            for name in set(re.findall(r"\w+", signature)) & set(types) - {item.name}:
                yield item.name, name, types[name]


def wanted(crate, all_named, traits):
    """Maps each type that a library has to re-export to the items that name it: its own, or traits that it re-exports."""
    found, waiting = {}, [(item, name) for item, name, library in all_named[crate] if library != crate]
    while waiting:
        item, name = waiting.pop()
        if name not in found and name in traits:
            waiting += {(name, other) for own in all_named.values() for trait, other, _ in own if trait == name}
        found.setdefault(name, set()).add(item)
    return found


def checked(top=TOP, libraries=LIBRARIES):
    """Yields an error or None for each type that a library has to re-export."""
    all_named = {crate: list(named(top, crate, libraries)) for crate in libraries}
    traits = {item.name for crate in libraries for _, item in public_items(top, crate) if item.kind == "trait"}
    for crate in libraries:
        exported = imported(read(top, crate, ""), libraries, only_public=True)
        for name, items in sorted(wanted(crate, all_named, traits).items()):
            yield None if name in exported else f"{crate} names {name}, and doesn't hand it on: {', '.join(sorted(items))}"


def main():
    found = list(checked())
    missing = [line for line in found if line]
    print("\n".join([*missing, f"{len(found)} types, {len(missing)} not handed on"]))
    return 1 if missing or not found else 0


if __name__ == "__main__":
    sys.exit(main())
