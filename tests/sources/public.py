"""Finds the public items of a crate, and collects their contracts."""
import functools
import os
import re
from typing import NamedTuple

from . import code
from .files import CRATES, TOP, files, text_of
from .names import imports, named, words

# Ghost members of a model that no user of its type sees: proofs, and conditions on private fields.
UNREAD = {"view", "invariant", "inverse", "from_gives"}


class Contract(NamedTuple):
    """The contract of a public function or trait, of the model of a public type, or of an impl of a trait for one."""

    crate: str
    name: str
    kind: str
    # Pairs of a label and a text.
    clauses: list
    # The words of the signature of a function.
    signature: set
    # The full names of the names that `use` lines import.
    near: dict

    def words(self, labels=None):
        """Returns the words of all clauses, or of those with one of these labels."""
        return set().union(*(words(text) for label, text in self.clauses if labels is None or label in labels))


def path_of(top, crate, module):
    """Returns the path of a module's file, or None if there is none. The module "" is the root."""
    names = (module,) if module else ("lib", "main")
    paths = (os.path.join(top, "crates", crate, "src", f"{name}.rt") for name in names)
    return next(filter(os.path.exists, paths), None)


def read(top, crate, module):
    return code.read(text_of(path_of(top, crate, module)))


def public_items(top, crate, module="", names=None):
    """Yields the public items of a crate and the impls for its public types, each with the code of its file.

    In a public module, all items marked `pub` are public. In a private one, only the names that a public one re-exports are. The root
    of a library only re-exports. An impl is in the module of its type, or in a private module below it."""
    here, below = read(top, crate, module), f"{module}/" if module else ""
    is_library = not module and path_of(top, crate, module).endswith("lib.rt")
    marked = [item for item in here.items if item.is_public and (names is None or item.name in names)]
    own = [] if is_library else [item for item in marked if item.kind not in ("", "mod", "use")]
    private = [below + item.name for item in here.items if module and item.kind == "mod" and not item.is_public]
    for file in (here, *(read(top, crate, path) for path in private if path_of(top, crate, path))):
        for item in file.items:
            if item in own or (item.kind == "impl" and item.name in {one.name for one in own}):
                yield file, item
    for item in marked if names is None else ():
        if item.kind == "mod":
            yield from public_items(top, crate, below + item.name)
    for path, found in here.uses(only_public=True):
        exported = [name for name in found if names is None or name in names]
        if exported and path_of(top, crate, below + path):
            yield from public_items(top, crate, below + path, exported)


def contracts(crate, file, item, traits):
    """Yields the contract of a public item, or the contracts of the methods in an impl."""
    make = functools.partial(Contract, crate, near=imports(file.text))
    clauses = [clause for member in item.members for clause in member.clauses]
    if item.kind == "fn":
        yield make(item.name, "function", item.clauses, words_of(item))
    elif item.kind == "trait":
        yield make(item.name, "trait", clauses, set())
    elif item.kind == "impl" and not item.trait:
        for one in item.members:
            if one.kind == "fn" and one.is_public:
                yield make(f"{item.name}::{one.name}", "function", one.clauses, words_of(one) | {item.name})
    elif item.kind == "impl" and item.trait in traits:
        name, kind = (item.name, "model") if item.trait == "Model" else (f"{item.trait} for {item.name}", "impl")
        yield make(name, kind, [(label, text) for label, text in clauses if label not in UNREAD], set())


def words_of(function):
    return set(re.findall(r"\w+", function.head))


def read_public(top=TOP, crates=CRATES):
    """Returns the contracts of the public items of the crates."""
    found = [(crate, *one) for crate in crates for one in public_items(top, crate)]
    traits = {item.name for _, _, item in found if item.kind == "trait"} | {"Model"}
    return [contract for one in found for contract in contracts(*one, traits)]


def cited(top, crate):
    """Returns the full names of the definitions that the code of a crate names, except in folders of tests."""
    found = set()
    for path in files(top, crate, "src", ".rt"):
        if "tests" not in path.split(os.sep)[:-1]:
            text = text_of(path)
            rest = re.sub(r"^\s*ghost use .*", "", code.uncommented(text), flags=re.MULTILINE)
            found |= named(words(rest), imports(text))
    return found
