"""Parses definitions (.antt): the lines of each, with the comment above it, and the other definitions that it names."""
import itertools
import os
import re

from .files import CRATES, TOP, files, text_of
from .names import imports, named, words

# A line that starts a definition, if it has a keyword other than `pub`, or a colon after the name.
START = re.compile(r"(?:(abbrev|unfoldable) )?(pub )?(?:(record|data) )?(\S+)( :(?= |$))?")
# A field of a record, or a constructor.
FIELD = re.compile(r"^ +(?:pub )?(\S+) :(?: |$)", re.MULTILINE)
# The first line of a group of definitions that name one another. They are indented by two spaces.
GROUP = re.compile(r"(?:(abbrev|unfoldable) )?mutual$")
# A line that belongs to the definition below it: a comment, but not a heading; a fixity; the first line of a group.
ABOVE = re.compile(r"\s*(--(?! ----)|infix|((abbrev|unfoldable) )?mutual$)")
# Folders of `specs/` for definitions that only private contracts use, of this crate or also of crates that use it.
DEVICES, SHARED = "Devices", "Shared"


class Definition:
    """A definition. Its key is the name of its module and its own."""

    def __init__(self, path, module, lines, start, group):
        keyword, public, kind, name, _ = start.groups()
        self.path, self.module, self.name, self.key, self.lines = path, module, name, f"{module}.{name}", lines
        is_unfolded = bool(GROUP.match(group)[1]) if group else bool(keyword)
        self.kind = kind or ("function" if is_unfolded else "law")
        self.is_public = bool(public)
        # The names that it defines: its own and its constructors.
        self.names = {name, *(FIELD.findall("\n".join(lines[1:])) if kind == "data" else ())}
        # Set by `read_all`: the keys of the definitions, and the full names of the types of the code, that it names.
        self.uses, self.types = set(), set()
        _, self.crate, _, folder, *_ = [*module.split("."), ""]
        self.is_device, self.is_shared = folder == DEVICES, folder == SHARED
        self.is_private = self.is_device or self.is_shared

    def words(self):
        """Returns its words, without comments and names of fields."""
        text = uncommented("\n".join(self.lines))
        if self.kind in ("record", "data"):
            text = FIELD.sub(" ", text)
        return words(re.sub(r"([{;])(\s*)[^\s{};]+ = ", r"\1\2", text))


def uncommented(text):
    return re.sub(r"--(?= |$).*", "", text, flags=re.MULTILINE)


def comment(lines):
    """Returns the text of the comment at the start of some lines, up to an empty line of it."""
    below = itertools.dropwhile(GROUP.match, (line.strip() for line in lines))
    return " ".join(line[3:] for line in itertools.takewhile(re.compile("-- (?!----)").match, below)).strip()


def starts(lines):
    """Yields for each definition the index of its first line, the match of START, and the first line of its group or None."""
    above = group = None
    for number, line in enumerate(lines):
        if line[:1].strip():
            group = line if GROUP.match(line) else None
        match = START.match(line[2:] if group and line.startswith("  ") else line)
        if ABOVE.match(line):
            above = number if above is None else above
            continue
        if match and (match[1] or match[3] or match[5]):
            yield number if above is None else above, match, group
        above = None


def read(path, top=TOP):
    """Yields the definitions of a file."""
    lines = text_of(path).splitlines()
    module = "Rattle." + os.path.relpath(path, os.path.join(top, "crates")).removesuffix(".antt").replace(os.sep, ".")
    found = list(starts(lines))
    ends = [first for first, _, _ in found[1:]] + [len(lines)]
    for (first, start, group), end in zip(found, ends):
        own = [line for line in lines[first:end] if line.strip() and not line.startswith("-- ----")]
        yield Definition(path, module, own, start, group)


def read_all(top=TOP, crates=CRATES):
    """Returns the definitions of the crates, by their keys and by the full names that they define."""
    by_file = {path: list(read(path, top)) for crate in crates for path in files(top, crate, "specs")}
    found = [one for own in by_file.values() for one in own]
    by_name = {f"{one.module}.{name}": one for one in found for name in one.names}
    for path, own in by_file.items():
        near = imports(text_of(path)) | {name: f"{one.module}.{name}" for one in own for name in one.names}
        for one in own:
            full = named(one.words(), near)
            one.types = {name for name in full if ".specs.declared." in name}
            one.uses = {by_name[name].key for name in full if name in by_name} - {one.key}
    return {one.key: one for one in found}, by_name


def reading_order(top, crate):
    """Returns the paths of the files of definitions in the order of `specs/Lib.antt`, which is the order to read them in."""
    folder = os.path.join(top, "crates", crate, "specs")
    if not os.path.isdir(folder):
        return []
    library = uncommented(text_of(folder, "Lib.antt"))
    return [os.path.join(folder, f"{name}.antt") for name in re.findall(r"^pub mod (\w+)", library, re.MULTILINE)]
