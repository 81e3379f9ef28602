"""Parses code (.rt).

The parser relies on the layout of `rt fmt`: an item begins in the first column, and everything inside it is indented."""
import functools
import re

ITEM = re.compile(r'(?:pub(?:\(\w+\))? )?(?:const |unsafe |extern "C" )*(fn|trait|struct|enum|const|static|type|mod|use) (\w+)')
# `impl Trait for Type` or `impl Type`.
IMPL = re.compile(r"(?:unsafe )?impl(?:<[^{]*?>)? (?:(\w+)(?:<[^{]*>)? for )?(?:&'?\w* ?)?(\w+)")
# `use path::name;` or `use path::{name, name};`.
USE = re.compile(r"(?:pub )?use ([\w:]+)::(?:(\w+)|\{([^}]*)\});")
# The start of a clause, with its label, or of a ghost member, with its name.
CLAUSE = re.compile(r"(?:\n    (?:requires|ensures)(?: (\w+))?|^ghost (\w+)(?::| =)) \{")


def uncommented(text):
    """Removes comments, but no line, so that line numbers stay right."""
    return re.sub(r"(?<!\S)//.*", "", text)


class Item:
    """An item of a file, or a member of a trait or an impl.

    `kind` is a keyword such as `fn` or `impl`, or "" for everything else. `name` is the type of an impl, and `trait` its trait.
    `head` is the signature of a function, or the whole text of another item. `clauses` has pairs of a label and a text; a ghost
    member counts as one clause, with its name as the label."""

    def __init__(self, lines, first):
        """Parses lines without comments and common indent. The first of them has the line number `first` in the file."""
        above = next((number for number, line in enumerate(lines) if line and not line.startswith("#")), len(lines) - 1)
        self.attributes, self.lines, self.text = lines[:above], lines[above:], "\n".join(lines[above:])
        self.first, self.last = first + above, first + len(lines) - 1
        self.is_public = self.text.startswith("pub ")
        self.trait, self.kind, self.name = None, "", ""
        if match := ITEM.match(self.text):
            self.kind, self.name = match.groups()
        elif match := IMPL.match(self.text):
            self.kind, (self.trait, self.name) = "impl", match.groups()
        # The body of a function with clauses begins in a line of its own, and otherwise at the end of a line.
        head, *parts = CLAUSE.split(self.text.split("\n{")[0])
        self.head = head.split(" {\n")[0] if self.kind == "fn" else self.text
        found = zip(parts[::3], parts[1::3], parts[2::3])
        self.clauses = [(label or name or "", text.rpartition("}")[0].strip()) for label, name, text in found]

    @functools.cached_property
    def members(self):
        """The members of a trait or an impl."""
        opening = next((number for number, line in enumerate(self.lines, 1) if line.endswith("{")), None)
        if opening is None or self.kind not in ("trait", "impl"):
            return []
        return list(items([line[4:] for line in self.lines[opening:-1]], self.first + opening))

    def signatures(self):
        """Returns the texts in which a public item names types: the public fields of a struct, the heads of the functions of a
        trait or of the public functions of an impl, or the head of any other item."""
        if self.kind == "struct":
            return re.findall(r"\bpub [^,;}]*", self.text.removeprefix("pub "))
        if self.kind not in ("trait", "impl"):
            return [self.head]
        is_open = self.kind == "trait"
        return [one.head for one in self.members if one.kind == "fn" and not self.trait and (is_open or one.is_public)]


def items(lines, first=1):
    """Splits lines into items. Outside of braces, an item ends at a `;`, or at a `}` in a line that isn't indented."""
    start, depth = 0, 0
    for stop, line in enumerate(lines, 1):
        depth += line.count("{") - line.count("}")
        if line.startswith("}") or (depth == 0 and line.endswith(";" if line[:1].isspace() else (";", "}"))):
            yield Item(lines[start:stop], first + start)
            start, depth = stop, 0


class Code:
    """A file of code. Its functions include the functions of traits and impls."""

    def __init__(self, text):
        self.text = text
        self.items = list(items([line.rstrip() for line in uncommented(text).splitlines()]))
        self.functions = [one for item in self.items for one in (item, *item.members) if one.kind == "fn"]

    def uses(self, only_public=False):
        """Yields the path and the names of each `use` line."""
        for item in self.items:
            match = USE.match(item.text) if item.is_public or not only_public else None
            if match:
                yield match[1], [name.strip() for name in (match[2] or match[3]).split(",") if name.strip()]


@functools.cache
def read(text):
    """Parses a file of code, once for each text."""
    return Code(text)
