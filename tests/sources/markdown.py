"""Parses pages (.md)."""
import os
import re

from .files import text_of

# The folders with pages.
FOLDERS = ("", "docs", "examples", *(os.path.join("bindings", name) for name in ("c", "python", "rust", "web")))
# A link or a picture.
LINK = re.compile(r"\[([^\]]*)\]\(([^)\s]+)\)")
# Names of functions, linked or not, a colon, and names of clauses that each of these functions has.
CITATION = re.compile(r"((?:\[`[^\]]*`\]\([^)]*\.rt\)|`[\w:]+`|, | and )+): (`\w+`(?:, `\w+`)*)")
CITED = re.compile(r"\[(`[^\]]*`)\]\(([^)]*)\)|(`[\w:]+`)")
# A line of a tree of calls: a function, and its file below crates/.
CALL = re.compile(r"^ *(\w+) +(\w+/src/[\w/]+\.rt)", re.MULTILINE)
# The lines before and after a part that a script writes.
MARKS = "<!-- {} by tests/pages.py -->", "<!-- end of {} -->"


def pages_in(top):
    """Yields the paths of the pages in the repository."""
    for folder in FOLDERS:
        yield from (os.path.join(folder, name) for name in sorted(os.listdir(os.path.join(top, folder))) if name.endswith(".md"))


class Page:
    """A page, given by its path in the repository."""

    def __init__(self, top, name):
        self.name, self.text = name, text_of(top, name)
        # The text without blocks of code.
        self.prose = re.sub(r"^```.*?^```$", "", self.text, flags=re.MULTILINE | re.DOTALL)

    def own_text(self):
        """Returns the text without the parts that a script writes."""
        return re.sub(r"<!-- (\w+) by tests/pages\.py -->.*?<!-- end of \1 -->", "", self.text, flags=re.DOTALL)

    def path_of(self, target):
        """Returns the path in the repository of a linked file."""
        return os.path.normpath(os.path.join(os.path.dirname(self.name), target))

    def links(self):
        """Returns the targets of all links and pictures."""
        return [target for _, target in LINK.findall(self.prose)]

    def linked_names(self):
        """Yields the names in links to code or definitions, each after the path of the file."""
        for text, target in LINK.findall(self.prose):
            if re.fullmatch("`.*`", text) and re.search(r"crates/.*\.(?:antt|rt)$", target):
                yield from ((self.path_of(target), name) for name in re.findall(r"`([^`]+)`", text))

    def anchors(self):
        """Returns the anchors of the headings, by which links lead to them."""
        headings = re.findall(r"^#+ (.*)$", self.prose, re.MULTILINE)
        return {re.sub(r"[^\w\- ]", "", heading.lower()).replace(" ", "-") for heading in headings}

    def rows(self):
        """Returns the rows of all tables, each as a list of cells."""
        rows = re.findall(r"^\|(.*)\|$", self.prose, re.MULTILINE)
        return [[cell.strip() for cell in re.split(r"(?<!\\)\|", row)] for row in rows]

    def cites(self):
        """Yields the path, the function and the clauses of each citation in a table. A function without a link is in the file of
        the last link before it in the cell."""
        for cell in (cell for row in self.rows() for cell in row):
            path = None
            for match in filter(None, map(CITATION.match, cell.split("; "))):
                for names, target, name in CITED.findall(match[1]):
                    path = self.path_of(target) if target else path
                    for function in re.findall(r"`(?:\w+::)*(\w+)`", names or name) if path else ():
                        yield path, function, re.findall(r"`(\w+)`", match[2])

    def calls(self):
        """Returns the path and the name of each function in a tree of calls."""
        return [(os.path.join("crates", path), name) for name, path in CALL.findall(self.text)]

    def lacks(self, parts):
        """Returns the marks of these parts that are missing."""
        return [mark.format(part) for part in parts for mark in MARKS if mark.format(part) not in self.text]

    def with_parts(self, parts):
        """Returns the text of the page with new texts for some parts, given by their names."""
        text = self.text
        for part, new in parts.items():
            start, end = (mark.format(part) for mark in MARKS)
            before, _, rest = text.partition(start)
            text = f"{before}{start}\n{new}\n{end}{rest.partition(end)[2]}"
        return text
