"""Checks that pages agree: a number that several files state is one number, a time is one of docs/SPEED.md, the ratios there are those
of its columns, what a page shows of a run or of a definition is what there is, and modules and files that tables name are there.
Used by pages.py.
"""
import os
import re

import plain
from sources.files import all_crates, files, text_of
from sources.markdown import Page, pages_in

SPEED, ARCHITECTURE = os.path.join("docs", "SPEED.md"), os.path.join("docs", "ARCHITECTURE.md")
# What several files state, each with a pattern that has it as its group.
STATED = {
    "the minutes of `make test`": {
        "README.md": r"`make test` \|.*?(\d+) minutes",
        "CONTRIBUTING.md": r"`make test` \|.*?(\d+) minutes",
        "Makefile": r"'make test .*?(\d+) minutes",
        "docs/EVIDENCE.md": r"the gate\s+takes\s+(\d+)\s+minutes",
    },
    "the minutes of `make build`": {
        "README.md": r"`make build` \|.*?(\d+) minutes",
        "CONTRIBUTING.md": r"`make build` \|.*?(\d+) minutes",
        "Makefile": r"'make build .*?(\d+) minutes",
    },
    "the minutes of `make library`": {
        "README.md": r"`make library`.*?(\d+) minutes",
        "CONTRIBUTING.md": r"`make library`.*?(\d+) minutes",
    },
    "the window of README's picture": {
        "README.md": r"^!\[.*? (x=[\d.-]+,y=[\d.-]+)",
        "tests/page.py": r'def for_readme\(page\):[^#]*?page\.scan\("(.*?)"\)',
    },
    "the hits of README's demo and picture": {"README.md": r"^!\[.*? (\d+) hits|^    hits=(\d+) "},
    "the version": {
        "VERSION": r"^(.*)\n",
        "README.md": r"(?:dozhemik-|[Vv]ersion )(\d+\.\d+\.\d+)",
        # The newest alone.
        "CHANGELOG.md": r"^## (\d\S*)(?s:.*)",
    },
}
TIME = re.compile(r"(?<![\d.,])(\d[\d,]*(?:\.\d+)?) (?:ms|µs|ns)\b")
# A run of the program on an example, and the lines below it.
SHOWN = re.compile(r"^    \$ (?:\S*/)?twkb_tool (check|list|scan) (examples/\S+)((?: x=\S+)*)(?: \|.*)?\n((?:    (?!\$ ).*\n)+)", re.MULTILINE)
QUOTED = re.compile(r"^```antt\n(.*?)^```$", re.MULTILINE | re.DOTALL)


def differing(top, stated=None):
    """Yields an error for each number that files state differently, or that one of them lacks."""
    for what, patterns in (stated or STATED).items():
        found = {}
        for path, pattern in patterns.items():
            matches = re.finditer(pattern, text_of(top, path), re.MULTILINE)
            found[path] = {next(filter(None, match.groups())) for match in matches}
            if not found[path]:
                yield f"{path} doesn't state {what}"
        if len(set().union(*found.values())) > 1:
            yield f"{what}: " + ", ".join(f"{path} has {' and '.join(sorted(has))}" for path, has in found.items() if has)


def uncited(top):
    """Yields an error for each time on another page that docs/SPEED.md doesn't have."""
    known = {cell for row in Page(top, SPEED).rows() for cell in row}
    for page in (Page(top, name) for name in pages_in(top) if name != SPEED):
        for time in TIME.findall(page.own_text()):
            if time not in known:
                yield f"{page.name} has the time {time}, which {SPEED} lacks"


def unequal(top):
    """Yields an error for each ratio in docs/SPEED.md that isn't the quotient of its columns, as they are rounded."""
    heading = []
    for row in Page(top, SPEED).rows():
        if any(cell.startswith("ours, ") for cell in row):
            heading = [cell.split(",")[0] for cell in row]
        for other in ("fast", "vectors"):
            if len(row) == len(heading) and f"ours to {other}" in heading:
                ours, over, ratio = (row[heading.index(name)] for name in ("ours", other, f"ours to {other}"))
                if re.match(r"\d", ours) and not is_ratio(float(ours), float(over), float(ratio)):
                    yield f"{SPEED} has the ratio {ratio}, and not that of {ours} to {over}"


def is_ratio(ours, over, ratio):
    return (ours - 0.05) / (over + 0.05) - 0.005 <= ratio <= (ours + 0.05) / (over - 0.05) + 0.005


def unshown(top):
    """Yields an error for each shown line that the plain reader doesn't print for the example."""
    for page in (Page(top, name) for name in pages_in(top)):
        for command, path, windows, lines in SHOWN.findall(page.text):
            with open(os.path.join(top, path), "rb") as file:
                data = file.read()
            makes = {"check": plain.check, "list": plain.rows}
            scanned = plain.scan(data, [plain.window_of(window) for window in windows.split()]) if windows else ""
            printed = scanned if command == "scan" else makes[command](data)
            for line in map(str.strip, lines.splitlines()):
                if line and line != "..." and line not in printed.splitlines():
                    yield f"{page.name} shows {line!r} for {command} {path}{windows}, which prints {printed.splitlines()[-1]!r}"


def misquoted(top):
    """Yields an error for each quoted line that no definition has."""
    paths = [path for crate in all_crates(top) for path in files(top, crate, "specs")]
    known = {line.rstrip() for path in paths for line in text_of(path).splitlines()}
    for page in (Page(top, name) for name in pages_in(top)):
        for line in (line for quote in QUOTED.findall(page.text) for line in quote.splitlines()):
            if line.rstrip() not in known:
                yield f"{page.name} quotes {line.strip()!r}, which no definition has"


def gone(top):
    """Yields an error for each module in the tables of docs/ARCHITECTURE.md, and each file of tests/plants.tsv, that isn't there."""
    for section in re.split(r"^## ", text_of(top, ARCHITECTURE), flags=re.MULTILINE)[1:]:
        crate = section.partition("\n")[0]
        for cells in re.findall(r"^\| Module \|.*\n\|.*\n((?:\|.*\n)+)", section, re.MULTILINE):
            for name in re.findall(r"`([\w/]+)`", "".join(row.split("|")[1] for row in cells.splitlines())):
                if not os.path.exists(os.path.join(top, "crates", crate, "src", f"{name}.rt")):
                    yield f"{ARCHITECTURE} has {name} of {crate}, which isn't there"
    for crate, named in (row.split("\t")[:2] for row in text_of(top, "tests", "plants.tsv").splitlines()[1:]):
        for file in named.split(", ") if not named.startswith("all but ") else ():
            if not os.path.exists(os.path.join(top, "crates", crate, "src", f"{file}.rt")):
                yield f"tests/plants.tsv has {file} of {crate}, which isn't there"


def disagreeing(top):
    yield from differing(top)
    yield from uncited(top)
    yield from unequal(top)
    yield from unshown(top)
    yield from misquoted(top)
    yield from gone(top)
