#!/usr/bin/env python3
"""Tests the errors of pages that disagree (agreement.py), or are too large (pages.py), on made-up pages.

usage: tests/agreement_cases.py   (prints each difference, and last `N passed, M failed`; the exit status is 1 if one failed)
"""
import os
import sys

import agreement
import pages
from harness import count, counts
from sources import markdown
from sources_cases import PLAIN, made

# Pages that agree, the text of one of them in place of another, and the error that this gives.
TIMES = "| Step | ours, ms | fast, ms | vectors, ms | ours to fast | ours to vectors |\n|---|---|---|---|---|---|\n"
AGREEING = {
    "README.md": "The gate takes 27 minutes, an audit 2.5 ms.\n\n    $ build/twkb_tool scan examples/a.twkb x=1..1,y=2..2\n"
    "    hit blob=0 offset=0\n    ...\n    hits=1 read=4 of=4\n    $ twkb_tool check examples/a.twkb\n    ok blobs=1 vertices=1\n"
    "```antt\n-- a number is seen\n```\n",
    "docs/SPEED.md": TIMES + "| audit | 2.5 | 5.0 | 2.0 | 0.50 | 1.25 |\n",
    "docs/GATE.md": "It takes 27\nminutes. <!-- a by tests/pages.py -->9 ms<!-- end of a -->\n",
    "crates/made/specs/Plain.antt": PLAIN,
    "crates/made/src/a.rt": "",
    "docs/ARCHITECTURE.md": "## made\n\n| Module | What |\n|---|---|\n| `a` | `b` |\n\n## No crate\n| Module |\n|---|\n",
    "tests/plants.tsv": "crate\tfiles\tbodies\nmade\tall but b\t1\nmade\ta, a\t2\n",
}
GATED = {"the minutes": {"README.md": r"(\d+) minutes", "docs/GATE.md": r"(\d+)\s+minutes"}}
DISAGREEING = (
    ("README.md", "27 m", "27 m", None),
    ("README.md", "27 m", "28 m", "the minutes: README.md has 28, docs/GATE.md has 27"),
    ("README.md", "27 minutes", "long", "README.md doesn't state the minutes"),
    ("README.md", "2.5 ms", "2.6 ms", "README.md has the time 2.6, which docs/SPEED.md lacks"),
    ("README.md", "offset=0", "offset=1", "README.md shows 'hit blob=0 offset=1'"),
    ("README.md", "hits=1", "hits=2", "README.md shows 'hits=2 read=4 of=4'"),
    ("README.md", "vertices=1", "vertices=2", "README.md shows 'ok blobs=1 vertices=2' for check examples/a.twkb"),
    ("README.md", "is seen", "is unseen", "README.md quotes '-- a number is unseen', which no definition has"),
    ("docs/SPEED.md", "0.50", "0.55", "docs/SPEED.md has the ratio 0.55, and not that of 2.5 to 5.0"),
    ("docs/SPEED.md", "0.50", "0.51", None),
    ("docs/ARCHITECTURE.md", "`a`", "`a`, `b`", "docs/ARCHITECTURE.md has b of made, which isn't there"),
    ("tests/plants.tsv", "a, a", "a, b", "tests/plants.tsv has b of made, which isn't there"),
)
# The sizes of pages, and the errors that these give.
LIMITS = (
    ({"README.md": 9_000, "docs/SCALE.md": 3_000}, []),
    ({"README.md": 9_001, "docs/SCALE.md": 3_001}, ["README.md has 9001 bytes, more than 9000", "docs/SCALE.md has 3001 bytes, more than 3000"]),
    ({"README.md": 0, "docs/OTHER.md": 1}, ["docs/OTHER.md has 1 bytes, more than 0"]),
)


def agreement_cases():
    folders = {os.path.join(folder, "README.md"): "" for folder in markdown.FOLDERS}
    for path, old, new, wanted in DISAGREEING:
        texts = folders | AGREEING
        texts[path] = texts[path].replace(old, new)
        with made(texts) as top:
            with open(os.path.join(top, "examples", "a.twkb"), "wb") as layer:
                layer.write(bytes.fromhex("01000204"))
            errors = [*agreement.differing(top, GATED), *agreement.uncited(top), *agreement.unequal(top)]
            errors += [*agreement.unshown(top), *agreement.misquoted(top), *agreement.gone(top)]
        found = [error for error in errors if not wanted or wanted not in error]
        count(f"{path}: {new} for {old}", (found, len(errors)), ([], int(wanted is not None)))


def size_cases():
    folders = {os.path.join(folder, "README.md"): "" for folder in markdown.FOLDERS}
    for sizes_of, wanted in LIMITS:
        with made(folders | {path: "a" * size for path, size in sizes_of.items()}) as top:
            count(f"sizes {sizes_of}", list(pages.too_large(top)), wanted)


def main():
    agreement_cases()
    size_cases()
    print(f"{counts['passed']} passed, {counts['failed']} failed")
    return 1 if counts["failed"] else 0


if __name__ == "__main__":
    sys.exit(main())
