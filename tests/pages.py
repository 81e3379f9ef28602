#!/usr/bin/env python3
"""Checks the pages, and writes some parts of them.

usage: tests/pages.py [--write]   (--write first writes the parts)

It writes the numbers and the table in docs/DEFINITIONS.md, the totals and the table of sizes in docs/EVIDENCE.md, the lines of source
in docs/ARCHITECTURE.md, and by the times of docs/SPEED.md the table in README.md and the estimate in docs/SCALE.md. The exit status is 1
if there is an error:
- a part isn't up to date, or a page lacks its marks
- a page that should have the headline lacks it, or a page is too large
- two pages disagree (agreement.py)
- a link leads to a file or heading that doesn't exist, or its text is a name that the file doesn't have
- a table cites a clause that the function doesn't have
- the first lines of a module don't name the modules that use it
"""
import os
import re
import sys

import plain
from agreement import ARCHITECTURE, SPEED, disagreeing
from harness import table as rows_of
from sources import code, definitions
from sources.files import CRATES, TOP, text_of, write
from sources.markdown import Page, pages_in
from sources.reach import QUESTIONS, Reach
from sources.sizes import KINDS, all_sizes
from sources.users import unsaid

# The pages with the headline, word for word.
HEADLINED = ("README.md", os.path.join("docs", "PROVED.md"))
HEADLINE = (
    "**If `certify` accepts a file, the file is a sequence of TWKB blobs of this profile in which every size is the exact length that"
    " follows it, every box holds every vertex of its geometry and the ids within each list are distinct; and for every window the skip"
    " scan of that file reports exactly those blobs that have a vertex inside the window, in file order.**"
)
# The most bytes of each page, and of all pages in docs/ together; and the most lines of README.md.
MOST = {
    "README.md": 9_000,
    "CHANGELOG.md": 3_500,
    "CONTRIBUTING.md": 6_000,
    "bindings/c/README.md": 2_000,
    "bindings/web/README.md": 5_000,
}
MOST_IN_DOCS = {
    "ARCHITECTURE": 20_000,
    "BINDINGS": 9_000,
    "DECISIONS": 16_000,
    "DEFINITIONS": 45_000,
    "EVIDENCE": 14_000,
    "FORMAT": 14_000,
    "GLOSSARY": 3_000,
    "PROVED": 22_000,
    "SCALE": 3_000,
    "SPEED": 9_000,
    "USAGE": 15_000,
}
DOCS, LINES = 175_000, 150
# The rows of the table in README.md: a name, the first cells of the row in docs/SPEED.md, and whether to show the times of the
# programs in Rust. These have no directory.
STEPS = (
    ("certify", ["audit", "the mix"], True),
    ("scan for `x=10..30,y=35..45`", ["hop scan, 20 by 10 degrees", "the mix"], True),
    ("make a directory, once", ["building a directory", "the mix"], False),
    ("scan with it for `x=10..30,y=85..89`, no hit", ["directory scan without a hit", "the mix"], False),
)


def says(lines):
    """Returns the comment at the start of some lines, for a cell of a table. It links pages."""
    text = definitions.comment(lines).rstrip(":").replace("|", "\\|")
    return re.sub(r"docs/(\w+\.md)", r"[\1](\1)", text)


def table(reach):
    """Returns the table of definitions."""
    answers = reach.answers()
    rows = ["| Definition | Lines | For | Says |", "|---|---|---|---|"]
    for crate in reach.crates:
        for path in definitions.reading_order(reach.top, crate):
            own = [one for one in reach.definitions.values() if one.path == path]
            if own:
                rows.append(f"| **{crate}** `{os.path.basename(path)}` | | | {says(text_of(path).splitlines())} |")
            for one in own:
                letters = "".join(letter for letter, keys in answers.items() if one.key in keys)
                rows.append(f"| `{one.name}` | {len(one.lines)} | {letters} | {says(one.lines)} |")
    return "\n".join(rows)


def numbers(reach):
    """Returns the list of how many lines there are to read."""
    answers = reach.answers()
    rows = [f"- **{letter}**: {name} takes {reach.lines(answers[letter])} lines." for letter, name, *_ in QUESTIONS]
    devices = reach.lines(key for key, one in reach.definitions.items() if one.is_private)
    rows.append(f"- All public contracts together take {reach.lines(reach.public())} lines.")
    rows.append(f"- The auxiliary definitions are {devices} lines more, which nobody has to read.")
    return "\n".join(rows)


def totals(reach):
    """Returns the table of how much is tested."""
    gate, apart, twins = (sum(column) for column in list(zip(*(numbers for _, numbers in all_sizes(reach.top))))[-3:])
    worked = {row[2] for row in rows_of("cases.tsv")}
    changed = 256 * sum(len(data) // 2 for data in worked)
    cut = sum(len(data) // 2 - 1 for data in worked if plain.is_blob(bytes.fromhex(data)))
    plants = [[int(cell) for cell in row[2:9]] for row in rows_of("plants.tsv")]
    planted, rejected, accepted, equivalent, breaking, undecided, left_out = map(sum, zip(*plants))
    rows = (
        ("runs with known answers, by the program, C, Rust, Python and the page", len(rows_of("cases.tsv"))),
        ("windows of which PostGIS counted the hits", len(rows_of("postgis.tsv"))),
        ("worked layers, cut after a byte or with a byte changed, judged plainly and tightly", 2 * (cut + changed)),
        ("[mutants](#mutants) that the prover has to reject, and equivalent controls that it has to accept", f"{gate + apart}; {twins}"),
        ("of these mutants, tried by the gate", gate),
        ("mutants generated by `rt plant`; rejected", f"{planted:,}; {rejected + breaking:,}"),
        ("not rejected: accepted; equivalent; undecided; left out", f"{accepted}; {equivalent}; {undecided}; {left_out}"),
    )
    shown = (f"| {what} | {count if isinstance(count, str) else f'{count:,}'} |" for what, count in rows)
    return "\n".join(["| What | How many |", "|---|---|", *shown])


def lines(reach):
    """Returns the sentence on how many lines the crates up to the program have."""
    source, _, specs, devices, proofs = map(sum, zip(*(numbers[:5] for _, numbers in all_sizes(reach.top)[:5])))
    rest = f"{specs + devices + proofs:,} of definitions and proofs ([EVIDENCE](EVIDENCE.md#size))."
    return f"The crates in its first row have {source:,} lines of source, and {rest}"


def sizes(reach):
    """Returns the table of sizes, with empty cells for zeros."""
    found = [(f"`{name}`", numbers) for name, numbers in all_sizes(reach.top)]
    found.append(("all", [sum(column) for column in zip(*(numbers for _, numbers in found))]))
    rows = [f"| Crate | {' | '.join(name for name, *_ in KINDS)} |", "|---" * (len(KINDS) + 1) + "|"]
    rows += [" ".join(("|", crate, *(f"| {number or ''}".rstrip() for number in numbers), "|")) for crate, numbers in found]
    return "\n".join(rows)


def times(top, cells):
    """Returns the times in docs/SPEED.md of the row with these first cells, by the names of the programs."""
    found = Page(top, SPEED).rows()
    at = next(at for at, row in enumerate(found) if row[: len(cells)] == cells)
    heading = next(row for row in reversed(found[:at]) if "ours, ms" in row)
    return {name: found[at][heading.index(f"{name}, ms")] for name in ("ours", "fast", "vectors", "plain")}


def speed(reach):
    """Returns the table of times."""
    rows = ["| Step, one thread, 40 MB | Dozhemik, ms | Rust with SIMD, ms | Rust without, ms | Plain Rust, ms |", "|---|---|---|---|---|"]
    for name, cells, has_rivals in STEPS:
        found = times(reach.top, cells)
        rivals = [found[other] if has_rivals else "" for other in ("vectors", "fast", "plain")]
        rows.append(f"| {name} | " + " | ".join([found["ours"], *rivals]) + " |")
    return "\n".join(rows)


def planet(reach):
    """Returns the table of what 10^10 vertices in 10^6 layers take, by a layer of the examples and its times."""
    with open(os.path.join(reach.top, "examples", "coast_lines_sized.twkb"), "rb") as file:
        data = file.read()
    blobs = plain.blobs_of(data)
    bytes_a_vertex = len(data) / sum(len(blob.vertices) for blob in blobs)
    all_bytes, all_blobs = 1e10 * bytes_a_vertex, 1e10 * bytes_a_vertex * len(blobs) / len(data)
    audit, lookup = (float(times(reach.top, [step, "lines"])["ours"]) for step in ("audit", "directory scan without a hit"))
    nanoseconds = 1e6 * lookup / (40e6 * len(blobs) / len(data))
    rows = (
        ("bytes", f"{all_bytes / 1e9:.0f} GB", f"{bytes_a_vertex:.2f} bytes a vertex, as in `coast_lines_sized.twkb`, with sizes and boxes"),
        ("blobs", f"{all_blobs / 1e9:.1f} · 10^9", f"{1e10 / all_blobs:.1f} vertices a blob, as there"),
        ("certifying", f"{audit * all_bytes / 40e6 / 1e3:.0f} s", f"40 MB of lines in {audit} ms"),
        ("directories", f"{24 * all_blobs / 1e9:.0f} GB", "24 bytes a blob; 96 if its box has Z or M"),
        ("a window that no box of a layer meets", f"{nanoseconds * all_blobs / 1e9:.1f} µs a layer", f"{nanoseconds:.1f} ns a blob of lines, with a directory"),
        ("requests", "10^6, 33 minutes", "one for each layer, 16 at once, 32 ms each: assumed, measure your own"),
        ("moving the bytes", f"{all_bytes * 8 / 1e10:.0f} s", "at 10 Gbit/s"),
    )
    return "\n".join(["| What | How much | By |", "|---|---|---|", *(f"| {' | '.join(row)} |" for row in rows)])


# The parts of each page, and the functions that return their texts.
PARTS = {
    "README.md": {"speed": speed},
    ARCHITECTURE: {"lines": lines},
    os.path.join("docs", "DEFINITIONS.md"): {"numbers": numbers, "table": table},
    os.path.join("docs", "EVIDENCE.md"): {"totals": totals, "sizes": sizes},
    os.path.join("docs", "SCALE.md"): {"planet": planet},
}


def written(reach, page, parts):
    """Returns the text of a page with new parts."""
    return page.with_parts({part: make(reach) for part, make in parts.items()})


def too_large(top):
    """Yields an error for each page that is larger than it may be, or has no limit."""
    most = MOST | {os.path.join("docs", f"{name}.md"): size for name, size in MOST_IN_DOCS.items()}
    sizes = {name: os.path.getsize(os.path.join(top, name)) for name in pages_in(top)}
    in_docs = {name: size for name, size in sizes.items() if os.path.dirname(name) == "docs"}
    for name, size in sizes.items():
        if size > most.get(name, DOCS if name not in in_docs else 0):
            yield f"{name} has {size} bytes, more than {most.get(name, 0)}"
    if sum(in_docs.values()) > DOCS:
        yield f"docs/ has {sum(in_docs.values())} bytes, more than {DOCS}"
    if text_of(top, "README.md").count("\n") > LINES:
        yield f"README.md has more than {LINES} lines"


def stale(reach):
    """Yields an error for each page that lacks the headline, is too large, isn't up to date, or disagrees with another."""
    for name in HEADLINED:
        if HEADLINE not in re.sub(r"\s+", " ", text_of(reach.top, name)):
            yield f"{name} lacks the headline, word for word"
    yield from too_large(reach.top)
    for name, parts in PARTS.items():
        page = Page(reach.top, name)
        if missing := page.lacks(parts):
            yield f"{name} lacks {', '.join(missing)}"
        elif written(reach, page, parts) != page.text:
            yield f"{name} isn't as the crates are: python3 tests/pages.py --write"
    yield from disagreeing(reach.top)


def has(top, path, name):
    """Whether a file has a public definition or an item of this name, or is the module of this name."""
    last = name.split("::")[-1]
    if not os.path.exists(os.path.join(top, path)):
        return False
    if path.endswith(".antt"):
        return any(one.is_public and one.name == last for one in definitions.read(os.path.join(top, path), top))
    here = code.read(text_of(top, path))
    items = (one.name for one in (*here.items, *here.functions) if one.kind in ("fn", "trait", "struct", "enum"))
    return last in items or path.endswith((f"/{last}.rt", f"/{last}/src/lib.rt"))


def broken(top, pages=None):
    """Yields an error for each link to a file or heading that doesn't exist, in these pages or in all."""
    for page in (Page(top, name) for name in pages or pages_in(top)):
        for target, _, anchor in (target.partition("#") for target in page.links()):
            if re.match(r"\w+:", target):
                continue
            path = page.path_of(target) if target else page.name
            if not os.path.exists(os.path.join(top, path)):
                yield f"{page.name} links {target}, which isn't there"
            elif anchor and path.endswith(".md") and anchor not in Page(top, path).anchors():
                yield f"{page.name} links {target}#{anchor}, and no heading there has this name"


def astray(top=TOP):
    """Yields an error for each wrong link or citation, and for each function in the tree of calls that its file doesn't have."""
    for page in [Page(top, name) for name in pages_in(top)]:
        for path, name in page.linked_names():
            if not has(top, path, name):
                yield f"{page.name} links {name} to {path}, which lacks it"
        for path, name in page.calls() if page.name == ARCHITECTURE else ():
            if not has(top, path, name):
                yield f"{page.name} has {name} in {path.removeprefix('crates/')}, which lacks it"
        for path, function, labels in page.cites():
            # A missing file or function is the error of its link.
            functions = code.read(text_of(top, path)).functions if os.path.exists(os.path.join(top, path)) else []
            found = next((one for one in functions if one.name == function), None)
            missing = found and [label for label in labels if label not in dict(found.clauses)]
            if missing:
                yield f"{page.name} cites {', '.join(missing)} of {function}, which lacks it"
    yield from broken(top)


def main():
    reach = Reach()
    for page, parts in ((Page(TOP, name), parts) for name, parts in PARTS.items() if "--write" in sys.argv):
        if not page.lacks(parts):
            write(written(reach, page, parts), TOP, page.name)
    wrong = [*stale(reach), *astray(), *(error for crate in CRATES for error in unsaid(TOP, crate))]
    print("\n".join(wrong) or "The pages are as the crates are, and no link goes astray")
    return 1 if wrong else 0


if __name__ == "__main__":
    sys.exit(main())
