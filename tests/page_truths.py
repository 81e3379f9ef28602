"""What the page says that isn't a matter of taste: extents, boxes that are loose, where false sizes lead, names and numbers.

Expected numbers come from how the layers are made here, from plain.py and from the format.
"""
import os
import re

import plain
from harness import TOP, count
from page_answers import POINT, example, has, said, signed, varint

WORLD = "world.twkb"
FAR = 99


def line(points, box=None, size=False, precision=0):
    """A linestring of whole coordinates, with a box of lowest X, highest X, lowest Y, highest Y if one is given."""
    spelled, before = b"", [0] * len(points[0])
    for point in points:
        spelled += b"".join(signed(one - last) for one, last in zip(point, before))
        before = point
    body = b"" if box is None else b"".join(signed(low) + signed(high - low) for low, high in zip(box[::2], box[1::2]))
    body += varint(len(points)) + spelled
    first = (2 * precision) << 4 | 2
    return bytes([first, (box is not None) + 2 * size]) + (varint(len(body)) if size else b"") + body


def long_line(count_of, start, end):
    """A line whose vertices lie all at `start` but for the last one."""
    return varint(count_of) + signed(start) * 2 + bytes(2) * (count_of - 2) + signed(end - start) * 2


def loose_rows(page, layer):
    page.drop("loose.twkb", layer)
    return page.run('rowsOf("loosest")')


def long_blobs(page):
    """How far a box reaches beyond its vertices is counted over all of them."""
    layer = bytes([2, 1]) + (signed(0) + signed(FAR + 1)) * 2 + long_line(300_100, 0, FAR)
    rows = loose_rows(page, layer)
    count(page.name("a long line with a loose box"), rows, [["0", "linestring", f"X 0 to {FAR + 1}", f"X 0 to {FAR}", "up to 1"]])


def loose_boxes(page):
    """A row says which axis and which member has a box that is too large."""
    with_z = bytes([2, 9, 1]) + signed(0) + signed(1) + signed(0) + signed(1) + signed(0) + signed(5) + b"\x02" + bytes(2) + signed(1) + signed(1) * 3
    count(page.name("loose in Z"), loose_rows(page, with_z), [["0", "linestring", "Z 0 to 5", "Z 1 to 2", "up to 3"]])
    no_size = page.run('$("tight").textContent')
    has(page, "loose, and no size", no_size, "1 blob has", "no size", "directory", lacks=["scans may read more than they need to"])
    member = line([(0, 0), (4, 4)], (0, 9, 0, 4))
    layer = POINT + bytes([7, 0, 1]) + member
    row = ["1", f"linestring at byte {len(POINT) + 3}, a member at depth 2", "X 0 to 9", "X 0 to 4", "up to 5"]
    count(page.name("a loose member"), loose_rows(page, layer), [row])
    loose_rows(page, line([(0, 0), (4, 4)], (0, 9, 0, 4), size=True))
    has(page, "loose, and a size", page.run('$("tight").textContent'), "scans may read more than they need to", lacks=["no size"])
    page.drop("empty.twkb", bytes([1, 17]) + bytes(4))
    has(page, "a box of nothing", page.run('$("tight").textContent'), "No box holds a vertex", "1 box of empty shapes", lacks=["as small as"])


def samples(page):
    """The map of a layer that is too large for it shows how far all of it reaches, and every hit."""
    near, far = (bytes([2, 0]) + long_line(200_000, start, end) for start, end in ((0, 9), (500, 1000)))
    page.drop("sample.twkb", near + far)
    page.scan("x=990..1020,y=990..1020")
    page.run('($("fit").click(), null)')
    page.wait("isSettled()")
    left, top, right, bottom, wide, high = page.run("(({ corners, width, height }) => [...corners, width, height])(frame())")
    count(page.name("the whole layer is on the map"), left >= 0 and top >= 0 and right <= wide and bottom <= high, True)
    count(page.name("a hit beyond the sample is drawn"), page.run('pixelsOf("map", "hit")') > 3, True)


def landings(page):
    """Where a reader lands that hops by a false size."""
    points = [(0, 0), (1, 1), (2, 2)]
    whole = line(points, size=True)
    after = [POINT, line(points), POINT]

    def sized(size):
        page.drop("size.twkb", whole[:2] + varint(size) + whole[3:] + b"".join(after))
        return page.run('$("harm").textContent')

    body = len(whole) - 3
    tried = [
        (body - 1, f"byte {len(whole) - 1}, inside this linestring, at the field “point 2, Y”"),
        (0, "byte 3, inside this linestring, at the field “count of points”"),
        (body + len(POINT), "at the start of blob 2"),
        (body + len(POINT) + 1, f"in the middle of blob 2, which begins at byte {len(whole) + len(POINT)}"),
        (body + sum(map(len, after)), "at the end of the file"),
        (body + 100, "beyond the end of the file"),
        (2**63, "beyond the end of the file"),
    ]
    for size, wanted in tried:
        has(page, f"a size of {size} for {body}", sized(size), wanted)


def names(page):
    """An example has a file's name if it is that file."""
    told = page.run('[...document.querySelectorAll("script[data-example]")].map((at) => at.dataset.example)')
    for number, name in enumerate(told):
        before = page.run("document.documentElement.dataset.run ?? 0")
        page.run(f"examples()[{number}].click()")
        page.wait(f"document.documentElement.dataset.run != {before} && isSettled()")
        has(page, "an example's name", page.run('$("verdict").textContent'), name)
        path = os.path.join(TOP, "examples", name)
        text = page.run('$("printed").textContent') if page.run('$("refused").hidden') else ""
        if os.path.exists(path):
            count(page.name(f"{name} is the file"), f"of={os.path.getsize(path)}" in text, True)
        else:
            count(page.name(f"{name} isn't named as the file"), re.fullmatch(r"\S+\.twkb", name), None)


def far_boxes(page):
    """A box far from 0 is where its vertices are."""
    for low in (2**60, -(2**60)):
        wide = 2**40
        page.drop("far.twkb", line([(low, low), (low + wide, low + wide)], (low, low + wide, low, low + wide)))
        page.run('($("fit").click(), null)')
        page.wait("isSettled()")
        count(page.name(f"the box at {low}"), page.run('pixelsOf("map", "box")') > 100, True)
        has(page, f"the extent at {low}", page.run('$("summary").textContent'), f"X {low} to {low + wide}")


def sayings(page):
    """No sentence says more than there is."""
    below = bytes([2, 0, 2]) + signed(-(2**63)) + b"\0" + signed(-1) + b"\0"
    has(page, "below the least", said(page, below), "a coordinate needs more than 64 bits", lacks=["too large"])
    page.drop("ids.twkb", bytes([4, 4, 2]) + 2 * signed(7) + bytes(4))
    has(page, "ids of a multipoint", page.run('$("refused").textContent'), "The points of a multipoint may have ids", lacks=["collection"])
    page.drop("lines.twkb", example("coast_lines_sized.twkb"))
    page.scan("x=10..30,y=35..45")
    text = page.run('$("live").textContent')
    has(page, "gaps", text, "The longest gap has ", lacks=["need not be fetched"])
    rows = plain.blobs_of(example("coast_lines_sized.twkb"))
    longest = max(blob.stop - blob.body for blob in rows if blob.head.misses(plain.window_of("x=10..30,y=35..45")))
    has(page, "the longest gap", text, f"The longest gap has {longest:,} bytes.")


def summaries(page):
    """How far the layer reaches, and how many blobs have each type and precision."""
    for name in (WORLD, "coast_z.twkb"):
        layer = example(name)
        blobs = plain.blobs_of(layer)
        page.drop(name, layer)
        shown = page.run('$("summary").textContent')
        ends = [(min(axis), max(axis)) for axis in zip(*(vertex[:2] for blob in blobs for vertex in blob.vertices))]
        for letter, (low, high) in zip("XY", ends):
            got = re.search(rf"{letter} (-?[\d.]+) to (-?[\d.]+)", shown)
            count(page.name(f"{name}: {shown}"), got and [round(float(one) * 10**7) for one in got.groups()], [low, high])


def many_blobs(page):
    """Of more blobs than have rows the page says what is of the first ones."""
    rows = 1 << 22
    page.dropping_file("points.twkb", POINT * (rows + 1))
    page.wait("isSettled()")
    few = f"only the first {rows:,} of {rows + 1:,} blobs"
    has(page, "more blobs than rows", page.run('$("directory").textContent'), "The bar, the file in lines and this table", few)
    has(page, "more blobs than rows: the sentence", page.run('$("scanned").textContent'), f"found {rows + 1:,} blobs")


TRUTHS = [long_blobs, loose_boxes, samples, landings, names, far_boxes, sayings, summaries]
