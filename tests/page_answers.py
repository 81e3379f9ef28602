"""What the page says of layers in words and numbers: what is claimed, exact numbers, what scans read, and files of other formats.

Expected numbers come from the built program, from plain.py and from the format.
"""
import os
import struct

import plain
from harness import TOP, count, run, table, written

GREATEST = 2**63 - 1
POINT = bytes.fromhex("01000204")
WHOLE_SHARE = "read in all"


def varint(number):
    groups = bytearray()
    while number > 127:
        groups.append(number & 127 | 128)
        number >>= 7
    return bytes(groups) + bytes([number])


def signed(number):
    return varint(2 * number if number >= 0 else -2 * number - 1)


def example(name):
    with open(os.path.join(TOP, "examples", name), "rb") as file:
        return file.read()


def printed(program, *words):
    return run([program, *words])[1].decode().rstrip("\n")


def has(page, name, text, *wanted, lacks=()):
    """Whether a text has these parts, and none of the others."""
    missing = [one for one in wanted if one not in text]
    count(page.name(f"{name}: {text[:200]}"), (missing, [one for one in lacks if one in text]), ([], []))


def said(page, layer, name="layer.twkb"):
    page.drop(name, layer)
    return page.run('$("verdict").textContent')


def nothing_claimed(page):
    """A layer is praised for no more than it claims."""
    every = "every claim is true"
    layer = example("points_sized.twkb")
    path = written(page.folder, "points.twkb", layer)
    rows = printed(page.program, "list", path).splitlines()
    sizes, boxes = (sum(word in row for row in rows) for word in ("size=yes", "box=yes"))
    count(page.name("points have no boxes"), (boxes, len(rows)), (0, sizes))
    none = f"None of the {len(rows):,} blobs has a box, so a scan reads all of them"
    has(page, "sizes alone", said(page, layer), every, f"{sizes:,} sizes", none)
    has(page, "sizes alone, tight", page.run('$("tight").textContent'), "No box", lacks=["Tight"])
    has(page, "no claims", said(page, 3 * POINT), "Nothing is claimed", "None of the 3 blobs has a size or a box", lacks=[every])
    has(page, "one blob, no claims", said(page, POINT), "Nothing is claimed", "a scan reads all of it", lacks=[every])
    wanted = ["This file is empty", "nothing to check", "Was it written completely?", "ok blobs=0 vertices=0"]
    has(page, "an empty file", said(page, b""), *wanted, lacks=[every, "Certified"])
    count(page.name("an empty file has no colour"), page.run('$("verdict").className'), "")
    count(page.name("an empty file has no map"), page.run('$("certified").checkVisibility()'), False)
    has(page, "ids alone", said(page, bytes.fromhex("040402020400000202")), every, "1 list of ids", "a box or a size")
    for name, layer in (("collections", example("coast_collections.twkb")), ("lines", example("coast_lines_sized.twkb"))):
        heads = [one.head for blob in plain.blobs_of(layer) for one in within(blob)]
        sizes, boxes = (sum(part(head) is not None for head in heads) for part in (lambda head: head.size, lambda head: head.box))
        members = "Members of collections are counted too."
        told = (members, "None of") if name == "collections" else ("", members)
        has(page, name, said(page, layer), every, f"{sizes:,} sizes and {boxes:,} boxes", told[0], lacks=["None of", told[1]])
        has(page, f"{name}, tight", page.run('$("tight").textContent'), f"Tight: all {boxes:,} boxes")


def within(geometry):
    """A geometry and all below it."""
    return [geometry, *(one for member in geometry.members for one in within(member))]


def exact(page):
    """Numbers beyond 2^53 are shown exactly, and each refusal says what is wrong in its own numbers."""
    page.drop("size.twkb", bytes([1, 2]) + varint(2**63) + bytes([2, 4]))
    shown = page.run('$("refused").textContent')
    rounded = 9223372036854776000
    has(page, "a size of 2^63", shown, f"{2**63:,}", f"{2**63 - 2:,}", lacks=[f"{rounded}", f"{rounded:,}"])
    for name, first, step, wanted in (("above", GREATEST, 1, 2**63), ("below", -(2**63), -1, -(2**63) - 1)):
        page.drop("range.twkb", bytes([2, 0, 2]) + signed(first) + bytes([0]) + signed(step) + bytes([0]))
        has(page, f"range, {name}", page.run('$("detail").textContent'), str(wanted), "byte 14", lacks=["can't be read on"])
        last = page.run('$("fields").rows[$("fields").rows.length - 1].className')
        count(page.name(f"range, {name}: the table ends there"), last, "at")
        has(page, f"range, {name}: the vertex before", page.run('$("fields").textContent'), str(first), lacks=["9223372036854776000"])
    layer = bytes([2, 1]) + signed(10) + signed(-5) + bytes([0, 0, 1]) + signed(10) + bytes([0])
    page.drop("negative.twkb", layer)
    has(page, "a negative extent", page.run('$("detail").textContent'), "negative", "10", "-5", lacks=["runs from"])
    deep = next(bytes.fromhex(row[2]) for row in table("cases.tsv") if row[0] == "64 nested collections")
    page.drop("deep.twkb", deep)
    fields = page.run('$("fields").textContent')
    has(page, "depth", fields, "1 member", "07", lacks=["…", "1 members"])
    ids = bytes([4, 4, 2]) + 2 * signed(GREATEST) + bytes(4)
    page.drop("ids.twkb", ids)
    has(page, "large ids", page.run('$("detail").textContent'), "positions 0 and 1 of this list", f"are both {GREATEST}")
    page.drop("short.twkb", bytes([1, 2, 1, 2, 4]))
    has(page, "a size of 1", page.run('$("detail").textContent'), "The size says 1 byte follows, but this point ends after 2.")
    low = 2**60
    page.drop("loose.twkb", bytes([1, 1]) + signed(low) + signed(3) + bytes([0, 0]) + signed(low + 1) + bytes([0]))
    cells = page.run('rowsOf("loosest")[0]')
    heads = page.run('$("loosest").tHead.textContent')
    has(page, "a loose box: its headings", heads, "Reaches beyond by", lacks=["Larger"])
    has(page, "a loose box", " ".join(cells), f"{low} to {low + 3}", f"{low + 1} to {low + 1}", "up to 2")


def directories(page):
    """The blobs and bytes that a scan reads, with a directory and without, are as the program and plain.py say."""
    scans = [row for row in table("cases.tsv") if row[1].startswith("scan ") and row[3] == "0"]
    layers = [("case", bytes.fromhex(row[2]), window) for row in scans for window in row[1].split(" ")[2:]]
    for name in ("coast_lines_sized.twkb", "coast_collections.twkb", "points_sized.twkb", "coast_z.twkb", "world.twkb"):
        windows = ["x=10..30,y=35..45", "x=100..140,y=-10..10"] + ["x=-180..180,y=-90..90,z=0..7.3"] * (name == "coast_z.twkb")
        layers += [(name, example(name), window) for window in windows]
    before = None
    for name, layer, window in layers:
        if not layer:
            continue
        if layer != before:
            page.drop("layer.twkb", layer)
        before = layer
        path = written(page.folder, "layer.twkb", layer)
        alone, twice = (printed(page.program, "scan", path, *windows).splitlines()[-1] for windows in ([window], [window, window]))
        got = next(row for row in page.scan(window)["sums"] if row[0] == WHOLE_SHARE)
        blobs, ranges = plain.blobs_of(layer), plain.window_of(window)
        met = sum(not blob.head.misses(ranges) for blob in blobs)
        reads = [int(line.split("read=")[1].split()[0]) for line in (alone, twice)]
        wanted = [WHOLE_SHARE, *(f"{one:,}" for one in (len(blobs), reads[0], met, reads[1]))]
        count(page.name(f"{name}, {window}: with a directory"), got, wanted)


def wkb(kind=1):
    return struct.pack("<BIdd", 1, kind, 12.5, -45.25)


def formats(page):
    """Files of other formats are named, nothing is said of their sizes and types, and what helps is said."""
    polygon = struct.pack("<BIII", 1, 3, 1, 4) + struct.pack("<8d", 0, 0, 1, 0, 1, 1, 0, 0)
    tile = b"\x78\x02\x0a\x05roads\x12\x00"
    tried = [
        ("hexadecimal text of WKB", wkb().hex().encode(), "hexadecimal text of WKB", "ST_AsTWKB"),
        ("JSON", b'{"type":"FeatureCollection","features":[]}', "JSON", "ST_GeomFromGeoJSON"),
        ("FlatGeobuf", b"fgb\x03fgb\x01" + bytes(40), "FlatGeobuf", "ST_AsTWKB"),
        ("WKB", wkb(), "WKB", "ST_AsTWKB"),
        ("WKB of a polygon", polygon, "WKB", "ST_AsTWKB"),
        ("WKB, big-endian", struct.pack(">BIdd", 0, 1, 12.5, -45.25), "WKB", "ST_AsTWKB"),
        ("EWKB", struct.pack("<BIIdd", 1, 0x20000001, 4326, 12.5, -45.25), "WKB", "ST_AsTWKB"),
        ("WKT", b"POINT(12.5 -45.25)\n", "WKT", "ST_GeomFromText"),
        ("XML", b'<?xml version="1.0"?><kml/>', "XML or HTML", "ST_AsTWKB"),
        ("zip", b"PK\x03\x04" + bytes(40), "a zip archive", "unzip"),
        ("PGCOPY", b"PGCOPY\n\xff\r\n\0" + bytes(40), "binary output of PostgreSQL's COPY", "bytes alone"),
        ("PMTiles", b"PMTiles\x03" + bytes(120), "PMTiles", "tiles for display"),
        ("MVT", b"\x1a" + bytes([len(tile)]) + tile, "a vector tile (MVT)", "Make TWKB"),
        ("MVT with its name first", b"\x1a" + bytes([len(tile) - 2]) + tile[2:], "a vector tile (MVT)", "Make TWKB"),
        ("TIFF", b"II*\0" + bytes(40), "a TIFF image", ""),
        ("Arrow", b"ARROW1\0\0" + bytes(40), "Arrow", "ST_AsTWKB"),
        ("UTF-16", "POINT(1 2)".encode("utf-16"), "UTF-16 text", "ST_AsTWKB"),
    ]
    for name, data, what, how in tried:
        text = said(page, data, "other.bin")
        has(page, name, text, f"Not TWKB: this looks like {what}.", how, lacks=["Refused", " size", "type of shape"])
        count(page.name(f"{name}: no reasons"), page.run('$("refused").checkVisibility()'), False)
        count(page.name(f"{name}: no command is broken at a line's end"), page.run("brokenCodes()"), [])
    with open(os.path.join(TOP, "docs", "hops.svg"), "rb") as file:
        has(page, "a picture", said(page, file.read(), "hops.svg"), "this looks like XML")
    lines = example("coast_lines_sized.twkb")
    has(page, "a broken layer is none of these", said(page, lines[:-1]), "Refused", lacks=["looks like"])
    count(page.name("a broken layer: its bytes"), page.run('$("bytes").checkVisibility() && $("fields").checkVisibility()'), True)
    for row in table("cases.tsv"):
        if row[4].startswith("no "):
            has(page, f"{row[0]} is none of these", said(page, bytes.fromhex(row[2])), lacks=["looks like"])
    letters(page)


def letters(page):
    """Beside the bytes are their letters."""
    text = POINT + b"letters of a text that is no layer"
    page.drop("text.twkb", text)
    wide = 8 if page.run("innerWidth") < 640 else 16
    shown = page.run('$("bytes").textContent').splitlines()
    printed = "".join(chr(byte) if 32 <= byte < 127 else "." for byte in text)
    wanted = [(text[at : at + wide].hex(" "), printed[at : at + wide]) for at in range(0, len(text), wide)]
    got = [(line.strip().split("  ", 1)[1][: 3 * wide - 1].strip(), line[-len(two[1]) :]) for line, two in zip(shown, wanted)]
    count(page.name("letters beside the bytes"), (len(shown), got), (len(wanted), wanted))


def shares(page):
    """Only nothing is 0 %, and only all is 100 %."""
    body = varint(20000) + bytes(40000)
    box = bytes([0, 0, 0, 0])
    page.drop("long.twkb", bytes([2, 3]) + varint(len(box) + len(body)) + box + body)
    page.scan("x=5..6,y=5..6")
    shown = page.run('[$("scanned"), $("shared")].map((at) => at.textContent).join(" ").replaceAll("\\u00a0", " ")')
    has(page, "a header of a long blob", shown, "(< 0.1 %)", "(> 99 %)", "hit or not: 0 %", lacks=["0.0 %", "100 %"])


def windows(page):
    """The sentence names its window, and stays as it was where the text is no window."""
    page.drop("lines.twkb", example("coast_lines_sized.twkb"))
    page.scan("x=10..30,y=35..45")
    kept = page.run('$("scanned").textContent')
    has(page, "a window", kept, "In x=10..30,y=35..45 the scan found")
    wrong = page.scan("x=1")["wrong"]
    has(page, "a wrong window", wrong, "“x=1” isn't a range.", "The results below are of the last window.")
    count(page.name("a wrong window: the results"), page.run('$("scanned").textContent'), kept)
    has(page, "a window upside down", page.scan("x=1..0,y=0..1")["wrong"], "A lowest value is greater than its highest. Swap them.")
    page.scan("x=0..1,y=89..90")
    has(page, "no hit", page.run('$("scanned").textContent'), "No blob has a vertex in x=0..1,y=89..90. The scan read ")


def places(page):
    """Where a file is wrong, and how long it is."""
    wrong = "blob number 0 (counted from 0) is wrong at offset"
    has(page, "a cut", said(page, bytes.fromhex("010002")), f"{wrong} 3 (0x3), where the file ends.")
    has(page, "a box", said(page, bytes.fromhex("020309020602080202020808")), f"{wrong} 3 (0x3) of 12 bytes.")


def lacking_axes(page):
    """A window with an axis that the layer lacks finds nothing, and the page says why."""
    ranges = "x=-180..180,y=-90..90"
    tried = [
        ("coast_lines_sized.twkb", ",z=0..1", "This layer has no Z. The scan"),
        ("coast_lines_sized.twkb", ",z=0..1,m=0..1", "This layer has no Z and no M. The scan"),
        ("coast_z.twkb", ",z=900..901,m=0..1", ".."),
    ]
    for name, more, wanted in tried:
        page.drop(name, example(name))
        page.scan(ranges + more)
        lacks = ["has no"] if wanted == ".." else []
        has(page, f"{name}, {more}", page.run('$("scanned").textContent'), wanted, lacks=lacks)


def one_name(page):
    """A type has one name in the table, of a picked blob and among fields."""
    layer = example("coast_collections.twkb")
    page.drop("collections.twkb", layer)
    page.rows()
    shown = page.run('$("list").tBodies[0].rows[0].cells[3].textContent')
    page.run('$("list").tBodies[0].rows[0].cells[3].click()')
    page.wait("document.documentElement.dataset.pick === 'done'")
    has(page, "a picked collection", page.run('$("pickedtext").textContent'), f": {shown}, ")
    page.drop("cut.twkb", layer[:-1])
    has(page, "fields of a collection", page.run('$("fields").textContent'), f"{shown}, precision", lacks=["geometrycollection"])


def spoken(page):
    """The pages of the table are told again only where they are others."""
    page.drop("lines.twkb", example("coast_lines_sized.twkb"))
    page.rows()
    page.run('countWrites($("pages"))')
    page.scan("x=10..30,y=35..45")
    page.run('$("last").click()')
    page.wait("document.documentElement.dataset.pick !== 'working' && $('last').ariaDisabled === 'true'")
    count(page.name("how often the pages of the table are told"), page.run('$("pages").dataset.writes'), "1")


def steps(page):
    """A coordinate's step has the units of its value."""
    page.drop("steps.twkb", bytes([0x22, 0, 3]) + signed(-845) + signed(5) + signed(3) + signed(-12) + b"\x80")
    has(page, "steps", page.run('$("fields").textContent'), "-84.2 (+0.3)", "-0.7 (-1.2)")


ANSWERS = [nothing_claimed, exact, directories, formats, shares, windows, steps, places, lacking_axes, one_name, spoken]
