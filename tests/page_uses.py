"""What people do with the page: wheels and keys, files that mean a layer, more than one fault, addresses, and what they type as a window."""
import base64
import gzip
import os

import plain
from browsers import SECONDS
from harness import count
from page_answers import POINT, example, has, said, signed, varint
from page_truths import line

LINES = "coast_lines_sized.twkb"
WORLD = "world.twkb"


def wheels(page):
    """The wheel scrolls the page until the map is clicked into, and zooming out ends at the layer."""
    page.drop("lines.twkb", example(LINES))
    page.scan("x=-20..20,y=-20..20")
    page.run('(document.activeElement.blur(), $("map").scrollIntoView({ block: "center" }))')
    scale, frame = page.run("frame().scale"), page.run("frame()")
    x, y = frame["x"] + 20, frame["y"] + 60
    page.run('(countWheels($("map")), null)')
    page.browser.wheel(x, y, 240)
    page.wait('Number($("map").dataset.wheels) > 0')
    count(page.name("the wheel scrolls the page"), page.run("[frame().scale, lastWheel]"), [scale, False])
    page.run('void $("map").scrollIntoView({ block: "center" })')
    page.run('$("map").focus()')
    # Firefox may still give a wheel to what the one before it scrolled: so it is turned until the map takes it.
    for _ in range(SECONDS):
        page.browser.wheel(x, y, -240)
        if page.run(f"new Promise((resume) => setTimeout(() => resume(frame().scale > {scale}), 200))"):
            break
    count(page.name("the wheel zooms a map that has the focus"), page.run(f"frame().scale > {scale}"), True)
    for _ in range(12):
        page.run('$("out").click()')
    page.wait('$("map").dataset.painted === "yes"')
    count(page.name("zooming out ends at the layer"), page.run(f"frame().scale >= 0.79 * {scale}"), True)


def psql_rows(layer):
    return b"".join(b"\\x" + layer[one.start : one.stop].hex().encode() + b"\n" for one in plain.blobs_of(layer))


def base64_rows(layer):
    return b"".join(base64.b64encode(layer[one.start : one.stop]) + b"\n" for one in plain.blobs_of(layer))


def decoded(page):
    """Texts and gzip data that mean a layer are read as that layer, and said to be texts."""
    layer = example(LINES)
    ok, second = "ok blobs=1715 vertices=14590", plain.blobs_of(layer)[1]
    tried = [
        ("hexadecimal", layer.hex().encode(), "hexadecimal text", "xxd -r -p"),
        ("hexadecimal in capitals", layer.hex().upper().encode() + b"\n", "hexadecimal text", "xxd -r -p"),
        ("rows of psql", psql_rows(layer), "hexadecimal text of rows, as psql prints them", "sed 's/^\\\\x//' | xxd -r -p"),
        ("base64", base64.encodebytes(layer), "base64 text", "base64 -d"),
        ("rows of base64", base64_rows(layer), "base64 text", "base64 -d"),
        ("gzip", gzip.compress(layer), "gzip data", "gunzip"),
        ("gzip of rows", gzip.compress(psql_rows(layer)), "gzip data", "What is inside is hexadecimal text of rows"),
    ]
    for name, data, what, how in tried:
        text = said(page, data, "other.bin")
        has(page, name, text, "Certified: every claim is true.", f"other.bin is {what}, {len(data):,} bytes long.", "This page decoded it.", how, ok)
        page.rows()
        count(page.name(f"{name}: the second blob"), page.run('rowsOf("list")[1].slice(0, 3)'), ["1", f"{second.start:,}", f"{second.stop - second.start:,}"])
    cut = said(page, layer[:-1].hex().encode(), "cut.hex")
    has(page, "hexadecimal of a cut layer", cut, "Refused: the file ends too early", "hexadecimal text", f"offset={len(layer) - 1} kind=cut")
    has(page, "gzip of JSON", said(page, gzip.compress(b'{"type":"Feature"}'), "json.gz"), "Not TWKB: this looks like JSON.", "gzip data")
    has(page, "gzip that is cut", said(page, gzip.compress(layer)[:-9], "cut.gz"), "Not TWKB: this looks like gzip data.", "gunzip")


def faults(page):
    """The first fault is said to be the first, the other wrong blobs are counted, and the map shows the certified blobs before it."""
    good = line([(0, 0), (5, 5)], (0, 5, 0, 5), size=True)
    false_box, false_size = line([(0, 0), (5, 9)], (0, 5, 0, 5), size=True), good[:2] + varint(good[2] + 1) + good[3:]
    layer = good + false_box + good + false_size + good + false_box + good
    offsets = [len(good) + 3, 2 * len(good) + len(false_box) + 2, 3 * len(good) + len(false_box) + len(false_size) + 3]
    has(page, "the first fault", said(page, layer), "The first fault in layer.twkb: blob number 1 ", f"offset {offsets[0]} ({hex(offsets[0])})")
    others = page.run('$("others").textContent')
    wanted = [f"blob 3 at offset {offsets[1]} ({hex(offsets[1])}): a size is wrong", f"blob 5 at offset {offsets[2]} ({hex(offsets[2])}): a box is too small"]
    has(page, "other faults", others, "2 other wrong blobs: ", *wanted, lacks=["can't be counted"])
    count(page.name("the map is there, and no scan"), page.run('[$("map"), $("text"), $("sums")].map((at) => at.checkVisibility())'), [True, False, False])
    pixels = page.run('[pixelsOf("map", "window"), pixelsOf("map", "box")]')
    pixels = [one > 20 for one in pixels]
    count(page.name("the wrong blob and the certified ones are drawn"), pixels, [True, True])
    said(page, layer[:-1])
    has(page, "a cut after them", page.run('$("others").textContent'), "3 other wrong blobs: ", "blob 6 at offset", "can't be counted")
    said(page, example(LINES)[:-1])
    has(page, "a cut alone", page.run('$("others").textContent'), "No other wrong blobs.", "can't be counted")
    page.drop("ids.twkb", bytes([4, 4, 3]) + signed(7) + signed(8) + signed(7) + bytes(6))
    marked = page.run('[...$("fields").querySelectorAll("tr.guilty, tr.at")].map((row) => row.cells[2].textContent)')
    count(page.name("both equal ids are marked"), marked, ["id 0", "id 2"])


def one_screen(page):
    """On a desktop the verdict, the map, hits and bytes are in view at once, with no scrolling."""
    page.drop(WORLD, example(WORLD))
    count(page.name("the chooser is folded"), page.run('$("chooser").open'), False)
    if page.run("innerWidth") < 1200:
        return
    page.run("scrollTo(0, 0)")
    seen = page.run('["verdict", "summary", "map", "text", "scanned", "shares", "strip", "sums"].filter((id) => !isInView($(id)))')
    count(page.name("what isn't in view"), seen, [])


def clicks(page):
    """A blob that is selected shows its fields and coordinates, and Escape deselects it."""
    layer = example(WORLD)
    page.drop(WORLD, layer)
    page.rows()
    page.run('$("list").tBodies[0].rows[2].cells[3].click()')
    page.wait("frame().picked === 2 && document.documentElement.dataset.pick === 'done'")
    blob = plain.blobs_of(layer)[2]
    shown = page.run('rowsOf("pickedbytes")')
    first = [row[3].split(" ")[0] for row in shown if row[2].startswith("point 0")]
    count(page.name("the first vertex"), [float(one) for one in first], [end / 10**7 for end in blob.vertices[0][:2]])
    count(page.name("the bytes"), bytes.fromhex("".join(row[1] for row in shown if len(row) > 1)), layer[blob.start : blob.stop][: sum(len(bytes.fromhex(row[1])) for row in shown if len(row) > 1)])
    page.run('$("map").focus()')
    page.browser.type("Escape", 27)
    page.wait("frame().picked === null")
    count(page.name("Escape deselects"), page.run('$("picked").checkVisibility()'), False)


def addresses(page):
    """The window is in the address, with the file's name, and is the first one when that file is opened."""
    page.drop("lines.twkb", example(LINES))
    page.scan("x=10..30,y=35..45")
    kept = "#x=10..30,y=35..45&file=lines.twkb"
    page.wait(f"location.hash === {kept!r}")
    page.drop("other.twkb", example(LINES))
    count(page.name("another file has a window of its own"), page.run('$("text").value') != "x=10..30,y=35..45", True)
    page.reload(kept)
    has(page, "the address asks for a file", page.run('$("chooser").textContent'), "The address asks for x=10..30,y=35..45 of lines.twkb.")
    page.drop("lines.twkb", example(LINES))
    count(page.name("the window of the address"), page.run('[$("text").value, $("printed").dataset.window]'), ["x=10..30,y=35..45"] * 2)
    has(page, "the address asks for nothing more", page.run('$("chooser").textContent'), lacks=["The address asks"])
    page.reload()


def typed(page):
    """What is typed as a window is understood, or what is wrong with it is said."""
    page.drop("lines.twkb", example(LINES))
    kept = page.scan("x=10..30,y=35..45")["printed"]
    for text in ("10,35,30,45", " 10 35  30 45", "x = 10 .. 30, y = 35 .. 45", "X=1e1..3E+1,y=350e-1..45", "x=+10..30.,y=35..45"):
        page.scan("x=0..1,y=0..1")
        told = page.scan(text)
        count(page.name(f"{text} is understood"), (told["printed"], told["wrong"], page.run('$("text").value')), (kept, "", "x=10..30,y=35..45"))
    tried = [
        ("x=1", "“x=1” isn't a range"),
        ("x=0..9", "The range of Y is missing"),
        ("y=0..1,x=0..1", "write x first, then y"),
        ("x=0..0.12345678,y=0..1", "“0.12345678” has more than 7 decimals"),
        ("x=a..1,y=0..1", "“a” isn't a number"),
        ("x=0..1,y=0..1,m=0..1,z=0..1", "“z=0..1” comes too late"),
        ("x=0..1,y=0..1,q=0..1", "“q” is no axis"),
        ("x=9..0,y=0..9", "A lowest value is greater than its highest"),
    ]
    for text, why in tried:
        told = page.scan(text)
        has(page, text, told["wrong"], why)
        count(page.name(f"{text}: the results"), told["printed"], kept)


def not_checked(page):
    """A file that can't be checked doesn't look refused."""
    page.drop("cut.twkb", POINT[:-1])
    looks = '(({ borderLeftColor, borderLeftStyle }) => [borderLeftColor, borderLeftStyle])(getComputedStyle($("verdict")))'
    refused = page.run(looks)
    path = os.path.join(page.folder, "large.twkb")
    with open(path, "wb") as file:
        file.truncate((1 << 28) + 1)
    page.choose(path)
    page.wait("isSettled()")
    has(page, "not checked", page.run('$("verdict").textContent'), "Not checked")
    count(page.name("not checked doesn't look refused"), [one == other for one, other in zip(page.run(looks), refused)], [False, False])


def zoomed_page(page):
    """A narrow page with a mouse tells of the mouse, and headings are high enough to be hit."""
    page.drop("lines.twkb", example(LINES))
    page.rows()
    count(page.name("a mouse is told of"), page.run('[...document.querySelectorAll(".mouse")].every((at) => at.checkVisibility())'), True)
    count(page.name("no finger is told of"), page.run('[...document.querySelectorAll(".touch")].some((at) => at.checkVisibility())'), False)
    low = page.run('[...document.querySelectorAll("th button")].filter((at) => at.getBoundingClientRect().height < 24).length')
    count(page.name("headings of less than 24 px"), low, 0)


# What is tried on each screen, and what looks no different on another one.
USES = [wheels, faults, one_screen, clicks, zoomed_page]
ONCE = [decoded, addresses, typed, not_checked]
