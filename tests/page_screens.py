"""How the page looks and answers on screens of three widths, in both colours: verdicts, tables, fingers, marks and contrast."""
import json
import os
import re
import subprocess
import time

import plain
from harness import TOP, count, table
from page_answers import example, has
from widened import widened

WIDTHS = {390: 700, 800: 900, 1280: 900}
NARROW = 640
WORLD = "world.twkb"
DONE = ["hit", "read, no hit", "header read on the way", "hopped over"]
# Capes that everyone knows, in degrees: North Cape, Good Hope, Horn, Gibraltar, Florida, Comorin, York and Kamchatka.
CAPES = [(25.8, 71.2), (18.5, -34.4), (-67.3, -56), (-5.6, 36), (-80.7, 25.2), (77.5, 8.1), (142.5, -10.7), (156.7, 51)]
STRANGE = r"\b(?:whoever|so many|so much|stands?|behind|fronts?|the same|it isn't so)\b"


def tap(page, number):
    """Clicks an example, from the top of the page."""
    before = page.run("document.documentElement.dataset.run ?? 0")
    page.run("scrollTo(0, 0)")
    page.run(f"examples()[{number}].click()")
    page.wait(f"document.documentElement.dataset.run != {before} && isSettled()")


def first_screen(page):
    """The name, what it is for, and a lead of two lines on a phone."""
    page.reload()
    lines = page.run("leadLines()")
    count(page.name(f"the lead has {lines} lines"), 1 <= lines <= 2, True)
    count(page.name("the subtitle"), page.run('$("subtitle")?.textContent'), "Checks map layers in the TWKB format")
    middle = page.run('Math.abs(offMiddle($("drop").querySelector(".button"), $("drop"))) <= 1')
    count(page.name("the file button is in the middle"), middle, True)
    footer(page)


def footer(page):
    text = page.run('document.querySelector("footer").textContent')
    with open(os.path.join(TOP, "VERSION"), encoding="utf-8") as file:
        version = file.read().strip()
    head = subprocess.run(["git", "-C", TOP, "rev-parse", "HEAD"], stdout=subprocess.PIPE, text=True).stdout
    has(page, "the footer", text, f"Dozhemik {version}, commit ", "“Proved” here means", "docs/BINDINGS.md", "repository")
    commit = re.search(r"commit ([0-9a-f]{12}|unknown)\b", text)
    count(page.name(f"the commit: {commit and commit[1]}"), bool(commit) and (commit[1] == "unknown") == (not head), True)
    count(page.name("the footer has no link"), page.run('document.querySelectorAll("a").length'), 0)


def taps(page):
    """After a tap on an example the verdict is in view, and announced. The example is marked, and its first window has hits."""
    for number in range(page.run("examples().length")):
        tap(page, number)
        count(page.name(f"example {number}: the verdict is in view"), page.run('isInView($("verdict"))'), True)
        announced = page.run('["role", "aria-live"].map((name) => $("verdict").getAttribute(name))')
        count(page.name(f"example {number}: announced"), announced, ["status", "polite"])
        pressed = page.run('examples().map((at) => at.getAttribute("aria-pressed"))')
        count(page.name(f"example {number}: marked"), [i for i, one in enumerate(pressed) if one == "true"], [number])
        if page.run('$("refused").hidden'):
            hits = int(page.run('$("printed").textContent.match(/hits=(\\d+)/)[1]'))
            count(page.name(f"example {number}: {hits} hits in the first window"), hits > 0, True)
    scrolled(page)
    page.drop("point.twkb", bytes.fromhex("01000204"))
    count(page.name("another file: no example is marked"), page.run('examples().some((at) => at.ariaPressed === "true")'), False)
    for name, layer in (("a point", "01000204"), ("a far point", "0100FEFFFFFFFFFFFFFFFF0100")):
        page.drop("point.twkb", bytes.fromhex(layer))
        count(page.name(f"{name}: a hit in the first window"), page.run('$("printed").textContent.match(/hits=\\d+/)[0]'), "hits=1")


def scrolled(page):
    """The verdict comes into view from below it too."""
    lines = example("coast_lines_sized.twkb")
    for name, layer in (("certified", lines), ("refused", lines[:-1]), ("a point", bytes.fromhex("01000204"))):
        page.drop("lines.twkb", lines)
        page.run("scrollTo(0, 1500)")
        page.drop("layer.twkb", layer)
        page.wait('isInView($("verdict"))')


def known(page):
    """The shorelines are of the whole world: capes that everyone knows are on them."""
    tap(page, 0)
    missed = [cape for cape in CAPES if page.scan("x={}..{},y={}..{}".format(*ends(cape)))["printed"].startswith("hits=0")]
    count(page.name("capes on the shorelines"), missed, [])


def ends(place):
    return [f"{one + side:.1f}" for one in place for side in (-1, 1)]


def tables(page):
    """No table is cut without a way to scroll, and no caption scrolls away; on a desktop the loosest boxes fit."""
    states = [
        ("certified", example("coast_lines_sized.twkb")),
        ("points", example("points_sized.twkb")),
        ("loose", widened(example("coast_lines_sized.twkb"), 10**7)),
        ("refused", bytes.fromhex("020309020602080202020808")),
        ("range", bytes.fromhex("020002FEFFFFFFFFFFFFFFFF01000200")),
    ]
    for name, layer in states:
        page.drop(f"{name}.twkb", layer)
        count(page.name(f"{name}: tables"), page.run("cutTables()"), [])
        count(page.name(f"{name}: the page isn't wider than the screen"), page.run("document.documentElement.scrollWidth <= innerWidth"), True)
        count(page.name(f"{name}: the window's text isn't cut"), page.run('$("text").scrollWidth <= $("text").clientWidth'), True)
        if name == "loose" and page.run("innerWidth") > NARROW:
            wide = '(({ scrollWidth, clientWidth }) => scrollWidth <= clientWidth)($("loosest").closest(".wide"))'
            count(page.name("the loosest boxes aren't cut"), page.run(wide), True)


def fingers(page):
    """A swipe over the map is the page's; two fingers, or a finger and a button, move the map."""
    tap(page, 0)
    page.run('void $("map").scrollIntoView({ block: "center" })')
    frame = page.run("frame()")
    x, y = frame["x"] + frame["width"] / 2, frame["y"] + frame["height"] / 2
    top = page.run("scrollY")
    up = [(x, y + 60 - 10 * i) for i in range(12)]
    page.browser.swipe(up)
    if page.browser.name == "chromium":
        page.wait(f"scrollY > {top} + 40")
    time.sleep(0.1)
    kept = page.run('[frame().corners, $("text").value]')
    count(page.name("a swipe leaves the map and the window"), kept, [frame["corners"], frame["text"]])
    allowed = page.run('getComputedStyle($("map")).touchAction').split(" ")
    count(page.name("the browser scrolls by a swipe"), sorted(allowed), ["pan-x", "pan-y"])
    page.run('void $("map").scrollIntoView({ block: "center" })')
    frame = page.run("frame()")
    x, y = frame["x"] + frame["width"] / 2, frame["y"] + frame["height"] / 2
    page.browser.swipe([(x, y)])
    page.wait('/^x = /.test($("at").textContent)')
    count(page.name("a tap tells coordinates"), page.run("frame().corners"), frame["corners"])
    page.browser.fingers([[(x - wide, y + wide), (x + wide, y + wide)] for wide in (20, 30, 40)])
    page.wait(f'frame().scale > 1.3 * {frame["scale"]}')
    count(page.name("two fingers zoom"), page.run("frame().text"), frame["text"])
    if page.run("innerWidth") < NARROW:
        page.run('$("finger").click()')
        page.run('$("fit").click()')
        page.wait('$("map").dataset.painted === "yes"')
        before = page.run("frame().corners")
        left = page.run("frame().x") + 20
        page.browser.swipe([(left, y + 5 * i) for i in range(9)])
        page.wait(f"Math.round(frame().corners[1] - {before[1]}) === 40")
        count(page.name("a finger and a button move the map"), page.run("frame().text"), frame["text"])
        page.run('$("finger").click()')


def shares(page):
    """The strip, its legend and the table have a colour and a row for headers, in one set of words; a bar has three shares."""
    page.drop(WORLD, example(WORLD))
    page.scan("x=10..30,y=35..45")
    rows = page.run('rowsOf("sums")')
    total = rows.pop(3)
    whole = [str(sum(int(row[i].replace(",", "")) for row in rows[:3])) for i in range(1, 5)]
    count(page.name("what was read is summed up before what was not"), [cell.replace(",", "") for cell in total], ["read in all", *whole])
    legend = page.run('[...document.querySelectorAll("#stripkeys li")].map((at) => at.textContent)')
    count(page.name("the words of table and legend"), ([row[0] for row in rows], legend), (DONE, DONE))
    lines = page.run('headLines("sums")')
    count(page.name(f"the words of the table take {lines:.1f} lines at most"), lines < 3, True)
    parts = page.run('[...document.querySelectorAll("#shares > [data-share]")].map((at) => at.getBoundingClientRect().width)')
    named = page.run('[...document.querySelectorAll("#shared li")].map((at) => at.textContent.split(":")[0])')
    count(page.name("the words of the bar"), named, ["blobs read, hit or not", *DONE[2:]])
    numbers = [[int(cell.replace(",", "")) for cell in row[1:]] for row in rows]
    bytes_of = [numbers[0][1] + numbers[1][1], numbers[2][1], numbers[3][1]]
    wanted = [one / sum(bytes_of) for one in bytes_of]
    got = [one / sum(parts) for one in parts] if parts else []
    count(page.name(f"the bar: {got}"), len(got) == 3 and all(abs(one - other) < 0.02 for one, other in zip(got, wanted)), True)
    count(page.name("the bytes are all of the file"), sum(bytes_of), len(example(WORLD)))
    above = page.run('$("shares")?.getBoundingClientRect().bottom <= $("strip").getBoundingClientRect().top')
    count(page.name("the bar is above the strip"), above, True)
    colours = page.run('faintPixels("strip")')
    count(page.name("the strip's colours"), (colours["faint"], colours["marks"] >= 3), ([], True))


def picks(page):
    """Numbers on the map, coordinates under the pointer, and shapes and rows that pick each other, with a way back."""
    page.drop(WORLD, example(WORLD))
    page.scan("x=-30..30,y=-20..20")
    page.run('void $("map").scrollIntoView({ block: "center" })')
    frame = page.run("frame()")
    left, top, right, bottom = frame["corners"]
    to_x = lambda x: left + (x + 30) / 60 * (right - left)  # noqa: E731
    to_y = lambda y: top + (20 - y) / 40 * (bottom - top)  # noqa: E731
    for axis, place in (("X", to_x), ("Y", to_y)):
        lines = (frame.get("graticule") or [[], []])["XY".index(axis)]
        off = [text for at, text in lines if abs(place(float(text.replace("\u2212", "-"))) - at) > 0.5]
        count(page.name(f"numbers of {axis}: {[text for _, text in lines]}"), (len(lines) >= 2, off), (True, []))
    page.browser.hover(frame["x"] + left, frame["y"] + top)
    page.wait('/x = /.test($("at")?.textContent)')
    x, y = (float(part.split("= ")[1].replace("\u2212", "-")) for part in page.run('$("at").textContent').split(", "))
    pixel = 60 / (right - left)
    count(page.name(f"coordinates under the pointer: {x}, {y}"), abs(x + 30) < 1.5 * pixel and abs(y - 20) < 1.5 * pixel, True)
    by_shape(page, frame, to_x, to_y)
    by_row(page)


def by_shape(page, frame, to_x, to_y):
    """A click on a shape that is far from others marks its row."""
    blobs = plain.blobs_of(example(WORLD))
    number = lonely(blobs)
    x, y = blobs[number].vertices[0][0] / 1e7, blobs[number].vertices[0][1] / 1e7
    before = page.run("frame().corners")
    page.browser.mouse([(frame["x"] + to_x(x), frame["y"] + to_y(y))])
    page.wait(f"marked() !== null && frame().picked === {number}")
    row = page.run("marked().cells[0].textContent")
    count(page.name("a click on a shape picks its row"), row.replace(",", ""), str(number))
    count(page.name("the view is kept"), page.run("frame().corners"), before)
    page.run('$("torow").click()')
    count(page.name("to its row"), page.run("isInView(marked())"), True)
    page.run('$("tomap").click()')
    count(page.name("and back to the map"), page.run('isInView($("map"))'), True)


def lonely(blobs):
    """A small blob that is far from each vertex of others, and in the middle of the world, so that it is seen."""
    places = [(number, vertex[0] / 1e7, vertex[1] / 1e7) for number, blob in enumerate(blobs) for vertex in blob.vertices]

    def far(number):
        x, y = blobs[number].vertices[0][0] / 1e7, blobs[number].vertices[0][1] / 1e7
        return min(abs(x - a) + abs(y - b) for other, a, b in places if other != number)

    small = [number for number, blob in enumerate(blobs) if len(blob.vertices) < 12 and abs(blob.vertices[0][0]) < 100 * 10**7]
    return max(small, key=far)


def by_row(page):
    """A row marks its shape, the map comes into view and keeps its view; a closer look has a way back."""
    before = page.run("frame().corners")
    page.run('$("last").click()')
    page.wait('$("next").ariaDisabled === "true"')
    number = page.run('Number($("list").tBodies[0].rows[1].cells[0].textContent.replaceAll(",", ""))')
    page.run('$("list").tBodies[0].rows[1].cells[3].click()')
    page.wait(f"frame().picked === {number} && document.documentElement.dataset.pick === 'done'")
    count(page.name("a row picks its shape"), page.run('marked().cells[0].textContent.replaceAll(",", "")'), str(number))
    seen = page.run('isInView($("map"))')
    count(page.name("the map is in view, and its view is kept"), (seen, page.run("frame().corners")), (True, before))
    scale = page.run("frame().scale")
    page.run('$("closer").click()')
    page.wait(f"frame().scale > 2 * {scale}")
    page.run('$("before").click()')
    page.wait(f"frame().scale === {scale}")
    count(page.name("back to the view before"), page.run("frame().corners"), before)
    page.run('$("unpick").click()')
    page.wait("frame().picked === null")
    count(page.name("nothing is picked"), page.run("marked() === null"), True)


def contrasts(page):
    """Text has a contrast of 4.5, marks have one of 3, and marks differ in shape or width."""
    states = [
        ("certified", example(WORLD), ["map", "strip"]),
        ("collections", example("coast_collections.twkb"), ["map", "strip"]),
        ("points", example("points_sized.twkb"), ["map", "strip"]),
        ("refused", bytes.fromhex("020309020602080202020808"), ["escape"]),
    ]
    for name, layer, canvases in states:
        page.drop(f"{name}.twkb", layer)
        if name != "refused":
            page.scan("x=10..30,y=35..45")
        count(page.name(f"{name}: texts"), page.run("faint()"), [])
        count(page.name(f"{name}: marks"), page.run("faintMarks()"), [])
        count(page.name(f"{name}: names"), page.run("unnamed()"), [])
        for canvas in canvases:
            got = page.run(f'faintPixels("{canvas}")')
            count(page.name(f"{name}: marks on {canvas}"), (got["faint"], got["marks"] > 0), ([], True))
        legends = ["[aria-label='Marks of the map']", "#stripkeys"] if name != "refused" else ["#outside .legend"]
        for legend in legends:
            shapes = page.run(f"shapesOf({json.dumps(legend)})")
            count(page.name(f"{name}: shapes of {legend}"), (len(shapes) > 2, len(set(shapes))), (True, len(shapes)))


def forced(page):
    """With colours that the system forces, marks still differ and are seen."""
    count(page.name("colours are forced"), page.run('matchMedia("(forced-colors: active)").matches'), True)
    page.drop(WORLD, example(WORLD))
    page.scan("x=10..30,y=35..45")
    page.run('$("pen").click()')
    count(page.name("texts and marks"), page.run("[...faint(), ...faintMarks()]"), [])
    for canvas in ("map", "strip"):
        got = page.run(f'faintPixels("{canvas}")')
        count(page.name(f"marks on {canvas}: {got}"), (got["faint"], got["marks"] >= 2), ([], True))
    grounds = page.run('["pen", "in"].map((id) => getComputedStyle($(id)).backgroundColor)')
    count(page.name("a pressed button is seen"), grounds[0] != grounds[1], True)
    page.picture(f"forced-{page.browser.name}", '$("verdict")')


def at_once(page):
    """Two files that are dropped at once are refused, and the layer that is shown stays."""
    page.drop("first.twkb", bytes.fromhex("01000204"))
    before = page.run('[document.documentElement.dataset.run, $("verdict").textContent]')
    page.run('droppedAtOnce("one.twkb", "two.twkb")')
    page.wait("isSettled()")
    has(page, "two files", page.run('$("several")?.textContent ?? ""'), "one file", "2")
    count(page.name("two files: none is opened"), page.run('[document.documentElement.dataset.run, $("verdict").textContent]'), before)
    count(page.name("two files: said in view"), page.run('isInView($("several"))'), True)
    page.drop("next.twkb", bytes.fromhex("01000204"))
    count(page.name("one file: the word is gone"), page.run('$("several")?.textContent'), "")


def words(page):
    """No sentence has words that a stranger stumbles on."""
    layers = [example(WORLD), widened(example("coast_lines_sized.twkb"), 10**7), b"", bytes.fromhex("01000204")]
    layers += [bytes.fromhex(row[2]) for row in table("cases.tsv") if row[1] == "check FILE" and row[4].startswith("no ")]
    found = set()
    for layer in layers:
        page.drop("layer.twkb", layer)
        found |= set(re.findall(STRANGE, page.run("document.body.innerText"), re.IGNORECASE))
    page.drop("layer.twkb", example(WORLD))
    for window in ("x=1", "x=1..0,y=0..1", "x=0..1,y=0..1"):
        found |= set(re.findall(STRANGE, page.run("document.body.innerText") + page.scan(window)["wrong"], re.IGNORECASE))
    count(page.name("words of a stranger"), sorted(found), [])


SCREENS = [first_screen, taps, known, tables, fingers, shares, picks, contrasts, at_once, words]
PICTURES = [
    ("world", example(WORLD)),
    ("loose", widened(example("coast_lines_sized.twkb"), 10**7)),
    ("box", bytes.fromhex("020309020602080202020808")),
    ("no-claims", example("points_sized.twkb")),
    ("empty", b""),
]


def pictures(page, name):
    """A picture of each state, for people to look at."""
    page.reload()
    page.picture(f"{name}-start", "document.body")
    for what, layer in PICTURES:
        page.drop(f"{what}.twkb", layer)
        page.picture(f"{name}-{what}", '$("verdict")')
