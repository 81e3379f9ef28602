"""What the page shows between a question and its answer, while a worker's answers are kept back."""
import base64

from harness import count
from page_answers import POINT, example, has, signed, varint

LINES = "coast_lines_sized.twkb"
# What is of one window: its sentence, what the program prints, and what scans of each blob say.
SENTENCE = ["scanned"]
EACH_BLOB = ["shares", "shared", "directory", "strip", "sums", "list"]


def stale(page):
    """Which parts are dimmed and marked as of another window."""
    marked = """[...document.querySelectorAll(".stale")].filter((at) => at.ariaBusy === "true").flatMap((at) => [at, ...at.querySelectorAll("[id]")])"""
    parts = page.run(f"{marked}.map((at) => at.id)")
    return [one for one in SENTENCE + EACH_BLOB if one in parts]


def another_window(page):
    """After a new window all that is of the last one is dimmed, until it is of the new one."""
    page.drop("lines.twkb", example(LINES))
    page.scan("x=10..30,y=35..45")
    count(page.name("at rest nothing is dimmed"), (stale(page), page.run('$("waiting").textContent')), ([], ""))
    page.run('holdBack("scanned", "spread")')
    page.run('typed("x=100..140,y=-10..10")')
    page.wait("isHeld() && frame().isStale")
    count(page.name("no answer yet: all is dimmed"), stale(page), SENTENCE + EACH_BLOB)
    page.wait('getComputedStyle($("shares")).opacity < 1')
    has(page, "no answer yet: said", page.run('$("waiting").textContent'), "Scanning.", "Dimmed: the last window.")
    page.run("letGo()")
    page.wait("isSettled() && !frame().isStale")
    count(page.name("the answer is there"), (stale(page), page.run('$("waiting").textContent')), ([], ""))
    page.run('holdBack("spread")')
    page.run('typed("x=0..10,y=0..10")')
    page.wait("isHeld() && frame().isStale")
    count(page.name("the sentence alone is new"), stale(page), EACH_BLOB)
    has(page, "the sentence alone is new", page.run('$("scanned").textContent'), "x=0..10,y=0..10")
    page.run('(letGo(), holdBack("rows"))')
    page.wait("isSettled() && isHeld()")
    count(page.name("all but the rows is new"), stale(page), ["list"])
    page.run("letGo()")
    page.wait("isSettled()")
    count(page.name("all is new"), stale(page), [])


def another_layer(page):
    """Nothing of the last layer's scan stands under the new layer's name."""
    page.drop("lines.twkb", example(LINES))
    page.scan("x=10..30,y=35..45")
    page.rows()
    page.run('holdBack("scanned", "spread")')
    page.dropping("point.twkb", POINT)
    page.wait('isHeld() && !$("certified").hidden')
    ids = ["scanned", "printed", "directory", "waiting"]
    texts = page.run(f'{ids}.map((id) => $(id).textContent)')
    count(page.name("another layer: no sentence of the last one"), [one for one in texts if "x=10..30" in one or "hits" in one], [])
    rows = page.run('["sums", "list", "loosest"].map((id) => $(id).tBodies[0].rows.length)')
    shares = page.run('[...document.querySelectorAll("#shared span")].map((at) => at.textContent).join("")')
    count(page.name("another layer: no rows and no shares of the last one"), (rows, shares), ([0, 0, 0], ""))
    marks = page.run('["hit", "read", "header", "hopped"].map((name) => pixelsOf("strip", name))')
    count(page.name("another layer: nothing on the strip"), marks, [0, 0, 0, 0])
    page.run("letGo()")
    page.wait("isSettled()")


def another_picture(page):
    """What was painted of the last layer isn't shown as the new one's."""
    page.drop("lines.twkb", example(LINES))
    page.run('(holdBack("painted"), $("boxes").click())')
    page.wait("isHeld()")
    page.dropping("more.twkb", example(LINES) + POINT)
    page.wait('$("verdict").textContent.includes("more.twkb has 1,716 blobs") && document.documentElement.dataset.scan === "done"')
    page.run("(letOneGo(), framesLater())")
    marks = page.run('["hit", "hopped", "box"].map((name) => pixelsOf("map", name))')
    count(page.name("another layer: no shapes of the last one"), marks, [0, 0, 0])
    page.run('(letGo(), $("boxes").click())')
    page.wait('isSettled() && pixelsOf("map", "hit") > 0')


def one_after_another(page):
    """Of files that are dropped one soon after the other, whatever the first one's check is at, the last one's verdict alone is told."""
    page.run("void (told.length = 0)")
    page.run(f'droppedSoon("{base64.b64encode(example(LINES)).decode()}", "{base64.b64encode(POINT).decode()}", 60)')
    runs = page.run('told.filter((one) => one.tell === "verdict").map((one) => one.run)')
    count(page.name(f"runs with two verdicts, of {len(runs)}"), [run for run in set(runs) if runs.count(run) > 1], [])


def still(page):
    """What is done on the way moves nothing on the page."""
    page.drop("lines.twkb", example(LINES))
    place = 'JSON.stringify(["verdict", "map"].map((id) => $(id).getBoundingClientRect().top))'
    before = page.run(place)
    moved = page.run(f'($("progress").hidden = false, {place})')
    page.run('void ($("progress").hidden = true)')
    count(page.name("progress moves nothing"), moved, before)


def first_verdict(page):
    """The verdict is there before its claims are counted."""
    page.drop("point.twkb", POINT)
    page.run('holdBack("survey")')
    page.dropping("lines.twkb", example(LINES))
    page.wait("isHeld()")
    has(page, "no claims yet", page.run('$("verdict").textContent'), "Certified.", "lines.twkb has 1,715 blobs", "ok blobs=1715", lacks=["every claim"])
    page.run("letGo()")
    page.wait("isSettled()")
    has(page, "claims", page.run('$("verdict").textContent'), "every claim is true")


def while_painting(page):
    """The window follows a pointer and keys while the painter works."""
    page.drop("lines.twkb", example(LINES))
    page.scan("x=-20..20,y=-20..20")
    page.wait("isSettled()")
    page.run('(holdBack("painted"), $("map").focus())')
    before = page.run("frame().corners")
    page.browser.type("ArrowRight", 39)
    page.wait("isHeld()")
    page.wait(f"frame().corners[0] < {before[0]} - 5")
    page.browser.type("ArrowLeft", 37)
    page.wait(f"Math.abs(frame().corners[0] - {before[0]}) < 1")
    count(page.name("the window moves while shapes are painted"), page.run("isHeld()"), True)
    page.run("letGo()")
    page.wait("isSettled()")


def in_slices(page):
    """A refused line of many vertices is looked at in slices, and another file is taken between them."""
    steps, last = 10_000_000, 5
    body = varint(steps + 1) + signed(0) * 2 + bytes(2) * (steps - 1) + signed(last) * 2
    page.run('void (told = [], holdBack())')
    page.dropping_file("line.twkb", bytes([2, 1]) + signed(0) * 4 + body)
    page.wait("isSettled()")
    has(page, "a long line", page.run('$("detail").textContent'), f"Vertex {steps:,}", "runs from 0 to 0")
    told = page.run('told.filter((one) => one.tell === "progress" && one.stage === "explaining").length')
    count(page.name(f"a long line is looked at in {told} slices"), told > 3, True)


BETWEEN = [another_window, another_layer, another_picture, still, first_verdict, while_painting]
