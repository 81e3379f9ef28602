"""Windows that are dragged, drawn and moved by keys on the page, and what wheel, fingers and keys do to its map."""
import json
import os

from harness import TOP, count
from page_answers import printed

LINES = os.path.join(TOP, "examples", "coast_lines_sized.twkb")


def dragged(page):
    """A window that is dragged is the one of its text, and so is one that keys move."""
    page.open(LINES)
    page.scan("x=-20..20,y=-20..20")
    page.run('void $("map").scrollIntoView({ block: "center" })')
    for what, act in (("dragged", drag_whole), ("an edge dragged", drag_edge), ("drawn", draw), ("by keys", keys)):
        before = page.run('$("text").value')
        act(page)
        page.wait("isSettled()")
        text, hits = page.run('[$("text").value, $("printed").textContent]')
        count(page.name(f"{what}: another window"), text != before, True)
        count(page.name(f"{what}: {text}"), hits, printed(page.program, "scan", LINES, text))
        page.scan("x=0..1,y=0..1")
        count(page.name(f"{what} and typed: {text}"), page.scan(text)["printed"], hits)
        count(page.name(f"{what} and typed: the frame"), page.run("frame().text"), text)
    page.picture("dragged", '$("asked")')


def corners(page):
    """The window on the screen: left, top, right, bottom."""
    frame = page.run("frame()")
    left, top, right, bottom = frame["corners"]
    return frame["x"] + left, frame["y"] + top, frame["x"] + right, frame["y"] + bottom


def drag_whole(page):
    left, top, right, bottom = corners(page)
    x, y = (left + right) / 2, (top + bottom) / 2
    page.browser.mouse([(x, y), (x + 20, y - 10), (x + 61, y - 33)])


def drag_edge(page):
    _, top, right, bottom = corners(page)
    y = (top + bottom) / 2
    page.browser.mouse([(right, y), (right + 15, y), (right + 40, y + 20)])


def draw(page):
    frame = page.run("frame()")
    page.run('$("pen").click()')
    x, y = frame["x"] + 500, frame["y"] + 100
    page.browser.mouse([(x, y), (x + 30, y + 20), (x + 90, y + 75)])
    page.run('$("pen").click()')


def keys(page):
    page.run('$("map").focus()')
    page.browser.type("ArrowRight", 39, shift=True)
    page.browser.type("ArrowUp", 38, shift=True)
    page.browser.type("]", 221)
    page.browser.type("+", 187)
    page.browser.type("ArrowLeft", 37)


def zoomed(page):
    """Wheel, two fingers and keys make the map larger, a drag beside the window moves it, and 0 shows all again."""
    page.open(LINES)
    page.scan("x=-20..20,y=-20..20")
    page.run('void $("map").scrollIntoView({ block: "center" })')
    left, top, right, bottom = at_first = corners(page)
    x, y = (left + right) / 2, (top + bottom) / 2

    def after(act, *words):
        before = page.run('$("map").dataset.frame')
        act(*words)
        page.wait(f'$("map").dataset.frame !== {json.dumps(before)} && $("map").dataset.painted !== "no"')
        return corners(page)

    wide = [at_first[2] - at_first[0]]
    page.run('$("map").focus()')
    for what, act, words in (
        ("wheel", page.browser.wheel, (x, y, -240)),
        ("fingers", page.browser.fingers, ([[(x - 20, y), (x + 20, y)], [(x - 30, y), (x + 30, y)], [(x - 45, y), (x + 45, y)]],)),
        ("keys", page.browser.type, ("+", 187)),
    ):
        got = after(act, *words)
        wide.append(got[2] - got[0])
        count(page.name(f"{what}: larger"), wide[-1] > 1.2 * wide[-2], True)
        page.run('$("map").focus()')
    count(page.name("0 shows all"), after(page.browser.type, "0", 48), at_first)
    moved = after(page.browser.mouse, [(left - 60, top), (left - 40, top + 5), (left - 10, top + 20)])
    count(page.name("a drag beside the window"), [round(a - b) for a, b in zip(moved, at_first)], [50, 20, 50, 20])
    count(page.name("the window stays"), page.run('$("text").value'), "x=-20..20,y=-20..20")
