"""Where the focus is after buttons that go or lead nowhere, and what is left over of the layer before, on the page."""
from harness import count
from page_answers import POINT, example

LINES = "coast_lines_sized.twkb"


def focused(page, id):
    """Presses a button as keys do, and says what has the focus after that and a moment."""
    page.run(f'($("{id}").focus(), $("{id}").click())')
    page.wait("document.documentElement.dataset.pick !== 'working'")
    return page.run("new Promise((resume) => setTimeout(() => resume(document.activeElement.id), 60))")


def focus(page):
    """No button takes the focus away with it."""
    page.drop("lines.twkb", example(LINES))
    page.rows()
    for id, shown in (("last", "of"), ("first", "1 to"), ("next", "26 to"), ("back", "1 to")):
        count(page.name(f"the focus after {id}"), focused(page, id), id)
        page.wait(f'$("pages").textContent.includes("{shown}")')
    page.run('$("list").tBodies[0].rows[0].cells[3].click()')
    page.wait("frame().picked !== null && !$('picked').hidden")
    count(page.name("the focus after going back to the map"), focused(page, "tomap"), "map")
    count(page.name("the focus after deselecting"), focused(page, "unpick"), "map")


def left_over(page):
    """Another layer begins with no coordinates, with nothing to draw, and with no rows."""
    page.drop("lines.twkb", example(LINES))
    start = page.run('$("at").textContent')
    page.run('void $("map").scrollIntoView({ block: "center" })')
    frame = page.run("frame()")
    page.browser.swipe([(frame["x"] + 100, frame["y"] + 100)])
    page.wait('/x = /.test($("at").textContent)')
    page.run('$("pen").click()')
    page.drop("point.twkb", POINT)
    count(page.name("another layer: coordinates"), page.run('$("at").textContent'), start)
    drawing = page.run('[$("pen").ariaPressed, getComputedStyle($("map")).touchAction]')
    count(page.name("another layer: nothing is drawn"), drawing, ["false", "pan-x pan-y"])
    page.rows()
    page.drop("cut.twkb", POINT[:-1])
    count(page.name("another layer: no rows are left"), page.run('$("list").tBodies[0].rows.length'), 0)


FOCUS = [focus, left_over]
