#!/usr/bin/env python3
"""Builds the page that checks a layer in a browser, and drives it in Chromium and in Firefox.

usage: tests/page.py [PROGRAM] [--page PAGE] [--picture] [--screens] [BROWSER..]   (build/twkb_tool where PROGRAM is left out)

The small layers of cases.tsv are dropped on the page, and the examples chosen as files. What the page says has to be what the
program prints. Then come windows that are dragged, large files, files that are no layers, both colours, and what people with
keyboards and screen readers need. Last, the other files page_*.py try the page on screens of three widths, in both colours; with --screens they
alone do. Pictures of it go to build/page. With --picture the one that README shows is written too;
with --page that page is taken as it is. A browser that this machine lacks is named in one line, with what brings it, and its tests
are left out. Prints each difference, and last a line `N passed, M failed`; the status is 1 where any failed.
"""
import argparse
import filecmp
import os
import re
import shutil
import subprocess
import sys
import tempfile
import time
from concurrent.futures import ProcessPoolExecutor

from browsers import BROWSERS, Failed
from driven import PICTURES, Driven
from harness import TOP, count, counts, left_out, table, written
from page_answers import ANSWERS, printed
from page_between import BETWEEN, in_slices, one_after_another
from page_focus import FOCUS
from page_moves import LINES, dragged, zoomed
from page_screens import SCREENS, WIDTHS, WORLD, forced, pictures
from page_truths import TRUTHS, many_blobs
from page_uses import ONCE, USES
from png import shrunk
from widened import widened

WEB = os.path.join(TOP, "bindings", "web")

PAGE = os.path.join(TOP, "build", "dozhemik.html")
LARGEST_PAGE = 150_000
LARGEST_FILE = 268435456
EXAMPLES = ["points_sized.twkb", "coast_lines_sized.twkb", "coast_collections.twkb", "coast_z.twkb", WORLD]
# These copies of the lines have more than 100 MB.
COPIES = 1190
# PostGIS was asked for no windows of the world: the windows of the lines are taken.
LINES_TOO = {WORLD: "coast_lines_sized.twkb"}
# Of the windows that PostGIS was asked for every fifth one is asked for, of each example.
EVERY = 5


def cases(page):
    """The worked files: verdicts, lists, hits and bytes read, and for refused ones the byte that is marked."""
    for number, (name, words, data, _, text) in enumerate(table("cases.tsv")):
        layer = bytes.fromhex(data)
        told = page.drop(f"case{number}.twkb", layer)
        wanted = text.replace("\\n", "\n").rstrip("\n")
        command, *rest = words.split(" ")
        refused(page, name, layer, told)
        if command == "scan" and told["line"].startswith("ok"):
            path = written(page.folder, "case.twkb", layer)
            for window in rest[1:]:
                one = printed(page.program, "scan", path, window)
                count(page.name(f"{name}, {window}"), page.scan(window)["printed"], one)
        elif command == "list" and told["line"].startswith("ok"):
            count(page.name(name), page.run("listed()"), wanted.splitlines())
        elif "kind=loose" in wanted:
            # The page says of a layer with a false claim what `check` says of it.
            path = written(page.folder, "case.twkb", layer)
            count(page.name(name), told["line"], printed(page.program, "check", path))
            count(page.name(f"{name}, tight"), told["tight"] is None or f"({wanted})" in told["tight"], True)
        else:
            count(page.name(name), told["line"], wanted)
            if "--tight" in rest:
                count(page.name(f"{name}, tight"), (told["tight"] or "Tight").startswith(("Tight", "No box")), True)


def refused(page, name, layer, told):
    """The byte that the verdict names is marked, its field is named, and words say why."""
    if not told["line"].startswith("no "):
        return
    offset = int(told["line"].split("offset=")[1].split()[0])
    byte = layer[offset : offset + 1].hex() or "··"
    field = told["field"] or ""
    shown = (told["byte"], told["title"].split(",")[0], field.replace(",", ""), all(told["words"]))
    count(page.name(f"{name}: the byte"), shown, (byte, f"byte {offset}", str(offset), True))


def examples(page):
    """The example layers by the file input: the verdict, the list, and windows."""
    for layer in EXAMPLES:
        path = os.path.join(TOP, "examples", layer)
        told = page.open(path)
        count(page.name(layer), told["line"], printed(page.program, "check", path))
        rows = printed(page.program, "list", path).splitlines()
        tight = "Tight:" if any("box=yes" in row for row in rows) else "No box"
        count(page.name(f"{layer}, tight"), told["tight"][:6], tight)
        count(page.name(f"{layer}, list"), page.run("listed()"), rows)
        windows = [row[1] for row in table("postgis.tsv") if row[0] in (layer, LINES_TOO.get(layer))]
        for window in [*windows[::EVERY], *windows[-2:]]:
            told = page.scan(window)
            count(page.name(f"{layer}, {window}"), told["printed"], printed(page.program, "scan", path, window))
            read = sum(int(row[2].replace(",", "")) for row in told["sums"][:3])
            count(page.name(f"{layer}, {window}: blob by blob"), f"read={read} " in told["printed"], True)
        page.picture(layer[:-5], '$("asked")')


def inside(page):
    """The examples in the page itself, and those that are spoiled."""
    wanted = {"with a false box": "box", "with a false size": "size", "the first ": "cut"}
    for number in range(page.run('document.querySelectorAll("main [role=group] button").length')):
        before = page.run("document.documentElement.dataset.run ?? 0")
        page.run(f'document.querySelectorAll("main [role=group] button")[{number}].click()')
        page.wait(f"document.documentElement.dataset.run != {before} && isSettled()")
        line, text = page.run('[verdict().line, $("verdict").textContent]')
        name = next((name for name in wanted if name in text and not line.startswith("ok")), None)
        count(page.name(f"example {number}"), line.split("kind=")[-1] if name else line[:3], wanted.get(name, "ok "))
        page.picture(f"example-{number}", '$("verdict")')


def no_layers(page):
    """Files that are no layers, windows that are none, and a file that is too large."""
    for name in ("README.md", os.path.join("docs", "hops.svg"), os.path.join("docs", "page.png")):
        path = os.path.join(TOP, name)
        if os.path.exists(path):
            told = page.open(path)
            count(page.name(name), told["line"], printed(page.program, "check", path))
    page.picture("no-layer")
    page.open(LINES)
    kept = page.scan("x=0..9,y=0..9")["printed"]
    for window in ("x=0..9", "x=0..9,y=0..9 ", "x=9..0,y=0..9", "x=0..0.12345678,y=0..1", "y=0..1,x=0..1", "x=" + "1" * 28 + "..1,y=0..1"):
        told = page.scan(window.strip() if window.endswith(" ") else window)
        none = window != window.strip()
        count(page.name(f"window {window}"), (bool(told["wrong"]), told["printed"]), (not none, kept))
    path = written(page.folder, "large.twkb", b"")
    os.truncate(path, LARGEST_FILE + 1)
    page.choose(path)
    page.wait("isSettled()")
    wanted = "Not checked: large.twkb has 268,435,457 bytes. This page reads files of up to 268,435,456 bytes (256 MiB)."
    count(page.name("a file that is too large"), page.run('$("verdict").textContent'), wanted)


def loose(page):
    """Layers with boxes that are too large: certified, and said to be loose, with how much."""
    with open(LINES, "rb") as file:
        path = written(page.folder, "wider.twkb", widened(file.read(), 10**7))
    told = page.open(path)
    count(page.name("loose boxes"), told["line"], printed(page.program, "check", path))
    line = printed(page.program, "check", "--tight", path)
    count(page.name("loose boxes, tight"), f"({line})" in told["tight"], True)
    count(page.name("the loosest boxes"), page.run('$("loosest").querySelectorAll("tbody tr").length') > 0, True)
    page.run('$("loosest").querySelector("tbody button").click()')
    page.picture("loose", '$("tightness")')
    page.picture("loose-map", '$("map")')


def sorting(page):
    """Headings sort, up and down."""
    page.open(LINES)
    rows = [row.split(" ") for row in printed(page.program, "list", LINES).splitlines()]
    sizes = [int(row[2].split("=")[1]) for row in rows]
    for number, wanted in enumerate((sorted(sizes), sorted(sizes, reverse=True))):
        page.run('document.querySelector("button[data-column=bytes]").click()')
        state = ["ascending", "descending"][number]
        page.wait(f'document.querySelector("th[data-column=bytes]").ariaSort === "{state}"')
        first = page.run('[...$("list").tBodies[0].rows].map((row) => Number(row.cells[2].textContent.replaceAll(",", "")))')
        count(page.name(f"sorted, {state}"), first, wanted[: len(first)])


def closed(page):
    """The page has the browser refuse each connection."""
    wish = 'fetch("http://127.0.0.1:9/").catch(() => {})'
    event = f'new Promise((resolve) => {{ addEventListener("securitypolicyviolation", (event) => resolve(event.effectiveDirective), {{ once: true }}); {wish}; }})'
    count(page.name("no connection"), page.run(event), "connect-src")


def large(page):
    """A file of 100 MB: the page answers while it works, and says what the program says."""
    with open(LINES, "rb") as file:
        data = file.read()
    path = os.path.join(page.folder, "copies.twkb")
    with open(path, "wb") as file:
        file.writelines(data for _ in range(COPIES))
    page.choose(path)
    # The colours are changed while the file is worked on.
    alive = page.run('($("colours").click(), [document.documentElement.dataset.state, $("colours").ariaPressed])')
    page.wait("isSettled()")
    page.run('$("colours").click()')
    count(page.name("100 MB: alive at work"), alive[0], "working")
    count(page.name("100 MB: the colours"), alive[1], "true")
    count(page.name("100 MB"), page.run("verdict().line"), printed(page.program, "check", path))
    window = "x=10..30,y=35..45"
    hits = page.scan(window)["printed"].splitlines()
    wanted = printed(page.program, "scan", path, window).splitlines()
    count(page.name("100 MB, the scan"), (hits[-1], hits[:2000]), (wanted[-1], wanted[:2000]))
    count(page.name("100 MB: every hit is drawn"), "and every hit." in page.run('$("sample").textContent'), True)
    page.picture("large", '$("asked")')
    with open(path, "r+b") as file:
        file.truncate(len(data) * COPIES - 1)
    told = page.open(path)
    count(page.name("100 MB, cut"), told["line"], printed(page.program, "check", path))
    page.choose(path)
    told = page.drop("point.twkb", bytes.fromhex("01000204"))
    count(page.name("another file meanwhile"), told["line"], "ok blobs=1 vertices=1")


def looks(page, colours):
    """Contrast, names, and a narrow screen, with a certified layer and with a refused one."""
    for what, data in (("certified", open(LINES, "rb").read()), ("refused", bytes.fromhex("020309020602080202020808"))):
        page.drop(f"{what}.twkb", data)
        count(page.name(f"{colours}, {what}: contrast"), page.run("faint()"), [])
        count(page.name(f"{colours}, {what}: names"), page.run("unnamed()"), [])
        page.picture(f"{colours}-{what}", '$("verdict")')
        page.browser.size(500, 800)
        count(page.name(f"{what}: narrow"), page.run("document.documentElement.scrollWidth <= innerWidth"), True)
        page.picture(f"{colours}-{what}-narrow")
        page.browser.size(1000, 900)


def dark(page, light):
    """In dark colours all is as in light ones."""
    told = page.open(LINES)
    got = told["line"], page.scan("x=10..30,y=35..45")["printed"], page.run("getComputedStyle(document.documentElement).backgroundColor")
    count(page.name("dark: the same answers"), got[:2], light[:2])
    count(page.name("dark: other colours"), got[2] != light[2], True)
    page.picture("dark", '$("asked")')
    page.run('$("colours").click()')
    count(page.name("the switch"), page.run("getComputedStyle(document.documentElement).backgroundColor"), light[2])
    page.run('$("colours").click()')
    looks(page, "dark")


def for_readme(page):
    """The picture that README shows."""
    page.browser.size(1280, 900)
    page.open(os.path.join(TOP, "examples", WORLD))
    page.scan("x=100..140,y=-10..10")
    path = page.picture("readme")
    page.browser.size(1000, 900)
    return path


def tried(part, page):
    """What goes wrong in a part is counted as a difference, and the next part begins on a fresh page."""
    try:
        part(page)
    except (Failed, TimeoutError) as error:
        count(page.name(part.__name__), str(error), "")
        page.reload()


def screens(Browser, page, program, folder):
    """The page on screens of three widths, in both colours."""
    for dark in (False, True):
        browser = Browser(dark=dark)
        try:
            for width, height in WIDTHS.items():
                start = time.monotonic()
                browser.size(width, height)
                driven = Driven(browser, page, program, folder, f"{width} px, {'dark' if dark else 'light'}")
                for part in (*SCREENS, *ANSWERS, *FOCUS, *USES, *BETWEEN):
                    tried(part, driven)
                pictures(driven, f"{width}-{'dark' if dark else 'light'}")
                print(f"{driven.name('screens')}, {time.monotonic() - start:.0f} s", flush=True)
        finally:
            browser.close()


def with_forced_colours(Browser, page, program, folder):
    browser = Browser(forced=True)
    try:
        tried(forced, Driven(browser, page, program, folder, "forced colours"))
    finally:
        browser.close()


def drive(Browser, page, program, folder, picture):
    browser = Browser()
    try:
        driven = Driven(browser, page, program, folder)
        parts = [cases, examples, inside, dragged, zoomed, no_layers, loose, sorting, closed, *TRUTHS, *ONCE, one_after_another]
        parts += [large, in_slices, many_blobs]
        for part in parts:
            start = time.monotonic()
            tried(part, driven)
            print(f"{browser.name}: {part.__name__}, {time.monotonic() - start:.0f} s", flush=True)
        driven.reload()
        looks(driven, "light")
        line = driven.open(LINES)["line"]
        light = line, driven.scan("x=10..30,y=35..45")["printed"], driven.run("getComputedStyle(document.documentElement).backgroundColor")
        shown = for_readme(driven)
        if picture and browser.name == BROWSERS[0].name:
            with open(shown, "rb") as taken:
                written(os.path.join(TOP, "docs"), "page.png", shrunk(taken.read()))
    finally:
        browser.close()
    browser = Browser(dark=True)
    try:
        dark(Driven(browser, page, program, folder), light)
    finally:
        browser.close()


def same_bytes(module, folder):
    """A commit has one page. Outside of a repository the commit is unknown."""
    make = os.path.join(WEB, "make_page.py")
    made = [os.path.join(folder, name) for name in ("one.html", "two.html")]
    for path in made:
        subprocess.run([sys.executable, make, module, path], check=True, stdout=subprocess.DEVNULL)
    count("the same page twice", filecmp.cmp(*made, shallow=False), True)
    copy = os.path.join(folder, "copy")
    for part in ("bindings/web", "examples", "tests"):
        shutil.copytree(os.path.join(TOP, part), os.path.join(copy, part))
    shutil.copy(os.path.join(TOP, "VERSION"), copy)
    make = os.path.join(copy, "bindings", "web", "make_page.py")
    subprocess.run([sys.executable, make, module, made[0]], check=True, stdout=subprocess.DEVNULL)
    with open(made[0], encoding="latin-1") as file:
        count("no repository: the commit is unknown", "commit unknown" in file.read(), True)


def kept(page):
    """No packed part has a byte that HTML changes, or what ends a script or begins a comment."""
    with open(page, "rb") as file:
        whole = file.read()
    parts = re.findall(rb'<script type="text/plain"[^>]*>(.*?)</script>', whole, re.DOTALL)
    count("packed parts", len(parts), whole.count(b'<script type="text/plain"'))
    count("parts are packed", len(parts) > 0, True)
    count("parts that HTML keeps", [number for number, part in enumerate(parts) if re.search(rb"[\0\r]|<[!/]", part)], [])


def built():
    """The page, or nothing where this machine lacks what builds it."""
    for tool, package in (("wasm-opt", "binaryen"), ("esbuild", "esbuild")):
        if not shutil.which(tool):
            left_out(f"{tool} is missing: apt-get install {package}; the tests of the page are left out")
            return None
    module = os.path.join(TOP, "build", "web", "twkb_web.wasm")
    subprocess.run([os.path.join(WEB, "build.sh")], check=True)
    subprocess.run([sys.executable, os.path.join(WEB, "make_page.py"), module, PAGE], check=True)
    return PAGE


def all_of(Browser, page, program, asked):
    """Drives the page in a browser, and gives how many comparisons passed and failed."""
    counts.update(passed=0, failed=0)
    with tempfile.TemporaryDirectory() as folder:
        paths = os.path.abspath(page), os.path.abspath(program), folder
        if not asked.screens:
            drive(Browser, *paths, asked.picture)
        screens(Browser, *paths)
        with_forced_colours(Browser, *paths)
    return counts


def main():
    words = argparse.ArgumentParser()
    words.add_argument("program", nargs="?", default=os.path.join(TOP, "build", "twkb_tool"))
    words.add_argument("browsers", nargs="*")
    words.add_argument("--page")
    words.add_argument("--picture", action="store_true")
    words.add_argument("--screens", action="store_true")
    asked = words.parse_args()
    there = [one for one in BROWSERS if shutil.which(one.name)]
    for lacking in set(BROWSERS) - set(there):
        left_out(f"{lacking.name} is missing: {lacking.needs}; its tests are left out")
    page = (asked.page or built()) if there else None
    if page:
        os.makedirs(PICTURES, exist_ok=True)
        count("the page's length", os.path.getsize(page) <= LARGEST_PAGE, True)
        kept(page)
        module = os.path.join(TOP, "build", "web", "twkb_web.wasm")
        if os.path.exists(module):
            with tempfile.TemporaryDirectory() as folder:
                same_bytes(module, folder)
        chosen = [Browser for Browser in there if not asked.browsers or Browser.name in asked.browsers]
        # The browsers are driven at once, each by a process of its own: a browser keeps one processor busy.
        with ProcessPoolExecutor(max(1, len(chosen))) as pool:
            for done in [pool.submit(all_of, Browser, page, asked.program, asked) for Browser in chosen]:
                for result, number in done.result().items():
                    counts[result] += number
    print(f"{counts['passed']} passed, {counts['failed']} failed")
    return int(counts["failed"] > 0)


if __name__ == "__main__":
    sys.exit(main())
