#!/usr/bin/env python3
"""Writes the page: one file with its style, its scripts, the proved module and examples inside, for a browser with no server.

usage: bindings/web/make_page.py MODULE OUT

esbuild bundles the scripts of `page/` and makes them and the style short. The style, what the page shows, the module, the scripts and the
examples are compressed, and all examples but the first are shortened by whole blobs, so that the page stays below LARGEST bytes. It
names the version, from the file VERSION, and the commit, if git knows one. A commit has one page, byte for byte.

The page is in CHARSET, which has a letter for each of the 256 bytes. So a compressed byte takes one byte of the page.
"""
import bisect
import functools
import gzip
import os
import re
import shutil
import subprocess
import sys

HERE = os.path.dirname(os.path.abspath(__file__))
TOP = os.path.dirname(os.path.dirname(HERE))
PAGE = os.path.join(HERE, "page")
# The oldest browsers that run the page.
TARGET = "chrome123,firefox120"
LARGEST = 150_000
# As browsers read it. Python calls it CODEC, and knows no letter for five of its bytes, which the page's texts don't use.
CHARSET = "windows-1252"
CODEC = "cp1252"
# Bytes that a script of HTML wouldn't keep, a `<` that could end it or begin a comment, and the sign itself, are written as the sign and
# a byte SHIFT higher.
SIGN, SHIFT = b"=", 64
ESCAPED = re.compile(b"[\0\r" + SIGN + b"]|<(?=[!/])")
sys.path.insert(0, os.path.join(TOP, "tests"))
import plain  # noqa: E402

# The first example is there whole. Of each other one: its file, its title, and how many blobs of it are taken, by parts of them: as
# many as there is room for.
WORLD = ("world.twkb", "Shorelines")
EXAMPLES = [
    ("coast_collections.twkb", "Collections", 1),
    ("coast_z.twkb", "Lines with Z and M", 3),
    ("points_sized.twkb", "Points", 16),
]
MOST_PARTS = 100
COMMIT_LETTERS = 12


def text_of(*path):
    with open(os.path.join(*path), encoding="utf-8") as file:
        return file.read()


def version():
    return text_of(TOP, "VERSION").strip()


def commit():
    """The commit of this checkout, or that it is unknown. A repository round a folder without one isn't ours."""
    git = ["git", "-C", TOP, "rev-parse", "--show-toplevel", "HEAD"]
    try:
        done = subprocess.run(git, stdout=subprocess.PIPE, stderr=subprocess.DEVNULL, text=True, check=True)
    except (OSError, subprocess.CalledProcessError):
        return "unknown"
    top, head = done.stdout.splitlines()
    return head[:COMMIT_LETTERS] if os.path.realpath(top) == os.path.realpath(TOP) else "unknown"


def short(*words):
    """What esbuild makes of a script or a style."""
    if not shutil.which("esbuild"):
        raise SystemExit("esbuild is missing: apt-get install esbuild")
    done = subprocess.run(["esbuild", *words, "--minify", f"--target={TARGET}"], stdout=subprocess.PIPE, cwd=PAGE, check=True)
    return done.stdout.strip()


def bundled(entry):
    """One script of a module and those that it imports."""
    return short(entry, "--bundle", "--format=esm", "--charset=utf8")


def content():
    """What the page shows, with its style. Without indentation, which shows nowhere: scripts fill each `pre`."""
    return b"<style>" + short("style.css") + b"</style>" + unindented("content.html").encode()


def unindented(name):
    return re.sub(r"^\s+", "", text_of(PAGE, name), flags=re.MULTILINE)


def packed(data):
    """Compressed, and with the sign before each byte that is ESCAPED, which is written higher."""
    return ESCAPED.sub(lambda match: SIGN + bytes([match[0][0] + SHIFT]), gzip.compress(data, 9, mtime=0))


@functools.cache
def example(name):
    with open(os.path.join(TOP, "examples", name), "rb") as file:
        return file.read()


@functools.cache
def widest(name):
    """The blobs of an example with their numbers, the widest first; of those that are as wide, some from all over the file."""
    return sorted(enumerate(plain.blobs_of(example(name))), key=lambda one: (-width(one[1]), one[0] % 9))


def shortened(name, most):
    """The widest blobs of an example, in file order."""
    return b"".join(example(name)[blob.start : blob.stop] for _, blob in sorted(widest(name)[:most], key=lambda one: one[0]))


def width(blob):
    """How far its vertices reach, in X and in Y together."""
    return sum(max(ends) - min(ends) for ends in list(zip(*blob.vertices))[:2])


def layers(parts):
    """A script for each example, and three that are broken: what to change in the first of them, or how much is left of it."""
    whole = [(*WORLD, example(WORLD[0]))]
    part = [(name, title, shortened(name, blobs * parts)) for name, title, blobs in EXAMPLES]
    scripts = [
        f'<script type="text/plain" id="{name[:-5]}" data-example="{told(name, data)}" data-title="{title}">'.encode() + packed(data) + b"</script>"
        for name, title, data in whole + part
    ]
    return b"\n".join(scripts + [script.encode() for script in broken(WORLD[0])])


def told(name, data):
    """What a layer is called that has some blobs of an example: by its file's name where it is the file."""
    return name if data == example(name) else f"{len(plain.blobs_of(data))} blobs of {name}"


def broken(name):
    data = example(name)
    blobs = plain.blobs_of(data)
    size, cut = (blobs[len(blobs) * third // 4] for third in (1, 3))
    extent = next(filter(None, (halved(data, number) for number in range(len(blobs) // 2, len(blobs)))))

    def script(file, title, content="", more=""):
        return f'<script type="text/plain" data-layer="{name[:-5]}" data-example="{file}" data-title="{title}"{more}>{content}</script>'

    length = (cut.start + cut.stop) // 2
    return [
        script(f"{name} with a false box", "a false box", f"{extent}={data[extent] // 2}"),
        script(f"{name} with a false size", "a false size", f"{size.head.size_at}={data[size.head.size_at] ^ 1}"),
        script(f"the first {length:,} bytes of {name}", "cut short", more=f' data-length="{length}"'),
    ]


def halved(data, number):
    """Where the extent in X of a blob's box ends, if its box is false when this last byte, which says how wide it is, is halved."""
    reader = plain.Reader(data)
    reader.place = plain.blobs_of(data)[number].head.box_at
    reader.signed()
    reader.signed()
    place = reader.place - 1
    told = plain.check(data[:place] + bytes([data[place] // 2]) + data[place + 1 :])
    return place if told.startswith(f"no blob={number} ") and told.endswith("kind=box\n") else None


def main(module, out):
    with open(module, "rb") as file:
        code = packed(file.read())
    parts_of = {name: text.encode() for name, text in (("CHARSET", CHARSET), ("VERSION", version()), ("COMMIT", commit()))}
    parts_of.update(MODULE=code, CONTENT=packed(content()), LOADER=short("loader.js"))
    parts_of.update({name: packed(bundled(f"{name.lower()}.js")) for name in ("MAIN", "WORKER", "PAINTER")})

    def page(parts):
        parts_of["EXAMPLES"] = layers(parts)
        html = unindented("index.html").encode(CODEC)
        return re.sub(b"@([A-Z]+)@", lambda match: parts_of[match[1].decode()], html)

    fits = bisect.bisect_left(range(1, MOST_PARTS + 1), LARGEST + 1, key=lambda parts: len(page(parts)))
    if not fits:
        raise SystemExit(f"the page has more than {LARGEST} bytes, whatever is left out of the examples")
    data = page(fits)
    os.makedirs(os.path.dirname(os.path.abspath(out)), exist_ok=True)
    with open(out, "wb") as file:
        file.write(data)
    print(f"built {out}: {len(data)} bytes")


if __name__ == "__main__":
    main(*sys.argv[1:])
