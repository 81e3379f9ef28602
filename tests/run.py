#!/usr/bin/env python3
"""Runs the built program as a user would, and compares standard output, standard error and status.

usage: tests/run.py [PROGRAM]   (build/twkb_tool where it is left out)

Runs on small layers are rows of cases.tsv: a name, the words after the program's name, of which FILE is the layer, the layer in
hexadecimal, the status and the standard output. Then the program is compared with plain.py: on what comes of these layers by a
cut before one of their last 64 bytes, or by one of these set to one of up to seven other values (changed.py; cuts.py has all
values, over the library), and on lists and scans of the examples. How many blobs of the examples have a vertex in a window was
asked of PostGIS (postgis.tsv). What needs more than a layer is below. Prints each difference, and last a line `N passed, M
failed`; the status is 1 where any failed.
"""
import os
import resource
import shutil
import subprocess
import sys
import tempfile
import threading
import time

import changed
import plain
from harness import TOP, answered, count, counts, fault, left_out, run, table, written
from widened import widened

POINT = bytes.fromhex("01000204")
LINE = "ok blobs=1 vertices=1\n"
ROW = "blob=0 offset=0 bytes=4 type=point precision=0 vertices=1 size=no box=no\n"
HIT = "hit blob=0 offset=0\nhits=1 read=4 of=4\n"
WINDOW = "x=1..1,y=2..2"
# The words of each command but the layer, which comes after the first, and what they give on POINT.
COMMANDS = [
    (["check"], LINE),
    (["check", "--tight"], LINE),
    (["list"], ROW),
    (["scan", WINDOW], HIT),
    (["scan", WINDOW, WINDOW], HIT + HIT),
]
NOBODY = 65534
A_FILE = b"  A file of TWKB geometries, one after another\n"
GREATEST_FILE, GREATEST_WINDOWS = 268435456, 64
# Layers that PostGIS wrote, with their blobs and vertices.
EXAMPLES = [
    ("points_sized.twkb", 2286, 2286),
    ("coast_lines_sized.twkb", 1715, 14590),
    ("coast_collections.twkb", 343, 5316),
    ("coast_z.twkb", 300, 2372),
]


def command(program, words, layer):
    return [program, words[0], layer, *words[1:]]


def example(name):
    return os.path.join(TOP, "examples", name)


def of_length(folder, name, length):
    path = written(folder, name, b"")
    os.truncate(path, length)
    return path


def limited(limit, value):
    return {"preexec_fn": lambda: resource.setrlimit(limit, (value, value))}


def cases(program, folder):
    for name, words, data, status, text in table("cases.tsv"):
        layer = written(folder, "case.twkb", bytes.fromhex(data))
        words = [layer if word == "FILE" else word for word in words.split()]
        count(f"{name}: {data}", run([program] + words), (int(status), text.replace("\\n", "\n").encode(), b""))


def examples(program):
    for name, blobs, vertices in EXAMPLES:
        with open(example(name), "rb") as file:
            data = file.read()
        certified = answered(f"ok blobs={blobs} vertices={vertices}\n")
        count(f"check {name}", run([program, "check", example(name)]), certified)
        # PostGIS makes boxes that are as small as their precision lets them be.
        count(f"tight {name}", run([program, "check", "--tight", example(name)]), certified)
        listed = run([program, "list", example(name)])
        count(f"list {name}", listed, answered(plain.rows(data)))
        rows = listed[1].decode().splitlines()
        count(f"rows of {name}", len(rows), blobs)
        told = sum(int(row.split(" vertices=")[1].split()[0]) for row in rows)
        count(f"vertices in the rows of {name}", told, vertices)
        windows = [(window, hits) for layer, window, hits in table("postgis.tsv") if layer == name]
        scans(program, name, data, windows)


def scans(program, name, data, windows):
    """Each window alone, and all of them, as many in a run as a run may have."""
    layer = example(name)
    for window, hits in windows:
        got = run([program, "scan", layer, window])
        count(f"scan {name} {window}", got, answered(plain.scan(data, [plain.window_of(window)])))
        count(f"hits of {name} {window}", got[1].decode().rpartition("hits=")[2].split(" ")[0], hits)
    for first in range(0, len(windows), GREATEST_WINDOWS):
        texts = [window for window, _ in windows[first : first + GREATEST_WINDOWS]]
        wanted = answered(plain.scan(data, [plain.window_of(text) for text in texts]))
        count(f"scan {name}, {len(texts)} windows", run([program, "scan", layer, *texts]), wanted)


def wider_boxes(program, folder):
    """Layers whose boxes are true and a degree too large: certified, loose, and scanned for eight windows to the same hits."""
    for name, blobs, vertices in EXAMPLES[1:]:
        with open(example(name), "rb") as file:
            data = widened(file.read(), 10**7)
        layer = written(folder, "wider.twkb", data)
        count(f"wider {name}", run([program, "check", layer]), answered(f"ok blobs={blobs} vertices={vertices}\n"))
        tight = run([program, "check", layer, "--tight"])
        count(f"wider {name}, tight", tight, answered(plain.check(data, tight=True)))
        count(f"wider {name}, loose", tight[1].endswith(b" kind=loose\n"), True)
        for window, hits in [(window, hits) for layer, window, hits in table("postgis.tsv") if layer == name][:8]:
            got = run([program, "scan", layer, window])
            count(f"wider {name} {window}", got[1].decode().rpartition("hits=")[2].split(" ")[0], hits)


def words_of_clap(program, layer):
    said = [
        ([], b"requires a subcommand"),
        (["report", layer], b"unrecognized subcommand 'report'"),
        (["check"], b"required arguments were not provided"),
        (["list"], b"required arguments were not provided"),
        (["scan"], b"required arguments were not provided"),
        (["scan", layer], b"required arguments were not provided"),
        (["check", layer, "other"], b"unexpected argument 'other' found"),
        (["list", layer, WINDOW], b"unexpected argument"),
        (["list", "--tight", layer], b"unexpected argument '--tight' found"),
        (["scan", layer, WINDOW, "--tight"], b"unexpected argument '--tight' found"),
        (["--help"], b"Check, list and scan layers: files of TWKB geometries\n"),
        (["--help"], b"Usage: twkb_tool <COMMAND>"),
        (["--version"], b"unexpected argument '--version' found"),
        (["-V"], b"unexpected argument '-V' found"),
        (["check", "--help"], b"Certify a layer, or name the first blob that is wrong, and where\n"),
        (["list", "--help"], b"List every blob: offset, length, type, precision, vertex count\n"),
        (["scan", "--help"], b"Find the blobs that have a vertex inside each window\n"),
        (["scan", "--help"], b"  x=A..B,y=C..D[,z=E..F][,m=G..H], both ends included\n"),
        (["check", "--help"], b"--tight  Also refuse boxes that are larger than they have to be\n"),
        (["check", "--help"], A_FILE),
        (["list", "--help"], A_FILE),
        (["scan", "--help"], A_FILE),
    ]
    for words, part in said:
        status, out, error = run([program] + words)
        count(f"usage: {words}", (status, out, part in error), (2, b"", True))


def windows_refused(program, layer, folder):
    form, order = changed.FORM, changed.ORDER
    swapped, other, full = "x=1..0,y=0..0", "x=1.,y=0..0", [WINDOW] * GREATEST_WINDOWS
    said = [
        ([other], b"window 1: " + form),
        ([swapped], b"window 1: " + order),
        (["x=1..0,y=z"], b"window 1: " + form),
        (["x=0..1,y=0..1,z=1..0"], b"window 1: " + order),
        (["x=0..1,y=0..1,m=0..1,z=0..1"], b"window 1: " + form),
        ([""], b"window 1: " + form),
        ([WINDOW, other, swapped], b"window 2: " + form),
        ([WINDOW, swapped, other], b"window 2: " + order),
        ([WINDOW, "x", *full[2:]], b"window 2: " + form),
        ([*full[1:], swapped], b"window 64: " + order),
        ([*full, WINDOW], b"more than 64 windows"),
        (["x", *full], b"more than 64 windows"),
    ]
    for windows, text in said:
        # The words are judged before the file is opened.
        for path in (layer, os.path.join(folder, "missing")):
            count(f"windows: {windows}", run([program, "scan", path, *windows]), fault(text, 2))
    count("64 windows", run([program, "scan", layer, *full]), answered(HIT * GREATEST_WINDOWS))


def files(program, folder):
    greatest = of_length(folder, "greatest", GREATEST_FILE)
    larger = of_length(folder, "larger", GREATEST_FILE + 1)
    for words, _ in COMMANDS:
        def on(path, **options):
            return run(command(program, words, path), **options)

        name = f"{words}: "
        count(name + "word that is no text", on(b"\xff"), fault(b"cannot read words"))
        count(name + "missing file", on(os.path.join(folder, "missing")), fault(b"cannot open file"))
        count(name + "directory", on(folder), fault(b"read failed"))
        count(name + "greatest file", on(greatest), answered("no blob=0 offset=0 kind=type\n"))
        count(name + "larger file", on(larger), fault(b"file too large"))
        count(name + "endless file", on("/dev/zero"), fault(b"file too large"))
        count(name + "too little memory", on(greatest, **limited(resource.RLIMIT_AS, 128 << 20)), fault(b"out of memory"))
    count("window that is no text", run([program, "scan", greatest, b"\xff"]), fault(b"cannot read words"))


def memory(program, folder):
    """Memory for the file, but not for a row or an entry of each of its blobs."""
    empty = bytes.fromhex("0110")
    blobs = 1 << 20
    layer = written(folder, "blobs.twkb", empty * blobs)
    little = limited(resource.RLIMIT_AS, 64 << 20)
    count("little memory, check", run([program, "check", layer], **little), answered(f"ok blobs={blobs} vertices=0\n"))
    count("little memory, list", run([program, "list", layer], **little), fault(b"out of memory"))
    count("little memory, scan", run([program, "scan", layer, WINDOW, WINDOW], **little), fault(b"out of memory"))
    hits = f"hits=0 read={2 * blobs} of={2 * blobs}\n"
    count("ample memory, scan", run([program, "scan", layer, WINDOW, WINDOW]), answered(hits * 2))


def rights(program, layer):
    """Root reads every file, so as root these runs are another user's."""
    other = {"preexec_fn": lambda: (os.setgid(NOBODY), os.setuid(NOBODY))} if os.getuid() == 0 else {}
    for words, text in COMMANDS:
        try:
            count(f"{words}: readable file", run(command(program, words, layer), **other), answered(text))
            os.chmod(layer, 0)
            count(f"{words}: unreadable file", run(command(program, words, layer), **other), fault(b"cannot open file"))
        except subprocess.SubprocessError:
            left_out("unreadable file: not tried, since root can't run it as another user here")
        os.chmod(layer, 0o644)


def pipes(program, data):
    """A file that gives its bytes one after another, as a pipe does."""
    for words, text in COMMANDS:
        reader, writer = os.pipe()
        slow = threading.Thread(target=trickle, args=(writer, data))
        slow.start()
        count(f"{words}: pipe as file", run(command(program, words, "/dev/stdin"), stdin=reader), answered(text))
        os.close(reader)
        slow.join()


def trickle(writer, data):
    with open(writer, "wb", buffering=0) as pipe:
        for byte in data:
            time.sleep(0.01)
            try:
                pipe.write(bytes([byte]))
            except BrokenPipeError:
                return


def outputs(program, folder, layer):
    for words, text in COMMANDS:
        on = command(program, words, layer)
        reader, writer = os.pipe()
        os.close(reader)
        count(f"{words}: closed pipe", run(on, stdout=writer), fault(b"write failed after 0 bytes", stdout=None))
        os.close(writer)
        with open("/dev/full", "wb") as full:
            count(f"{words}: full device", run(on, stdout=full), fault(b"write failed after 0 bytes", stdout=None))
        full_file(f"{words}: ", on, os.path.join(folder, "output"), 3, text.encode())
    lines = example("coast_lines_sized.twkb")
    with open(lines, "rb") as file:
        rows = plain.rows(file.read()).encode()
    full_file("long list: ", [program, "list", lines], os.path.join(folder, "output"), 100_000, rows)
    nothing = written(folder, "empty.twkb", b"")
    with open("/dev/full", "wb") as full:
        count("no row, full device", run([program, "list", nothing], stdout=full), (0, None, b""))


def full_file(name, words, path, room, text):
    """An output that has room for some bytes gets these, and the program says how many."""
    with open(path, "wb") as file:
        got = run(words, stdout=file, **limited(resource.RLIMIT_FSIZE, room))
    count(name + "full file", got, fault(b"write failed after %d bytes" % room, stdout=None))
    with open(path, "rb") as file:
        count(name + "what a full file holds", file.read(), text[:room])


def main():
    with tempfile.TemporaryDirectory() as folder:
        # A copy that another user may run too.
        os.chmod(folder, 0o755)
        built = sys.argv[1] if len(sys.argv) > 1 else os.path.join(TOP, "build", "twkb_tool")
        program = shutil.copy(built, os.path.join(folder, "twkb_tool"))
        layer = written(folder, "layer.twkb", POINT)
        cases(program, folder)
        examples(program)
        wider_boxes(program, folder)
        changed.layers(program, folder)
        changed.windows(program, layer, POINT)
        words_of_clap(program, layer)
        windows_refused(program, layer, folder)
        files(program, folder)
        memory(program, folder)
        rights(program, layer)
        pipes(program, POINT)
        outputs(program, folder, layer)
    print(f"{counts['passed']} passed, {counts['failed']} failed")
    sys.exit(counts["failed"] > 0)


main()
