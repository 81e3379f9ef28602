#!/usr/bin/env python3
"""Builds the module for the web, and compares it with the native library and with the plain second program.

usage: tests/web.py [--all]   (rt of the kit in PATH; wasm-opt, node of Node 16 or later, and gcc)

The small layers of cases.tsv and the examples go through bindings/web/cases.mjs, which takes the program's words and has to
print its text; of the examples the vertices too, which have to be plain.py's. Then come verdicts on fronts of an
example, and on it with a byte changed: each has to be the native one. With --all these are more than half a million, else
some tens of thousands. Long lists of ids are tried in too little room for them too. Prints each difference, and last a
line `N passed, M failed`; the status is 1 where any failed.
"""
import ctypes
import os
import shutil
import subprocess
import sys
import tempfile

import plain
from harness import TOP, count, counts, left_out, run, table, written

WEB = os.path.join(TOP, "bindings", "web")
MODULE = os.path.join(TOP, "build", "web", "twkb_web.wasm")
SHARED = os.path.join(TOP, "build", "bindings", "libtwkb.so")
EXAMPLES = ["points_sized.twkb", "coast_lines_sized.twkb", "coast_collections.twkb", "coast_z.twkb"]
KINDS = ["", "cut", "varint", "type", "depth", "range", "size", "box", "ids", "loose"]
MINUTES = 10 * 60
NEEDS = {"wasm-opt": "apt-get install binaryen", "node": "apt-get install nodejs"}


class Verdict(ctypes.Structure):
    _fields_ = [("answer", ctypes.c_uint32), ("kind", ctypes.c_uint32)] + [
        (name, ctypes.c_size_t) for name in ("blobs", "vertices", "blob", "offset")
    ]


def native():
    """What certifies bytes natively, and answers a line."""
    certify = ctypes.CDLL(SHARED).twkb_certify
    certify.restype, certify.argtypes = Verdict, [ctypes.c_char_p, ctypes.c_size_t]

    def line(data):
        v = certify(data, len(data))
        return f"ok {v.blobs} {v.vertices}" if v.answer == 0 else f"no {v.blob} {v.offset} {KINDS[v.kind]}"

    return line


def driven(*words):
    return run(["node", os.path.join(WEB, "cases.mjs"), MODULE, *words])


def example(name):
    with open(os.path.join(TOP, "examples", name), "rb") as file:
        return file.read()


def test_cases(folder):
    """Small layers, but for scans for several windows, which go by a directory, and for words that ask for nothing."""
    for number, (name, words, data, status, text) in enumerate(table("cases.tsv")):
        if int(status) > 1 or words.count("x=") > 1:
            continue
        path = written(folder, f"case{number}.twkb", bytes.fromhex(data))
        got = driven(*words.replace("FILE", path).split(" "))
        count(f"{name}: {words}", got[:2], (int(status), text.replace("\\n", "\n").encode()))


def multipoint(ids):
    """A multipoint of points at (0 0) with these ids from 0 to 63."""
    size = len(ids)
    number = bytes([size]) if size < 128 else bytes([size % 128 | 128, size // 128])
    return bytes([0x04, 0x04]) + number + bytes(2 * one for one in ids) + bytes(2 * size)


def test_room_for_ids(folder):
    """Sixteen ids want no room. Where there are more, a list that doesn't rise wants a place for each, or memory is wanted."""
    falling, equal = list(range(63, -1, -1)), [*range(39, -1, -1), 39]
    tried = [
        ("sixteen that fall", falling[:16], [0, 16], [], "ok blobs=1 vertices=16\n"),
        ("seventeen that fall", falling[:17], [17, 18, 100], [0, 15, 16], "ok blobs=1 vertices=17\n"),
        ("sixty-four that fall", falling, [64, 65], [16, 17, 63], "ok blobs=1 vertices=64\n"),
        ("forty-one of which two are equal", equal, [41, 1000], [0, 40], "no blob=0 offset=3 kind=ids\n"),
    ]
    for name, ids, enough, short, text in tried:
        path = written(folder, "ids.twkb", multipoint(ids))
        for words in (["check"], ["check", "--tight"]):
            for places in enough:
                got = driven(*words, path, str(places))[:2]
                count(f"{' '.join(words)}, {name}, room for {places}", got, (int(text.startswith("no")), text.encode()))
            for places in short:
                got = driven(*words, path, str(places))
                count(f"{' '.join(words)}, {name}, room for {places}", got, (3, b"", b"cases: out of memory\n"))


def test_examples():
    windows = [row[:2] for row in table("postgis.tsv")][::8]
    for name in EXAMPLES:
        path, data = os.path.join(TOP, "examples", name), example(name)
        count(f"check {name}", driven("check", path)[:2], (0, plain.check(data).encode()))
        count(f"list {name}", driven("list", path)[:2], (0, plain.rows(data).encode()))
        once = "".join(f"{v[0]} {v[1]}\n" for blob in plain.blobs_of(data) for v in blob.vertices)
        count(f"vertices of {name}", driven("vertices", path)[:2], (0, 2 * once.encode()))
        tight = plain.check(data, tight=True)
        count(f"check --tight {name}", driven("check", "--tight", path)[:2], (int(tight.startswith("no")), tight.encode()))
        for layer, window in windows:
            if layer == name:
                wanted = plain.scan(data, [plain.window_of(window)])
                count(f"scan {name} {window}", driven("scan", path, window)[:2], (0, wanted.encode()))


def variants(data, step):
    for end in range(len(data) + 1):
        yield data[:end]
    for place in range(len(data)):
        for value in range(place % step, 256, step):
            yield data[:place] + bytes([value]) + data[place + 1 :]


def test_verdicts(name, length, step):
    """Each verdict is the native one."""
    words = ["node", os.path.join(WEB, "verdicts.mjs"), MODULE, os.path.join(TOP, "examples", name), str(length), str(step)]
    told = subprocess.run(words, capture_output=True, text=True, timeout=MINUTES, check=True).stdout.splitlines()
    line, differ = native(), []
    tried = list(variants(example(name)[:length], step))
    for number, (got, data) in enumerate(zip(told, tried)):
        wanted = line(data)
        if got != wanted:
            differ.append((number, got, wanted))
    print(f"{name}: {len(tried)} verdicts")
    count(f"verdicts on {name}", (len(told), differ[:5]), (len(tried), []))


def main(words):
    for tool, how in NEEDS.items():
        if not shutil.which(tool):
            left_out(f"{tool} is missing: {how}; the tests of the web are left out")
            return int(counts["failed"] > 0)
    for build in (os.path.join(WEB, "build.sh"), os.path.join(TOP, "bindings", "build.sh")):
        done = subprocess.run([build], stdout=subprocess.PIPE, stderr=subprocess.STDOUT, timeout=MINUTES)
        count(build, (done.returncode, b"" if done.returncode == 0 else done.stdout[-3000:]), (0, b""))
    if not counts["failed"]:
        with tempfile.TemporaryDirectory() as folder:
            test_cases(folder)
            test_room_for_ids(folder)
        test_examples()
        test_verdicts("coast_z.twkb", 2000, 1 if "--all" in words else 16)
        test_verdicts("coast_collections.twkb", 1000, 1 if "--all" in words else 16)
    print(f"{counts['passed']} passed, {counts['failed']} failed")
    return int(counts["failed"] > 0)


if __name__ == "__main__":
    sys.exit(main(sys.argv[1:]))
