#!/usr/bin/env python3
"""Compares the built program and the C library with plain.py on layers made at random, for as long as is wanted.

usage: tests/fuzz.py PROGRAM [SECONDS] [SEED]   (60 seconds, and a seed of the clock; needs gcc and build/bindings/libtwkb.a)

Layers and windows are made by made.py. On each layer the program runs all its commands. The library is called by
bindings/c/fuzz.c, built with the sanitizers, whose bytes and rooms end at a page that nobody may touch: both checks, rows, and
each window by a scan and by a directory, those upside down too, which the program has to refuse. All windows in one call have to
get what each gets. Layer N of a seed is always the same. A layer on which anything differs is kept in build/fuzz, as a file, with
another beside it that says what differs. Prints the seed and what was tried, and last a line `N layers, M differ`; the status is
1 where any does.
"""
import os
import random
import shutil
import struct
import subprocess
import sys
import tempfile
import time

import made
import plain
from changed import ORDER
from harness import TOP, answered, fault, run, written

KEPT = os.path.join(TOP, "build", "fuzz")
ARCHIVE = os.environ.get("TWKB_ARCHIVE", os.path.join(TOP, "build", "bindings", "libtwkb.a"))
DRIVER = os.path.join(TOP, "bindings", "c", "fuzz.c")
GCC = ["gcc", "-std=c11", "-Wall", "-Wextra", "-Wpedantic", "-Werror", "-O1", "-g"]
# After this many layers that differ the run ends before its time.
ENOUGH = 20
SANITIZED = ["-fsanitize=address,undefined", "-fno-sanitize-recover"]


class Library:
    """The driver of the library, which answers layer after layer."""

    def __init__(self, folder):
        self.program = os.path.join(folder, "fuzz")
        subprocess.run([*GCC, *SANITIZED, DRIVER, ARCHIVE, "-o", self.program], check=True)
        self.errors = open(os.path.join(folder, "errors"), "w+")
        self.start()

    def start(self):
        self.driver = subprocess.Popen(
            [self.program], stdin=subprocess.PIPE, stdout=subprocess.PIPE, stderr=self.errors, text=False
        )

    def answer(self, data, windows, room):
        """The text of a layer; where the driver ends before its last line, what it said on standard error too."""
        asked = struct.pack("=I", len(data)) + data + struct.pack("=II", room, len(windows))
        for window in windows:
            text = made.text_of(window).encode()
            asked += packed(window) + struct.pack("=I", len(text)) + text
        text = ""
        try:
            self.driver.stdin.write(asked)
            self.driver.stdin.flush()
        except BrokenPipeError:
            pass
        for line in self.driver.stdout:
            if line == b"end\n":
                return text
            text += line.decode()
        return text + self.stopped()

    def stopped(self):
        status = self.driver.wait()
        self.errors.seek(0)
        said = f"the driver ended with {status}: {self.errors.read()[:3000]}\n"
        self.start()
        return said

    def end(self):
        """What is wrong at the end, such as memory that nobody freed."""
        self.driver.stdin.close()
        return self.stopped() if self.driver.wait() != 0 else ""


def packed(window):
    """A window as the library takes it."""
    spans = [span or (0, 0) for span in window]
    words = [part for span in spans for end in span for part in (end % 2**64, end >> 64)]
    return struct.pack("=" + "Qq" * 8, *words) + bytes([window[2] is not None, window[3] is not None]) + bytes(6)


def of_library(data, windows, room):
    """What the library has to say."""
    said = plain.check(data) + plain.check(data, tight=True)
    if not plain.check(data).startswith("no "):
        blobs = plain.blobs_of(data)
        said += plain.rows(data)
        for window in windows:
            for with_directory in (False, True):
                *hits, end = plain.found(blobs, len(data), window, with_directory).splitlines(keepends=True)
                said += "".join(hits[:room]) + end
    return said + "".join("2 other\n" if made.is_upside_down(window) else "0 same\n" for window in windows)


def of_program(data, windows):
    """The words of each run of the program, and what it has to give."""
    texts = [made.text_of(window) for window in windows]
    yield ["check", "FILE"], answered(plain.check(data))
    yield ["check", "--tight", "FILE"], answered(plain.check(data, tight=True))
    yield ["list", "FILE"], answered(plain.rows(data))
    for count in sorted({1, len(windows)}):
        bad = [number for number, window in enumerate(windows[:count], 1) if made.is_upside_down(window)]
        refused = fault(b"window %d: " % bad[0] + ORDER, 2) if bad else None
        yield ["scan", "FILE", *texts[:count]], refused or answered(plain.scan(data, windows[:count]))


class Fuzz:
    def __init__(self, program, seed, folder):
        self.program, self.seed, self.folder = program, seed, folder
        self.library = Library(folder)
        self.tried = dict.fromkeys(["layers", "certified", "tight", "bytes", "windows", "upside down", "runs"], 0)
        self.kinds, self.differ = {}, 0

    def layer(self, number):
        """One layer, by the program and by the library."""
        chance = random.Random(f"{self.seed}/{number}")
        data = made.layer(chance)
        windows = made.windows(data, chance)
        self.count(data, windows)
        room = chance.choice([0, 1, 3, 1000])
        wrong = [("the library", of_library(data, windows, room), self.library.answer(data, windows, room))]
        path = written(self.folder, "layer.twkb", data)
        for words, wanted in of_program(data, windows):
            wrong.append((words, wanted, run([self.program, *[path if word == "FILE" else word for word in words]])))
            self.tried["runs"] += 1
        wrong = [(words, wanted, got) for words, wanted, got in wrong if wanted != got]
        if wrong:
            self.keep(number, data, windows, wrong)

    def count(self, data, windows):
        said = plain.check(data), plain.check(data, tight=True)
        self.tried["layers"] += 1
        self.tried["certified"] += said[0].startswith("ok ")
        self.tried["tight"] += said[1].startswith("ok ")
        self.tried["bytes"] += len(data)
        self.tried["windows"] += len(windows)
        self.tried["upside down"] += sum(map(made.is_upside_down, windows))
        for kind in {line.rpartition("=")[2].strip() for line in said if line.startswith("no ")}:
            self.kinds[kind] = self.kinds.get(kind, 0) + 1

    def keep(self, number, data, windows, wrong):
        self.differ += 1
        os.makedirs(KEPT, exist_ok=True)
        path = written(KEPT, f"{self.seed}_{number}.twkb", data)
        texts = "".join(f"{made.text_of(window)}\n" for window in windows)
        told = "".join(f"{words}\n  wanted {wanted}\n  got    {got}\n" for words, wanted, got in wrong)
        written(KEPT, f"{self.seed}_{number}.txt", (texts + told).encode())
        print(f"layer {number} differs: {path}\n{told}", flush=True)


def main():
    if not 2 <= len(sys.argv) <= 4:
        sys.exit("usage: tests/fuzz.py PROGRAM [SECONDS] [SEED]")
    seconds = float(sys.argv[2]) if len(sys.argv) > 2 else 60
    seed = sys.argv[3] if len(sys.argv) > 3 else str(time.time_ns() % 10**9)
    print(f"seed {seed}, {seconds:g} seconds", flush=True)
    stop = time.monotonic() + seconds
    with tempfile.TemporaryDirectory(prefix="fuzz-") as folder:
        # A copy, so that the program may be built anew meanwhile.
        fuzz = Fuzz(shutil.copy(sys.argv[1], os.path.join(folder, "twkb_tool")), seed, folder)
        number = 0
        while number == 0 or time.monotonic() < stop and fuzz.differ < ENOUGH:
            fuzz.layer(number)
            number += 1
        leaked = fuzz.library.end()
    print(", ".join(f"{count} {name}" for name, count in fuzz.tried.items()))
    print("refused as " + ", ".join(f"{kind} {count}" for kind, count in sorted(fuzz.kinds.items())))
    print(leaked, end="")
    print(f"{fuzz.tried['layers']} layers, {fuzz.differ} differ")
    sys.exit(fuzz.differ > 0 or leaked != "")


main()
