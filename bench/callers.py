#!/usr/bin/env python3
"""Runs the same work through C, Rust, Python and the program, in one run, and prints a table of times and ratios.

usage: bench/callers.py TOOL [RUNS]   (bindings/build.sh has built the library; wants gcc, cargo and python3)

On 40 MB of lines and of the mix: certifying, listing, a directory, and a thousand windows, with a directory and without. With a
directory the windows are scanned for in one call, and once more in a call for each. Then calls on a layer of seven bytes. Python
lists into a table, and once more into an object for each row, and scans for the windows by four threads too. The program reads
and certifies its file in each run, and takes 64 windows at most. So a thousand windows are sixteen runs of it, each of which makes
a directory and puts its hits as text. All take turns, of each the best time of RUNS is kept, and the ratios are over C. Where two
answers differ, the run fails. It fails, too, where a thousand windows by a directory take Rust or Python more than 1.1 times C, or
a table takes more than 1.5 times: the machine has to be quiet for that.
"""
import os
import re
import subprocess
import sys
import tempfile

import layers
import programs
from programs import Times, field, the_same

BINDINGS = os.path.join(layers.TOP, "bindings")
LIBRARY = os.path.join(layers.TOP, "build", "bindings")
WINDOWS, AT_ONCE = 1000, 64
SCANS = [f"scan, {WINDOWS} windows", f"directory scan, {WINDOWS} windows"]
# The windows of a directory scan, in a call for each.
ALONE = f"directory scan one by one, {WINDOWS} windows"
STEPS = ["certify", "list", SCANS[0], "directory", SCANS[1], ALONE]
# What Python has beside, and what it is compared with in C.
MORE = {"list, an object a row": "list"}
# Four threads scan about four times as much as one if four processors are idle, and about as much as four processes anyway.
THREADS = "directory scan by 4 threads, to one", "directory scan by 4 threads, to 4 processes"
# How many times C a step may take in a language.
MOST = {("list", "Python"): 1.5, (SCANS[1], "Rust"): 1.1, (SCANS[1], "Python"): 1.1}
CALLS = ["certify, a call on seven bytes", "scan, a call on seven bytes"]
LANGUAGES = ["C", "Rust", "Python", "the program"]


def tile(number):
    """The window that the bench programs of each language call the tile of this number."""
    x, y = 9 * (number % 40) - 180, 7 * (number // 40) - 90
    return f"x={x}..{x + 9},y={y}..{y + 7}"


def built(folder):
    """The commands of the three languages, by language."""
    c = os.path.join(folder, "bench")
    archive = os.path.join(LIBRARY, "libtwkb.a")
    subprocess.run(["gcc", "-std=c11", "-O2", os.path.join(BINDINGS, "c", "bench.c"), archive, "-o", c], check=True)
    os.environ.update(TWKB_LIB=LIBRARY, TWKB_LIBRARY=os.path.join(LIBRARY, "libtwkb.so"), PYTHONDONTWRITEBYTECODE="1",
                      CARGO_TARGET_DIR=os.path.join(folder, "cargo"))
    cargo = ["cargo", "build", "--release", "--example", "bench", "--offline", "--quiet"]
    subprocess.run(cargo, check=True, cwd=os.path.join(BINDINGS, "rust"))
    return {
        "C": [c],
        "Rust": [os.path.join(folder, "cargo", "release", "examples", "bench")],
        "Python": [sys.executable, os.path.join(BINDINGS, "python", "tests", "bench.py")],
    }


def note(bests, language, command):
    """One run of a bench program: a line a step, with its time and then what was found."""
    for line in programs.run(command)[0]:
        title, time, answer = re.fullmatch(r"(.*): (\S+) (?:[mn]s|times),?(.*)", line).groups()
        title = title.replace(" into a room", "")
        # What a step finds is compared where each language says it.
        bests.setdefault((title, language), Times()).note(float(time), answer if title in ("certify", *SCANS, ALONE) else "")


def note_program(bests, tool, layer):
    """Certifying, listing and scanning by whole runs of the program."""
    (line,), seconds, _ = programs.run([tool, "check", layer])
    blobs, vertices = field(line, "blobs"), field(line, "vertices")
    bests.setdefault(("certify", "the program"), Times()).note(1000 * seconds, f" {blobs} blobs, {vertices} vertices")
    _, seconds, _ = programs.run([tool, "list", layer])
    bests.setdefault(("list", "the program"), Times()).note(1000 * seconds, "")
    hits = read = milliseconds = 0
    windows = [tile(number) for number in range(WINDOWS)]
    for first in range(0, WINDOWS, AT_ONCE):
        lines, seconds, _ = programs.run([tool, "scan", layer, *windows[first : first + AT_ONCE]])
        ends = [line for line in lines if line.startswith("hits=")]
        hits += sum(int(field(line, "hits")) for line in ends)
        read += sum(int(field(line, "read")) for line in ends)
        milliseconds += 1000 * seconds
    bests.setdefault((SCANS[1], "the program"), Times()).note(milliseconds, f" {hits} hits, {read} bytes read")


def row(title, kind, unit, bests):
    """A row of the table: times, and ratios to C. Returns the steps that take longer than they may."""
    over = bests[MORE.get(title, title), "C"].best
    times = [bests[title, language].best if (title, language) in bests else None for language in LANGUAGES]
    ratios = {language: time / over for language, time in zip(LANGUAGES, times) if time is not None}
    shown = ["" if time is None else f"{time:,.1f}" for time in times]
    shown += [f"{ratios[language]:.2f}" if language in ratios else "" for language in LANGUAGES[1:]]
    print("| " + " | ".join([title, kind, unit, *shown]) + " |")
    return [f"{title}, {kind}: {language} takes {ratio:.2f} times C, more than {MOST[title, language]}"
            for language, ratio in ratios.items() if ratio > MOST.get((title, language), ratio)]


def main():
    tool, runs = os.path.abspath(sys.argv[1]), int(sys.argv[2]) if len(sys.argv) > 2 else 2
    print("| Work | Layer | |" + "".join(f" {name} |" for name in LANGUAGES)
          + "".join(f" {name} to C |" for name in LANGUAGES[1:]))
    print("|---" * (2 + 2 * len(LANGUAGES)) + "|")
    slow = []
    with tempfile.TemporaryDirectory() as folder:
        commands, calls = built(folder), {}
        for kind in ("lines", "the mix"):
            layer, _ = layers.write_layer(folder, kind, 40_000_000)
            bests = {}
            for _ in range(runs):
                for language, command in commands.items():
                    note(bests, language, [*command, layer])
                note_program(bests, tool, layer)
            for steps in (["certify"], [SCANS[0]], [SCANS[1], ALONE]):
                the_same(*(times for (title, _), times in bests.items() if title in steps))
            for step in (*STEPS, *MORE):
                slow += row(step, kind, "ms", bests)
            for title in THREADS:
                print(f"| {title} | {kind} | times | | | {max(bests[title, 'Python'].taken):.2f} | | | | |")
            os.remove(layer)
            for key, times in bests.items():
                calls.setdefault(key, Times()).note(times.best, "")
        for step in CALLS:
            row(step, "", "ns", calls)
    for line in slow:
        print(line, file=sys.stderr)
    sys.exit(len(slow) > 0)


main()
