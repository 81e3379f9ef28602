#!/usr/bin/env python3
"""Measures how much stack audits and scans of nested collections take.

usage: tests/stack.py [PROGRAM]   (by default build/twkb_tool)

The layers are a point in 0, 31 and 63 collections, which is certified, and two points there with equal ids, which are refused. For
each layer it prints the least stack limit, in steps of a page, with which `check`, `check --tight` and `scan` give their answers
TRIES times in a row, without environment variables. It tries often because the place where the stack begins varies. With gdb it
then reads the stack pointer at each call of the recursive functions for the deepest layers, and counts how often a scan enters its
loop over members.
"""
import os
import re
import resource
import shutil
import subprocess
import sys
import tempfile

from harness import TOP, counts, left_out, written

PAGE, TRIES = 4096, 20
WINDOW = "x=1..1,y=2..2"
# The geometry in the collections: a name, its bytes, and the exit status of the program.
POINTS = (("a point", "01000204", 0), ("points with equal ids", "040402020202040000", 1))
# The functions at which gdb reads the stack pointer, each with a name for its output.
ENTRIES = {"audit": "geometry::take_collection", "scan": "skimming::skim_members"}
READ = 'rbreak {}\ncommands\nsilent\nprintf "{} %ld\\n", (long)$rsp\ncont\nend\n'
WHERE = "set pagination off\n" + "".join(READ.format(function, name) for name, function in ENTRIES.items()) + "run\n"


def ends_well(words, limit, status):
    limited = {"preexec_fn": lambda: resource.setrlimit(resource.RLIMIT_STACK, (limit, limit))}
    return all(subprocess.run(words, capture_output=True, env={}, **limited).returncode == status for _ in range(TRIES))


def least(words, status):
    """Returns the least limit that is enough, by bisection."""
    low, high = 0, 1024
    while high - low > 1:
        middle = (low + high) // 2
        low, high = (low, middle) if ends_well(words, middle * PAGE, status) else (middle, high)
    return high * PAGE


def places(words, folder):
    """Returns a list of stack pointers for each of ENTRIES."""
    script = written(folder, "where.gdb", WHERE.encode())
    told = subprocess.run(["gdb", "-nx", "-batch", "-x", script, "--args", *words], capture_output=True, text=True).stdout
    return [[int(place) for place in re.findall(rf"^{step} (\d+)$", told, re.M)] for step in ENTRIES]


def main():
    program = os.path.abspath(sys.argv[1] if len(sys.argv) > 1 else os.path.join(TOP, "build", "twkb_tool"))
    with tempfile.TemporaryDirectory() as folder:
        deepest = []
        for point, spelled, status in POINTS:
            for collections in (0, 31, 63):
                layer = written(folder, f"layer{status}.twkb", bytes.fromhex("070001" * collections + spelled))
                runs = {"check": ["check", layer], "check --tight": ["check", "--tight", layer], "scan": ["scan", layer, WINDOW]}
                told = ", ".join(f"{name} {least([program, *words], status) // 1024} KiB" for name, words in runs.items())
                print(f"{point} inside {collections} collections: {told}")
            deepest.append(runs)
        if shutil.which("gdb"):
            certified, refused = deepest
            audit, scan = places([program, *certified["scan"]], folder)
            again, _ = places([program, *refused["check"]], folder)
            tight, _ = places([program, *certified["check --tight"]], folder)
            for name, entered in (("audit", audit), ("audit that refuses", again), ("tight audit", tight)):
                levels = {above - below for above, below in zip(entered, entered[1:])}
                print(f"{name}: {len(entered)} collections; how many bytes each is below the one before it: {sorted(levels)}")
            print(f"scan: goes over members {len(scan)} times")
        else:
            left_out("gdb is missing: apt-get install gdb; the stack of each step isn't read")
    sys.exit(counts["failed"] > 0)


main()
