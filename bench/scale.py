#!/usr/bin/env python3
"""Certifies 2,000 layers by xargs, GNU parallel and Dask, with 1, 2 and 4 processes, and prints tables for docs/SCALE.md.

usage: bench/scale.py TOOL [LAYERS]   (build/bindings/libtwkb.so is built; wants GNU parallel and Debian's python3-distributed)

It runs the scripts of examples/, as a user would, on a quiet machine. The layers are copies of examples under names of their
own, once as they are (small) and once joined to some 700 kB (large), in a folder in memory, so that no disk is measured.
Each run takes the time from the start of the script to its end, the start of a Dask cluster with it, by the clock and of the
processors; of three runs the quickest is kept. Other work on the machine makes the clock's time longer, and the processors' little.
A run that doesn't certify all layers ends it.
"""
import os
import resource
import shutil
import subprocess
import sys
import tempfile
import time

import layers

EXAMPLES = os.path.join(layers.TOP, "examples")
LAYERS = 2000
PROCESSES = (1, 2, 4)
RUNS = 3
# How many copies of an example a layer has.
SIZES = {"small": 1, "large": 12}
PYTHON = "/usr/bin/python3"
# The package without an engine, in one process and thread.
ALONE = """
import dozhemik, pathlib, sys
for path in pathlib.Path(sys.argv[1]).iterdir():
    print("ok blobs=", len(dozhemik.certify(path.read_bytes())))
"""


def write_layers(folder, copies, count):
    """Makes layers of two kinds by turns, each in a file of its own. Returns how many bytes they have."""
    kinds = [layers.example(name) * copies for name in ("coast_lines_sized", "coast_collections")]
    for number in range(count):
        with open(os.path.join(folder, f"{number}.twkb"), "wb") as file:
            file.write(kinds[number % 2])
    return sum(len(kinds[number % 2]) for number in range(count))


def engines(tool, folder, log):
    """The command of each engine for a number of processes, and what is set for it."""
    path = {"PATH": f"{os.path.dirname(tool)}:{os.environ['PATH']}"}
    python = {
        "PYTHONPATH": os.path.join(layers.TOP, "bindings", "python"),
        "TWKB_LIBRARY": os.path.join(layers.TOP, "build", "bindings", "libtwkb.so"),
        "PYTHONDONTWRITEBYTECODE": "1",
    }
    scripts = os.path.join(EXAMPLES, "scripts")
    yield "none: the package in one process", lambda some: [PYTHON, "-c", ALONE, folder] if some == 1 else None, python
    # xargs starts as many processes as nproc prints, which is the number of processors that it may use.
    yield "xargs", lambda some: ["taskset", "-c", f"0-{some - 1}", os.path.join(scripts, "certify_all.sh"), folder, tool], path
    if shutil.which("parallel"):
        yield "GNU parallel", lambda some: [os.path.join(scripts, "certify_parallel.sh"), folder, log], path
    yield "Dask", lambda some: [PYTHON, os.path.join(EXAMPLES, "dask_layers.py"), "--workers", str(some), folder], python


def processors():
    """The processor seconds of all processes that have ended."""
    used = resource.getrusage(resource.RUSAGE_CHILDREN)
    return used.ru_utime + used.ru_stime


def timed(command, more, count):
    """Seconds by the clock, and processor seconds."""
    start, used = time.perf_counter(), processors()
    done = subprocess.run(command, env=os.environ | more, capture_output=True, text=True)
    took = time.perf_counter() - start, processors() - used
    certified = done.stdout.count("ok blobs=")
    if (done.returncode, certified) != (0, count):
        sys.exit(f"{' '.join(command)} ended with {done.returncode}, {certified} certified: {done.stderr[-500:]}")
    return took


def row(name, some, runs, count, total):
    took, used = min(runs)
    shown = f"{took:.2f} | {used:.2f} | {count / took:,.0f} | {total / took / 1e9:.3f} | {total / used / 1e9:.3f}"
    print(f"| {name} | {some} | {shown} |", flush=True)


def main():
    tool, count = os.path.abspath(sys.argv[1]), int(sys.argv[2]) if len(sys.argv) > 2 else LAYERS
    for size, copies in SIZES.items():
        with tempfile.TemporaryDirectory(dir="/dev/shm") as place:
            folder = os.path.join(place, "layers")
            os.mkdir(folder)
            total = write_layers(folder, copies, count)
            print(f"\n{count:,} {size} layers, {total / 1e6:,.0f} MB together\n")
            print("| Engine | Processes | Time, s | Processors' time, s | Layers a second | GB a second | GB a second of a processor |")
            print("|---|---|---|---|---|---|---|")
            for name, command, more in engines(tool, folder, os.path.join(place, "log")):
                for some in filter(command, PROCESSES):
                    # GNU parallel takes more arguments from this variable.
                    own = {**more, "PARALLEL": f"--jobs {some}"}
                    row(name, some, [timed(command(some), own, count) for _ in range(RUNS)], count, total)


if __name__ == "__main__":
    main()
