#!/usr/bin/env python3
"""Draws how many bytes scans of the shoreline lines read for windows all over the world: docs/hops.svg.

usage: bench/hops.py [PROGRAM]   (build/twkb_tool where it is left out)

The windows are grids of squares of several sizes. Each is looked for alone, and then all in runs of 64, for which the
program keeps a directory of the blobs. How much is read, the program says after `read=`. Prints the means too.
"""
import os
import re
import statistics
import subprocess
import sys
from concurrent.futures import ThreadPoolExecutor

import layers
import plots

LAYER = os.path.join(layers.TOP, "examples", "coast_lines_sized.twkb")
SIDES = [5, 10, 15, 30, 45, 60, 90, 180]
MOST_WINDOWS = 64


def grid(side):
    return [f"x={x}..{x + side},y={y}..{y + side}" for y in range(-90, 90, side) for x in range(-180, 180, side)]


def read_for(program, windows):
    """The bytes that a run reads for each of its windows."""
    done = subprocess.run([program, "scan", LAYER, *windows], capture_output=True, text=True, check=True)
    return [int(read) for read in re.findall(r"^hits=\d+ read=(\d+) of=", done.stdout, re.MULTILINE)]


def in_runs(program, windows, length):
    """The bytes read for each window, in runs of `length` windows."""
    runs = [windows[first : first + length] for first in range(0, len(windows), length)]
    with ThreadPoolExecutor(os.cpu_count()) as pool:
        return [read for reads in pool.map(lambda run: read_for(program, run), runs) for read in reads]


def main():
    program = os.path.abspath(sys.argv[1]) if len(sys.argv) > 1 else os.path.join(layers.TOP, "build", "twkb_tool")
    size = os.path.getsize(LAYER)
    curves = {"without hops: the whole file": [], "hops, one window a run": [], "hops with a directory, up to 64 windows a run": []}
    for side in SIDES:
        windows = grid(side)
        # A last run of one window would be one without a directory.
        assert len(windows) % MOST_WINDOWS != 1
        reads = [[size], in_runs(program, windows, 1), in_runs(program, windows, MOST_WINDOWS)]
        for (name, points), values in zip(curves.items(), reads):
            points.append((min(values) / 1000, statistics.mean(values) / 1000, max(values) / 1000))
            print(f"{side} degrees, {name}: {statistics.mean(values):.0f} bytes on average of {len(windows)} windows, of {size}")
    plots.curves(
        os.path.join(layers.TOP, "docs", "hops.svg"),
        "Bytes read for a window: average, and from least to most",
        "side of the window, in degrees, anywhere on the world's shorelines",
        [str(side) for side in SIDES],
        curves,
    )


main()
