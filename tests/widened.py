#!/usr/bin/env python3
"""Layers whose boxes are true and larger than they have to be, and what such boxes cost a scan.

usage: tests/widened.py PROGRAM LAYER DEGREES WINDOW..

Prints for each window how many bytes one scan for all of them reads of the layer, and how many of the layer with each
box of a blob DEGREES wider on each side of X and Y.
"""
import os
import re
import sys
import tempfile

import plain
from harness import TOP, run, written

sys.path.append(os.path.join(TOP, "bench"))
from layers import signed, varint

UNITS_A_DEGREE = 10**7


def box_bytes(head, units):
    """The box, `units` wider on each side in X and Y."""
    spelled = b""
    for axis in head.axes:
        low, high = head.box[axis]
        step, more = head.units(axis, 1), units if axis < 2 else 0
        least, greatest = (low - more) // step, (high + more) // step
        spelled += signed(least) + signed(greatest - least)
    return spelled


def widened(data, units):
    """The layer with wider boxes of its blobs; sizes are right again, and boxes inside of collections as they were."""
    wider = b""
    for blob in plain.blobs_of(data):
        head = blob.head
        box = box_bytes(head, units) if head.box is not None else b""
        behind = box + data[blob.body : blob.stop]
        size = varint(len(behind)) if head.size is not None else b""
        wider += data[blob.start : head.size_at] + size + behind
    return wider


def reads(program, layer, windows):
    return [int(read) for read in re.findall(rb" read=(\d+) ", run([program, "scan", layer, *windows])[1])]


def main():
    program, layer, degrees, *windows = sys.argv[1:]
    with open(layer, "rb") as file:
        data = file.read()
    with tempfile.TemporaryDirectory() as folder:
        wider = written(folder, "wider.twkb", widened(data, int(degrees) * UNITS_A_DEGREE))
        for window, tight, loose in zip(windows, reads(program, layer, windows), reads(program, wider, windows)):
            print(f"{window}: {tight} of {len(data)} bytes, and {loose} of {os.path.getsize(wider)} with wider boxes")


if __name__ == "__main__":
    main()
