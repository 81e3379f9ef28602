#!/usr/bin/env python3
"""Cuts and changes each worked file, and judges where the library says that what comes of it is malformed.

usage: tests/cuts.py   (over build/bindings/libtwkb.so, which `make library` and tests/bindings.py build)

The files are the layers of cases.tsv. Those that are one blob, be its claims true or false (`plain.is_blob`), are cut after each
of their bytes but the last, which has to be refused as cut in blob 0. In all files each byte is set to each of the 256 values.
Both checks are made of what comes of this. Where one names a malformation, the same bytes cut at its offset have to be refused
as cut, at that blob and offset; or, where the offset is the first byte of its blob, certified with as many blobs as come
before it. Of files of up to 64 bytes plain.py has to give the same answers.

These are more than two million calls, so they go to the library and not to the program, whose runs on changed layers are in
changed.py. Prints how often which kind was named, and last a line `N passed, M failed`; the status is 1 where any failed.
"""
import ctypes
import os
import sys

import plain
from harness import TOP, count, counts, table

os.environ.setdefault("TWKB_LIBRARY", os.path.join(TOP, "build", "bindings", "libtwkb.so"))
sys.path.insert(0, os.path.join(TOP, "bindings", "python"))
from dozhemik import _library

KINDS = ["ok", "cut", "varint", "type", "depth", "range", "size", "box", "ids", "loose"]
CUT, RANGE = 1, 5
# The checks, and whether they are tight; and the kinds that each of them has to name at least once.
CHECKS = [(_library.library.twkb_certify, False, range(1, 9)), (_library.library.twkb_certify_tight, True, range(1, 10))]
# How many worked files are one blob, and the longest of which plain.py is asked.
BLOBS, SHORT = 56, 64


class Room:
    """Bytes where the library finds them, so that one may be changed with no copy of the others."""

    def __init__(self, data):
        self.held = ctypes.create_string_buffer(data, len(data) + 1)
        self.bytes = ctypes.cast(self.held, ctypes.c_char_p)

    def verdict(self, check, length):
        """What a check says of the first bytes: the kind, 0 if they are certified, the blob and the offset, or how many blobs."""
        said = check(self.bytes, length)
        if said.answer == _library.CERTIFIED:
            return 0, said.blobs, said.vertices
        return said.kind if said.answer == _library.REFUSED else -1, said.blob, said.offset


def line_of(verdict):
    kind, first, second = verdict
    return f"no blob={first} offset={second} kind={KINDS[kind]}\n" if kind else f"ok blobs={first} vertices={second}\n"


class Judge:
    """What one check said of all files, and how often it named each kind; at some offsets the bytes before end with a blob."""

    def __init__(self, check, tight):
        self.check, self.tight = check, tight
        self.met, self.ended, self.faults = [0] * len(KINDS), 0, []

    def judge(self, room, length):
        verdict = room.verdict(self.check, length)
        kind, blob, offset = verdict
        if not 0 <= kind < len(KINDS):
            self.faults.append((room.held.raw[:length].hex(), verdict, "no answer"))
            return verdict
        self.met[kind] += 1
        if CUT <= kind <= RANGE:
            before = room.verdict(self.check, offset)
            if before[:2] == (0, blob):
                self.ended += 1
            elif before != (CUT, blob, offset):
                self.faults.append((room.held.raw[:length].hex(), verdict, before))
        return verdict

    def cuts(self, data):
        """The file cut after each of its bytes but the last."""
        room = Room(data)
        for length in range(1, len(data)):
            kind, blob, _ = self.judge(room, length)
            if (kind, blob) != (CUT, 0):
                self.faults.append((data[:length].hex(), kind, blob))

    def changes(self, data):
        """The file with each of its bytes set to each value."""
        room = Room(data)
        for place, byte in enumerate(data):
            for value in range(256):
                room.held[place] = value
                verdict = self.judge(room, len(data))
                if len(data) <= SHORT:
                    changed = data[:place] + bytes([value]) + data[place + 1 :]
                    if line_of(verdict) != plain.check(changed, self.tight):
                        self.faults.append((changed.hex(), verdict, plain.check(changed, self.tight)))
            room.held[place] = byte


def said_by_rows(blobs):
    """What the rows say has to be one blob is one, and what they say is none or more isn't."""
    for name, words, data, _, text in table("cases.tsv"):
        if words == "check FILE" and " kind=" not in text:
            count(f"{name}: one blob", data in blobs, text.startswith("ok blobs=1 "))
        elif text.rpartition("=")[2] in ("cut\\n", "varint\\n", "type\\n", "depth\\n", "range\\n"):
            count(f"{name}: no blob", data in blobs, False)


def main():
    files = {data: bytes.fromhex(data) for data in sorted({row[2] for row in table("cases.tsv")})}
    blobs = [data for data in files if plain.is_blob(files[data])]
    count("files of one blob", len(blobs), BLOBS)
    said_by_rows(blobs)
    for check, tight, kinds in CHECKS:
        judge = Judge(check, tight)
        for data in blobs:
            judge.cuts(files[data])
        for data in files.values():
            judge.changes(data)
        name = "tight check" if tight else "check"
        print(f"{name}: " + ", ".join(f"{number} {kind}" for kind, number in zip(KINDS, judge.met)))
        print(f"{name}: {judge.ended} malformations at the first byte of a blob")
        count(f"{name}: answers that are wrong", judge.faults[:10], [])
        judged = sum(len(files[data]) - 1 for data in blobs) + 256 * sum(map(len, files.values()))
        count(f"{name}: how many were judged", sum(judge.met), judged)
        count(f"{name}: kinds that were never named", [KINDS[kind] for kind in kinds if not judge.met[kind]], [])
        count(f"{name}: some malformations are at the first byte of a blob", 0 < judge.ended < sum(judge.met[1:6]), True)
    print(f"{counts['passed']} passed, {counts['failed']} failed")
    sys.exit(counts["failed"] > 0)


main()
