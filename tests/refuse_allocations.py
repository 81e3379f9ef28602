#!/usr/bin/env python3
"""Refuses each call for memory of whole runs of the program in turn, also while it reads its words.

usage: tests/refuse_allocations.py PROGRAM   (needs gcc, which makes the library of tests/refuse.c)

The library is loaded before the C library, so it is the built program itself that is refused. Which call has to be answered
in which way is known before the run (`wanted`): those that fetch the words end it with `cannot read words`, all after them
with `out of memory`, each with status 3, that one line on standard error and nothing put; and the one call between, which
asks for room ahead, changes nothing. Prints for each run how many calls it has. The last line is `N refused, M failed`; the
status is 1 where any failed.
"""
import os
import subprocess
import sys
import tempfile

HERE = os.path.dirname(os.path.abspath(__file__))

# A line from 1 1 to 5 5, the same with a box from 0 1, a point cut before its first number, and what is known of them.
LINE = bytes.fromhex("02000202020808")
LOOSE = bytes.fromhex("0201000A02080202020808")
ROW = "blob=0 offset=0 bytes=7 type=linestring precision=0 vertices=2 size=no box=no\n"
HIT = "hit blob=0 offset=0\nhits=1 read=7 of=7\n"
NO_HIT = "hits=0 read=7 of=7\n"
CUT = bytes.fromhex("0100")

# The words, and the status, the text and the lines on standard error of their run. Some stop once the words are read, as no
# file is there, and some before that: where a window is none, where there are too many, and where clap refuses them and
# makes a text of its own, of which nothing is asked but that there is one.
INSIDE, OUTSIDE = "x=1..1,y=1..1", "x=-0.5..0.0000001,y=1..1"
NO_FILE, BY_CLAP = ["twkb_tool: cannot open file"], None
RUNS = [
    (["check", "line"], 0, "ok blobs=1 vertices=2\n", []),
    (["check", "./" * 300 + "line"], 0, "ok blobs=1 vertices=2\n", []),
    (["check", "cut"], 1, "no blob=0 offset=2 kind=cut\n", []),
    (["check", "--tight", "line"], 0, "ok blobs=1 vertices=2\n", []),
    (["check", "--tight", "loose"], 1, "no blob=0 offset=2 kind=loose\n", []),
    (["list", "line"], 0, ROW, []),
    (["scan", "line", INSIDE], 0, HIT, []),
    (["scan", "line", OUTSIDE], 0, NO_HIT, []),
    (["scan", "line", INSIDE, INSIDE], 0, HIT + HIT, []),
    (["scan", "line", *[INSIDE] * 14], 0, HIT * 14, []),
    (["list", "none"], 3, "", NO_FILE),
    (["scan", "none", INSIDE, OUTSIDE], 3, "", NO_FILE),
    (["scan", "none", INSIDE, "x=1..0,y=0..0"], 2, "", ["twkb_tool: window 2: lower bound above upper bound"]),
    (["scan", "none", *[INSIDE] * 65], 2, "", ["twkb_tool: more than 64 windows"]),
    (["scan", "none"], 2, "", BY_CLAP),
    (["--help"], 2, "", BY_CLAP),
    ([], 2, "", BY_CLAP),
]

# How the words are fetched: each into room of its own, which is doubled until the word fits, and after the last one room to
# see that there is none more. The list of them grows with the first and with those that find all its places taken.
ROOM, GROWTHS = 256, {0, 4, 8, 16, 32, 64}
WORDS, MEMORY = "twkb_tool: cannot read words", "twkb_tool: out of memory"


def fetching(words):
    """How many calls for memory it takes to fetch the words, the program's name among them."""
    rooms = sum(1 + sum(ROOM << doubled < len(word) for doubled in range(8)) for word in [*words, ""])
    return rooms + sum(place in GROWTHS for place in range(len(words)))


def wanted(words, answer, calls):
    """What the run has to give where each of its calls is refused, in order: status, text and lines on standard error.

    After the words are fetched, their list is put into a list of the program's own. It asks for its places ahead, and
    where these are refused for each as it comes. Opening a file takes no memory. So all else is asked for by reading the
    words, and then by the run.
    """
    fetched = fetching(["twkb_tool", *words])
    return [(3, "", [WORDS])] * fetched + [answer] + [(3, "", [MEMORY])] * (calls - fetched - 1)


class Refuser:
    """The program, and the library that refuses it a call."""

    def __init__(self, program, folder):
        self.program = os.path.abspath(program)
        self.folder = folder
        self.library = os.path.join(folder, "refuse.so")
        source = os.path.join(HERE, "refuse.c")
        subprocess.run(["gcc", "-shared", "-fPIC", "-O1", "-o", self.library, source], check=True)

    def run(self, words, call):
        """The status, the text and the lines on standard error of a run that is refused this call; and its calls."""
        counted, counts = os.pipe()
        variables = {"LD_PRELOAD": self.library, "REFUSED": str(call), "COUNT": str(counts)}
        done = subprocess.run(
            ["twkb_tool", *words],
            executable=self.program,
            cwd=self.folder,
            env=variables,
            pass_fds=[counts],
            capture_output=True,
            text=True,
        )
        os.close(counts)
        with os.fdopen(counted) as told:
            count = int(told.read() or 0)
        return (done.returncode, done.stdout, done.stderr.splitlines()), count


def refuse_each(refuser, words, status, text, lines):
    """How many calls were refused, and what failed."""
    answer, calls = refuser.run(words, 0)
    said = lines if lines is not BY_CLAP else answer[2] or "a text"
    faults = [] if answer == (status, text, said) and calls > 0 else [f"with all its memory, {calls} calls: {answer}"]
    for call, right in enumerate(wanted(words, answer, calls), 1):
        other, count = refuser.run(words, call)
        if count < call:
            faults.append(f"call {call} never came")
        if other != right:
            faults.append(f"call {call}: wanted {right}, got {other}")
    return calls, faults


def shown(words):
    """The words as they are printed, long ones and many of them cut short."""
    return " ".join(word if len(word) < 40 else f"{word[:8]}..{word[-8:]}" for word in words[:5]) + " .." * (len(words) > 5)


def main():
    if len(sys.argv) != 2:
        sys.exit("usage: tests/refuse_allocations.py PROGRAM")
    refused = failed = 0
    with tempfile.TemporaryDirectory(prefix="refused-") as folder:
        for name, data in [("line", LINE), ("loose", LOOSE), ("cut", CUT)]:
            with open(os.path.join(folder, name), "wb") as file:
                file.write(data)
        refuser = Refuser(sys.argv[1], folder)
        for words, status, text, lines in RUNS:
            calls, faults = refuse_each(refuser, words, status, text, lines)
            print(f"{shown(words)}: {calls} calls refused", flush=True)
            for fault in faults:
                print(f"    FAILED: {fault}", flush=True)
            refused += calls
            failed += len(faults)
    print(f"{refused} refused, {failed} failed")
    sys.exit(failed > 0)


main()
