#!/usr/bin/env python3
"""Checks a layer by the built program, or else by one that is compiled without any proof.

usage: tools/try.py FILE   (rt of the Rattle kit in PATH)

build/twkb_tool is taken if it is of the crates as they are. Else `rt try` compiles a program that stops at some broken contracts,
which is kept in build/try until the crates change. Standard output has what the program prints, and the status is the program's:
3 too if nothing was judged, because nothing could be compiled or the program was stopped.
"""
import glob
import os
import shutil
import subprocess
import sys
import tempfile
import time

TOP = os.path.dirname(os.path.dirname(os.path.abspath(__file__)))
CRATE = os.path.join(TOP, "crates", "twkb_tool")
BUILT = os.path.join(TOP, "build", "twkb_tool")
KEPT = os.path.join(TOP, "build", "try", "twkb_tool")
LOG = os.path.join(TOP, "build", "try", "log")
# The status of a program that a sanitizer stops: its own choice would be 1, which says that a layer is refused.
STOPPED = 99
UNJUDGED = 3


def say(text):
    print(text, file=sys.stderr, flush=True)


def is_of(program, sources):
    try:
        with open(f"{program}.sources", encoding="utf-8") as told:
            return told.read() == sources and os.path.exists(program)
    except FileNotFoundError:
        return False


def opened(pipe, rt):
    """The writer's end of a pipe, once the program has opened the reader's; None if rt has ended before."""
    while rt.poll() is None:
        try:
            return os.open(pipe, os.O_WRONLY | os.O_NONBLOCK)
        except OSError:
            time.sleep(0.05)
    return None


def keep(program, sources):
    shutil.copy(program, f"{KEPT}.new")
    os.replace(f"{KEPT}.new", KEPT)
    with open(f"{KEPT}.sources", "w", encoding="utf-8") as told:
        told.write(sources)


def compiled(sources):
    """Compiles the program and keeps it. Returns whether that went well.

    rt removes its program when a run has ended. So this run reads a pipe, and the program is copied while it waits for bytes.
    """
    os.makedirs(os.path.dirname(KEPT), exist_ok=True)
    with tempfile.TemporaryDirectory(prefix="try-") as folder, open(LOG, "wb") as log:
        pipe = os.path.join(folder, "pipe")
        os.mkfifo(pipe)
        words, environment = ["rt", "try", "--", "check", pipe], os.environ | {"TMPDIR": folder}
        rt = subprocess.Popen(words, cwd=CRATE, env=environment, stdin=subprocess.DEVNULL, stdout=log, stderr=log)
        end = opened(pipe, rt)
        if end is None:
            return False
        found = glob.glob(os.path.join(folder, "**", "program"), recursive=True)
        if found:
            keep(found[0], sources)
        os.close(end)
        return rt.wait() == 0 and len(found) == 1


def program_for(sources):
    """The path of a program of these sources, or None."""
    if is_of(BUILT, sources):
        return BUILT
    if is_of(KEPT, sources):
        say("Nothing is proved here: the program is only compiled. `make build` proves it.")
        return KEPT
    say("Nothing is proved here: the program is only compiled, which takes a minute or two once. `make build` proves it.")
    if compiled(sources):
        return KEPT
    with open(LOG, encoding="utf-8", errors="replace") as log:
        say(log.read().rstrip("\n"))
    say("try.py: rt try compiled no program")
    return None


def main():
    if len(sys.argv) != 2:
        say("usage: tools/try.py FILE")
        return 2
    file = os.path.abspath(sys.argv[1])
    if not os.access(file, os.R_OK):
        say(f"try.py: {file} can't be read")
        return UNJUDGED
    if not shutil.which("rt"):
        say("The Rattle kit is missing: its command rt is not in PATH")
        return UNJUDGED
    sources = subprocess.run([os.path.join(TOP, "tools", "sources.sh")], stdout=subprocess.PIPE, text=True, check=True).stdout
    program = program_for(sources)
    if not program:
        return UNJUDGED
    status = subprocess.run([program, "check", file], env=os.environ | {"ASAN_OPTIONS": f"exitcode={STOPPED}"}).returncode
    if status < 0 or status == STOPPED:
        say("try.py: the program was stopped, so nothing is known of the layer")
        return UNJUDGED
    return status


if __name__ == "__main__":
    sys.exit(main())
