#!/usr/bin/env python3
"""Proves crates, each after the crates that it uses, and side by side where neither uses the other.

usage: tools/prove.py [--every SECONDS] CRATE..   (rt of the Rattle kit in PATH)

crates.txt says which crate uses which. What isn't named here is taken as proved before. A library is proved by `rt lib`. A
program is proved and built by `rt run`, which runs it on an empty layer. What they say goes to build/CRATE.log. A line says
what is begun and what is done, and one a minute, or every SECONDS, how far it is. Where a crate fails, its log is printed,
what else runs is stopped, and the status is 1. It is 2 for words that ask for nothing.
"""
import argparse
import os
import signal
import subprocess
import sys
import time

TOP = os.path.dirname(os.path.dirname(os.path.abspath(__file__)))
STEP = 0.1


def stands_on():
    """The crates that each crate of crates.txt uses."""
    found = {}
    with open(os.path.join(TOP, "crates.txt"), encoding="utf-8") as rows:
        for row in rows:
            names, colon, below = row.partition("#")[0].partition(":")
            if colon:
                found[names.split()[0]] = set(below.split())
    return found


def log_of(crate):
    return os.path.join(TOP, "build", f"{crate}.log")


class Proof:
    """A crate that is being proved, with all processes that this takes."""

    def __init__(self, crate):
        folder = os.path.join(TOP, "crates", crate)
        is_program = os.path.exists(os.path.join(folder, "src", "main.rt"))
        words = ["rt", "run", "--", "check", "/dev/null"] if is_program else ["rt", "lib"]
        self.crate, self.start = crate, time.monotonic()
        with open(log_of(crate), "wb") as log:
            self.process = subprocess.Popen(words, cwd=folder, stdout=log, stderr=log, start_new_session=True)

    def status(self):
        return self.process.poll()

    def seconds(self):
        return round(time.monotonic() - self.start)

    def stop(self):
        if self.process.poll() is None:
            os.killpg(self.process.pid, signal.SIGTERM)
            self.process.wait()


class Run:
    """What waits, what runs and what is done of some crates."""

    def __init__(self, crates, below):
        self.waiting, self.running, self.done, self.all = list(crates), [], 0, len(crates)
        self.below, self.start = below, time.monotonic()

    def begin(self):
        """Begins each crate that uses none that waits or runs."""
        open_ones = {*self.waiting, *(proof.crate for proof in self.running)}
        for crate in [crate for crate in self.waiting if not self.below[crate] & open_ones]:
            self.waiting.remove(crate)
            self.running.append(Proof(crate))
            number = self.done + len(self.running)
            print(f"proving {crate}, {number} of {self.all}", flush=True)

    def end(self):
        """Takes away what has ended. Answers the crate that failed, if one has."""
        for proof in [proof for proof in self.running if proof.status() is not None]:
            if proof.status() != 0:
                return proof.crate
            self.running.remove(proof)
            self.done += 1
            print(f"proved {proof.crate} in {proof.seconds()} s", flush=True)
        return None

    def tell(self):
        minutes = (time.monotonic() - self.start) / 60
        names = " and ".join(proof.crate for proof in self.running)
        print(f"{minutes:.0f} min: {self.done} of {self.all} proved, at work on {names}", flush=True)

    def stop(self):
        for proof in self.running:
            proof.stop()


def proved(crates, below, every):
    """Proves the crates. Answers the one that failed, if one has."""
    run = Run(crates, below)
    try:
        told = run.start
        run.begin()
        while run.running:
            time.sleep(STEP)
            failed = run.end()
            if failed:
                return failed
            run.begin()
            if run.running and time.monotonic() - told >= every:
                told += every
                run.tell()
    finally:
        run.stop()
    if run.waiting:
        raise SystemExit(f"prove.py: crates.txt has these stand on one another: {' '.join(run.waiting)}")
    return None


def main():
    words = argparse.ArgumentParser(description="Proves crates, side by side where neither stands on the other.")
    words.add_argument("--every", metavar="SECONDS", type=float, default=60, help="how often a line says how far it is")
    words.add_argument("crates", metavar="CRATE", nargs="+")
    asked = words.parse_args()
    # So that what runs is stopped then too.
    signal.signal(signal.SIGTERM, lambda *_: sys.exit(128 + signal.SIGTERM))
    below = stands_on()
    unknown = [crate for crate in asked.crates if crate not in below]
    if unknown:
        words.error(f"crates.txt has no {' and no '.join(unknown)}")
    os.makedirs(os.path.join(TOP, "build"), exist_ok=True)
    failed = proved(list(dict.fromkeys(asked.crates)), below, asked.every)
    if failed:
        with open(log_of(failed), encoding="utf-8", errors="replace") as log:
            sys.stderr.write(log.read())
        print(f"prove.py: {failed} isn't proved", file=sys.stderr)
    return 1 if failed else 0


if __name__ == "__main__":
    sys.exit(main())
