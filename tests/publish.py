#!/usr/bin/env python3
"""Runs examples/scripts/publish_layer.sh over stand-ins of psql, good ones and ones that fail, and over PostGIS where it is here.

usage: tests/publish.py [PROGRAM]   (build/twkb_tool where it is left out)

Whatever fails, the layer that is served stays what it was, its ids stay too, and nothing else is left beside them. PostgreSQL is
started in a folder of its own, by its user where this runs as root, and listens at no port. Where it or PostGIS is missing, a line
says what brings it, and the stand-ins are all that is tried. Prints each difference, and last a line `N passed, M failed`; the
status is 1 where any failed.
"""
import fcntl
import hashlib
import os
import shutil
import signal
import subprocess
import sys
import tempfile
import threading

import publish_postgis
from database import Database, programs
from harness import TOP, count, counts, left_out, written

SCRIPT = os.path.join(TOP, "examples", "scripts", "publish_layer.sh")
BEFORE = b"what was served before"
ROWS = ["01000204 7", "01000408 b c", "0100060c 9"]
LAYER, IDS = bytes.fromhex("01000204010004080100060c"), "7\nb c\n9\n"
OTHERS, OTHER_LAYER = ["01000204 1", "0100060c 3"], bytes.fromhex("010002040100060c")


def digest(data):
    return hashlib.sha256(data).hexdigest()


def told(rows):
    """What psql writes: the rows, and their number."""
    return "".join(f"{row}\n" for row in (*rows, f"rows {len(rows)}"))


def ids_of(file):
    """The ids that belong to a layer, as a reader finds them, or nothing where there are none."""
    with open(file, "rb") as layer:
        path = os.path.join(f"{file}.ids", digest(layer.read()))
    if os.path.exists(path):
        with open(path, encoding="utf-8", newline="\n") as ids:
            return ids.read()
    return None


class Place:
    """A folder with a served layer, in which the script runs."""

    def __init__(self, folder, program):
        self.folder, self.program = folder, program
        self.served, self.path = os.path.join(folder, "served"), os.path.join(folder, "bin")
        os.makedirs(self.path, exist_ok=True)
        self.fresh()

    def fresh(self):
        shutil.rmtree(self.served, ignore_errors=True)
        os.mkdir(self.served)
        self.file = written(self.served, "coast.twkb", BEFORE)
        return self

    def command(self, name, text):
        """A stand-in for a command."""
        os.chmod(written(self.path, name, f"#!/bin/sh\n{text}\n".encode()), 0o755)

    def psql(self, text, status=0):
        """A psql that writes this and ends so."""
        written(self.path, "told", text.encode())
        self.command("psql", f"cat {self.path}/told\nexit {status}")

    def run(self, *words, file=None, program=None, environment=None, **options):
        """The status and the two outputs of a run."""
        if environment is None:
            environment = {"PATH": f"{self.path}:{os.environ['PATH']}"}
        words = [SCRIPT, *(words or ["coast"]), file or self.file, program or self.program]
        done = subprocess.run(words, capture_output=True, text=True, env=os.environ | environment, **options)
        return done.returncode, done.stdout, done.stderr

    def now(self):
        """The layer, its ids, and what is beside it."""
        with open(self.file, "rb") as layer:
            return layer.read(), ids_of(self.file), sorted(os.listdir(self.served))

    def stays(self, name, status, said, *words, **options):
        """A run that publishes nothing says so, and leaves what was there."""
        before = self.now()
        got, out, error = self.run(*words, **options)
        count(name, (got, out, said in error or error, self.now()), (status, "", True, before))


STAYED = (BEFORE, None, ["coast.twkb"])
PUBLISHED = (LAYER, IDS, ["coast.twkb", "coast.twkb.ids"])


def good_ones(place):
    place.psql(told(ROWS))
    count("all is well", (place.run(), place.now()), ((0, "ok blobs=3 vertices=3\n", ""), PUBLISHED))
    place.psql(told(["none 5", *ROWS, "none 6"]))
    status, _, error = place.fresh().run()
    count("rows with no geometry", (status, "2 rows have no geometry" in error, place.now()), (0, True, PUBLISHED))
    place.psql(told([]))
    place.fresh().stays("a table without rows", 3, "no row of coast has a geometry")
    place.psql(told(["none 5"]))
    place.stays("no row has a geometry", 3, "no row of coast has a geometry")
    status, out, _ = place.run("--allow-empty", "coast")
    count("none, and that is said", (status, out, place.now()[:2]), (0, "ok blobs=0 vertices=0\n", (b"", "")))


def bad_answers(place):
    place.fresh()
    bytea = ["\\x" + row for row in ROWS]
    for name, text, ended, said in (
        ("the database is down", "", 2, "psql ended with status 2"),
        ("it is down, and nobody says so", "", 0, "and then not their number"),
        ("the query dies half way", "".join(f"{row}\n" for row in ROWS[:2]), 1, "psql ended with status 1"),
        ("it dies, and nobody says so", "".join(f"{row}\n" for row in ROWS[:2]), 0, "and then not their number"),
        ("a row is missing", told(ROWS).replace(ROWS[1] + "\n", ""), 0, "psql gave 2 rows, and then not their number"),
        ("it dies in mid-row", "01000204 7\n0100", 0, "and then not their number"),
        ("it dies in the number", told(ROWS)[:-1], 0, "and then not their number"),
        ("encode() is forgotten", told(bytea), 0, "row number 1 is no blob in hexadecimal digits"),
        ("half of a digit pair", told([ROWS[0], ROWS[1].replace("08 ", "0 "), ROWS[2]]), 0, "row number 2 is no blob in hexadecimal"),
        ("a blob is null", told([ROWS[0], " 8", ROWS[2]]), 0, "row number 2 is no blob in hexadecimal digits"),
        ("an id is missing", told([ROWS[0], "01000408", ROWS[2]]), 0, "row number 2 is no blob in hexadecimal digits and an id"),
        ("two blobs in a row", told(["0100020401000408 7", ROWS[2]]), 0, "2 rows with a geometry, and the layer is: ok blobs=3"),
        ("rows that can't be", told([ROWS[0], "!no such: 8", "!no such: 9"]), 0, "no such: 8\npublish_layer.sh: no such: 9\n"),
    ):
        place.psql(text, ended)
        place.stays(name, 3, said)
    place.psql(told([ROWS[0], "0102030204 8"]))
    status, out, _ = place.run()
    count("a false size", (status, out, place.now()), (1, "no blob=1 offset=6 kind=size\n", STAYED))


def bad_words(place):
    place.fresh().psql(told(ROWS))
    for words in (
        ["coast; drop table coast"], ["coast\n, other"], ["coast coast"], ['"coast'], ["a.b.c"], ["1coast"], [""],
        ["coast", "one", "more"], ["--id", "id, 5", "coast"], ["--id", "a.b", "coast"], ["--geom", "null) as geom --", "coast"],
        ["--boxes", "some", "coast"], ["--precision", "8", "coast"], ["--precision", "-8", "coast"],
        ["--precision-z", "-1", "coast"], ["--precision-m", "x", "coast"], ["--nothing", "1", "coast"], ["--id"],
    ):
        place.stays(f"words: {words}", 2, "\nusage: publish_layer.sh [OPTION ..] TABLE FILE", *words)
    place.command("dies", "kill -9 $$")
    for program, said in (("/missing/twkb_tool", "status 127"), (os.path.join(place.path, "dies"), "status 137")):
        place.stays(f"a program with {said}", 3, said, program=program)


def where_it_goes(place):
    """Owner and mode of the old file are kept, a link is followed, and nothing but a file is replaced."""
    place.fresh().psql(told(ROWS))
    os.chmod(place.file, 0o640)
    if os.geteuid() == 0:
        os.chown(place.file, 12, 34)
    before, ids = os.stat(place.file), os.path.join(f"{place.file}.ids", digest(LAYER))
    count("over a file of another mode", place.run()[0], 0)
    count("owner and mode", [rights(path) for path in (place.file, ids)], 2 * [(0o640, before.st_uid, before.st_gid)])
    link, new = os.path.join(place.folder, "link.twkb"), os.path.join(place.served, "new.twkb")
    os.symlink("served/coast.twkb", link)
    place.psql(told(OTHERS))
    count("a link", (place.run(file=link)[0], os.readlink(link), place.now()[0]), (0, "served/coast.twkb", OTHER_LAYER))
    count("a new file", (place.run(file=new, umask=0o027)[0], rights(new)), (0, (0o640, os.geteuid(), os.getegid())))
    for what in (place.served, "/missing/coast.twkb"):
        place.stays(f"into {what}", 3, f"{what} stays as it was", file=what)
    if os.geteuid() == 0:
        os.chmod(place.fresh().served, 0o777)
        place.stays("an owner that can't be kept", 3, "its owner and mode can't be kept", user="nobody")


def rights(path):
    told = os.stat(path)
    return told.st_mode & 0o7777, told.st_uid, told.st_gid


def pairs(place):
    """The ids of the layer before stay, older ones go, and so does what a killed run left. What is none of the script's stays."""
    place.fresh().psql(told(ROWS))
    place.run()
    os.mkdir(os.path.join(f"{place.file}.ids", ".publish"))
    written(f"{place.file}.ids", "notes.txt", b"mine")
    for rows in (OTHERS, ROWS[:1], ROWS[1:]):
        place.psql(told(rows))
        count(f"pairs, {len(rows)} rows", place.run()[0], 0)
    layers = [bytes.fromhex("".join(row.split()[0] for row in rows)) for rows in (ROWS[:1], ROWS[1:])]
    count("pairs, what is left", sorted(os.listdir(f"{place.file}.ids")), sorted([*map(digest, layers), "notes.txt"]))
    count("pairs, the ids", ids_of(place.file), "b c\n9\n")


def steps_that_fail(place):
    """A step that fails after the check, or another run, leaves the layer with its ids."""
    place.fresh().psql(told(OTHERS))
    place.run()
    place.psql(told(ROWS))
    for name, text, said in (
        ("sync", "exit 1", "the disk doesn't take it"),
        ("mv", "case $3 in */layer) exit 1 ;; esac; exec /bin/mv \"$@\"", "it can't be moved there"),
        ("xxd", "cat > /dev/null; exit 1", "xxd ended with status 1"),
    ):
        place.command(name, text)
        place.stays(f"{name} fails", 3, said)
        os.remove(os.path.join(place.path, name))
    count("the ids of the layer that stays", ids_of(place.file), "1\n3\n")
    held = os.open(f"{place.file}.ids", os.O_RDONLY)
    fcntl.flock(held, fcntl.LOCK_EX)
    place.stays("another run", 3, "another run is publishing it")
    os.close(held)


def stopped(place):
    """A run that is told to end while it waits for the database ends, and so does its psql. Nothing is left of it."""
    fifo = os.path.join(place.fresh().folder, "fifo")
    os.mkfifo(fifo)
    place.command("psql", f"echo $$ > {fifo}; exec sleep 600")
    words = [SCRIPT, "coast", place.file, place.program]
    run = subprocess.Popen(words, env=os.environ | {"PATH": f"{place.path}:{os.environ['PATH']}"})
    with open(fifo) as said:
        query = int(said.read())
    run.send_signal(signal.SIGTERM)
    count("told to end", (run.wait(60), place.now()), (143, STAYED))
    ended = subprocess.run(["tail", "--pid", str(query), "-f", os.devnull], timeout=60)
    count("its psql ends", ended.returncode, 0)


def read_meanwhile(place):
    """Who reads while layers are published always finds the ids of the layer that was read, or reads again."""
    known = {LAYER: IDS, OTHER_LAYER: "1\n3\n", bytes.fromhex("01000204"): "7\n"}
    place.fresh().psql(told(ROWS))
    place.run()
    done, wrong, read = threading.Event(), [], set()

    def reader():
        while not (done.is_set() and read):
            with open(place.file, "rb") as file:
                layer = file.read()
            try:
                with open(os.path.join(f"{place.file}.ids", digest(layer))) as ids:
                    wrong.extend([] if ids.read() == known[layer] else [layer])
                read.add(layer)
            except FileNotFoundError:
                continue

    thread = threading.Thread(target=reader)
    thread.start()
    for rows in 7 * (OTHERS, ROWS[:1], ROWS):
        place.psql(told(rows))
        count("published while it is read", place.run()[0], 0)
    done.set()
    thread.join()
    count("layers that were read with the ids of others", wrong, [])


def main():
    program = os.path.abspath(sys.argv[1] if len(sys.argv) > 1 else os.path.join(TOP, "build", "twkb_tool"))
    if not shutil.which("xxd"):
        left_out("xxd is missing: apt-get install xxd; nothing is published")
    else:
        with tempfile.TemporaryDirectory() as folder:
            os.chmod(folder, 0o755)
            place = Place(folder, program)
            for test in (good_ones, bad_answers, bad_words, where_it_goes, pairs, steps_that_fail, stopped, read_meanwhile):
                test(place)
            there = programs()
            if there and shutil.which("psql"):
                publish_postgis.tried(place, Database(there, folder))
            else:
                left_out("PostGIS is missing: apt-get install postgresql-postgis; the script is tried with stand-ins alone")
    print(f"{counts['passed']} passed, {counts['failed']} failed")
    return int(counts["failed"] > 0)


if __name__ == "__main__":
    sys.exit(main())
